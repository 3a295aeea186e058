#!/usr/bin/env python3
"""Brings the repository's own definitions and lemmas to snake case: run once at the top of a checkout, after the kit's port.py.

A definition, lemma or field that specs/ or proofs/ declares in lowerCamelCase or with dashes gets underscores, everywhere: in specs/, proofs/, src/ and
must-fail/, and, where they stand in backticks, in README.md and docs/. Where a definition and a lemma would fall together, the lemma keeps its dash or,
in the places of APART, gets it back. What a function's own proof (proofs/F/Proof.antt) calls its answers stays, and so do functions of src/, files and
modules.
"""

import collections
import glob
import re

TOKEN = re.compile(r"[^\s(){};,.\[\]\"`⌜⌝|:=]+")
DECLARED = re.compile(r"(?m)^\s*(?:abbrev |unfoldable |abstract )*(?:pub )?(?:abbrev |unfoldable |record |data )*([^\s(){};,.:⌜⌝]+)(?: \{?[^:\n=]*)? :(?= )")

# Lemmas that the kit's script gave the name that a definition has now, and the files that speak of them.
APART = {
    "all_small": ["law_exchange/proofs/Worked"],
    "goes_on": ["law_exchange/proofs/Course"],
    "in_order": ["field_laws/proofs/LinesRead"],
    "is_address": ["field_laws/proofs/Addresses"],
    "is_name": ["field_lines/proofs/Names", "field_lines/proofs/name_of/Proof"],
    "no_name": ["field_lines/proofs/Names", "field_lines/proofs/name_of/Proof"],
    "none_found": ["field_laws/proofs/Answers", "field_laws/proofs/Stretches"],
    "past_words": ["law_line/proofs/Calls"],
    "row_is": [],
}


def read(path):
    with open(path, encoding="utf-8") as f:
        return f.read()


def snake(name):
    return re.sub(r"(?<=[a-z0-9])([A-Z])", lambda m: "_" + m[1].lower(), name.replace("-", "_"))


def is_camel(name):
    return bool(re.match(r"[a-z]\w*[a-z0-9][A-Z]", name))


def declared():
    """Each declared name, and whether a file other than a function's own proof declares it."""
    found = collections.defaultdict(bool)
    for path in glob.glob("crates/*/specs/**/*.antt", recursive=True) + glob.glob("crates/*/proofs/**/*.antt", recursive=True):
        for name in DECLARED.findall(re.sub(r"--[^\n]*", "", read(path))):
            found[name] |= not path.endswith("/Proof.antt")
    return found


def table(found):
    mine = {n for n in found if found[n]}
    camel = {n for n in found if is_camel(n)}
    dashed = {n for n in mine if "-" in n and not is_camel(n) and re.fullmatch(r"[\w'-]+", n)}
    new = {n: snake(n) for n in camel}
    taken = set(new.values())
    for n in sorted(dashed):
        if snake(n) not in taken and snake(n) not in found:
            new[n] = snake(n)
            taken.add(snake(n))
    return new, camel


def turned(text, new):
    return TOKEN.sub(lambda m: new.get(m[0], m[0]), text)


def set_apart(path, text):
    """The lemmas of APART with a dash, but in a path to a function's proof."""
    for name, files in APART.items():
        if not files or any(path == f"crates/{f}.antt" for f in files):
            text = re.sub(rf"(?<![\w'-])(?<!proofs\.){name}(?![\w'-])", name.replace("_", "-"), text)
    return text


def turn_lines(text, mark, new, prose):
    """Code by the whole table; what follows the comment's mark by the definitions alone."""
    lines = []
    for line in text.split("\n"):
        code, sep, note = line.partition(mark)
        lines.append(turned(code, new) + sep + turned(note, prose))
    return "\n".join(lines)


def write(path, text):
    if text != read(path):
        with open(path, "w", encoding="utf-8") as f:
            f.write(text)


def main():
    new, camel = table(declared())
    prose = {n: new[n] for n in camel}
    for path in glob.glob("crates/*/specs/**/*.antt", recursive=True) + glob.glob("crates/*/proofs/**/*.antt", recursive=True):
        write(path, turn_lines(set_apart(path, read(path)), "--", new, prose))
    for path in glob.glob("crates/*/src/**/*.rt", recursive=True):
        write(path, turned(read(path), prose))
    for path in glob.glob("crates/*/must-fail/*.edit"):
        lines = read(path).split("\n")
        write(path, "\n".join(turned(l, new if l.startswith(("old:", "new:")) else prose) for l in lines))
    for path in ["README.md"] + glob.glob("docs/*.md"):
        write(path, re.sub(r"`[^`\n]+`", lambda m: turned(m[0], new), read(path)))


if __name__ == "__main__":
    main()
