#!/usr/bin/env python3
"""Lists the places of each point of docs/DESIGN-PASS.md in src/, one a line, and counts them.

    python3 tools/design_places.py            the counts
    python3 tools/design_places.py POINT      the places of one point, as 1a
"""
import collections
import itertools
import pathlib
import re
import sys

ROOT = pathlib.Path(__file__).resolve().parent.parent / 'crates'
WORD = re.compile(r"[A-Za-z_]\w*")
KEPT = {'if', 'else', 'match', 'while', 'for', 'in', 'loop', 'return', 'let', 'mut', 'as', 'true', 'false', 'break'}


def sources():
    for path in sorted(ROOT.glob('*/src/*.rt')):
        yield str(path.relative_to(ROOT)), path.read_text()


def line_of(text, at):
    return text.count('\n', 0, at) + 1


def braced(text, start):
    depth = 0
    for i in range(start, len(text)):
        if text[i] == '{':
            depth += 1
        elif text[i] == '}':
            depth -= 1
            if depth == 0:
                return i
    return len(text)


def functions():
    """Each function: its file, line, name, signature, clauses and body."""
    for name, text in sources():
        for m in re.finditer(r'^( *)(pub )?(extern "C" )?fn (\w+)', text, re.M):
            end = re.compile(r'^' + m.group(1) + r'\}', re.M).search(text, m.end())
            whole = text[m.start():end.end()] if end else text[m.start():]
            head = re.search(r'^' + m.group(1) + r'\{|\{$', whole, re.M)
            if not head:
                continue
            yield name, line_of(text, m.start()), m.group(4), whole[:head.start()], whole[head.start():]


def items(kind):
    for name, text in sources():
        for m in re.finditer(r'^(?:pub )?' + kind + r' (\w+)[^\n{;]*\{', text, re.M):
            yield name, line_of(text, m.start()), m.group(1), text[m.end():braced(text, m.end() - 1)]


def point_1a():
    "own enums of the shape of Option or Result: two variants, one with data or one of them a refusal with data; or a variant None, Unknown or Refused(..) among others"
    for name, line, enum, body in items('enum'):
        variants = re.findall(r'^    (\w+)(\([^)]*\)|\s*\{[^}]*\})?,?$', body, re.M)
        with_data = [v for v, data in variants if data]
        two = len(variants) == 2 and len(with_data) >= 1
        marked = any(v in ('None', 'Unknown') for v, _ in variants) or 'Refused' in with_data
        if two or marked:
            yield f'{name}:{line}: {enum} {{ {", ".join(v + d for v, d in variants[:4])} }}'


def point_1b():
    "structs with a flag or a refusal, None among its values, beside a value"
    flag = re.compile(r'\b(good|found|named|another|readable|chosen|entered): bool|\brefusal: (FieldRefusal|Refusal)\b')
    for name, line, struct, body in items('struct'):
        m = flag.search(body)
        if m:
            yield f'{name}:{line}: {struct} {{ {m.group(0)}, .. }}'


def point_1c():
    "numbers for refusals and kinds: fields and parameters, and tests of a code or a kind by its number"
    number = re.compile(r'\b(code|refusal|refused|kind|opening): u8\b|\.code\(\) [=!]= \d|\b(code|number|kind) [=!]= \d+|show_outcome\(rt, (\d|event\.kind)')
    for name, text in sources():
        for m in number.finditer(text):
            start = text.rfind('\n', 0, m.start()) + 1
            yield f'{name}:{line_of(text, m.start())}: {text[start:text.find(chr(10), m.start())].strip()}'


def shape(body):
    plain = re.sub(r'//[^\n]*', '', body)
    tokens = re.findall(r"b?'[^']*'|b?\"[^\"]*\"|\w+|[^\s\w]", plain)
    out = []
    for token in tokens:
        if token in KEPT or not re.match(r"\w|b?['\"]", token):
            out.append(token)
        elif re.match(r"\d|b?['\"]", token):
            out.append('0')
        else:
            out.append('n')
    return ' '.join(out), len(out)


def point_2():
    "functions of one shape: bodies that differ only in names and numbers, of 14 tokens or more"
    groups = collections.defaultdict(list)
    for name, line, function, head, body in functions():
        if name.startswith('bench_c/'):
            continue
        text, length = shape(body)
        if length >= 14:
            groups[text].append(f'{name}:{line}: {function}')
    for group in groups.values():
        if len(group) > 1:
            for place in group:
                yield place + f'   (one of {len(group)}: {group[0].split(": ")[1]})'


def point_3():
    "loops that are no `for`"
    for name, text in sources():
        for m in re.finditer(r'^ *(while .*|loop) \{$', text, re.M):
            yield f'{name}:{line_of(text, m.start())}: {m.group(0).strip()}'


def point_4():
    "equality, order, copying, conversion and printing by hand: functions that match an enum to numbers or back, that compare or copy field by field, and prints of a key as bytes"
    table = re.compile(r'=> (\d+|0x[0-9A-Fa-f_]+|true|false|\w+::\w+),')
    named = re.compile(r'^(same\w*|least|smaller|larger|anew|event_anew|\w+_anew|word_bits|left_over|four_at_most|counted|unlike|differs|opposite|flag|is_set)$')
    for name, line, function, head, body in functions():
        arms = re.findall(r'=>', body)
        if named.match(function) or (arms and len(table.findall(body)) == len(arms) and 'match' in body):
            yield f'{name}:{line}: {function}'
        if re.search(r'if \w+ <=? \w+ \{ \w+ \} else \{ \w+ \}', body) and not named.match(function):
            yield f'{name}:{line}: {function}'
    for name, text in sources():
        for m in re.finditer(r'put\w*\(\s*rt,\s*b"|put\w*\(\s*&rt,\s*b"', text):
            yield f'{name}:{line_of(text, m.start())}: {m.group(0)}..'


def point_5():
    "clauses `requires` that stand in three functions or more, and parameters that stand together in four or more"
    clauses = collections.defaultdict(list)
    together = collections.defaultdict(list)
    for name, line, function, head, body in functions():
        if name.startswith('bench_c/'):
            continue
        for clause in re.findall(r'requires(?: \w+)? \{ (.*) \}', head):
            clauses[clause].append(f'{name}:{line}: {function}')
        listed = re.search(r'\((.*?)\)(?: ->|\n|$)', head, re.S)
        parameters = re.findall(r'(\w+): ([^,]+?)(?:,|$)', listed.group(1).replace('\n', ' ')) if listed else []
        kept = sorted({(p, t.strip()) for p, t in parameters if t.strip() not in ('&impl Print', '&mut [u8]') or p != 'rt'})
        for pair in itertools.combinations(kept, 3):
            together[pair].append(f'{name}:{line}: {function}')
    for clause, places in clauses.items():
        if len(places) >= 3:
            for place in places:
                yield f'{place}   requires {clause}'
    seen = collections.Counter()
    for three, places in sorted(together.items(), key=lambda x: -len(x[1])):
        if len(places) >= 4:
            for place in places:
                seen[place] += 1
    for place in sorted(seen):
        yield f'{place}   parameters that stand together elsewhere'


def point_6():
    "arrays with the count of what is in them beside, in structs and in parameters; a slice with a count of those that matter"
    counted = re.compile(r'\b(count|told|have|kept|\w+_told): (usize|u32|u8)\b')
    array = re.compile(r'\[\w+; \w+\]|&(?:mut )?\[\w+\]')
    for name, line, struct, body in items('struct'):
        if counted.search(body) and re.search(r'\[\w+; \w+\]', body):
            yield f'{name}:{line}: {struct}'
    for name, line, function, head, body in functions():
        if name.startswith('bench_c/'):
            continue
        if counted.search(head) and array.search(head):
            yield f'{name}:{line}: {function}'


def point_7():
    "parameters that say which step to run: a flag that the body tests"
    for name, line, function, head, body in functions():
        for flag in re.findall(r'\b(\w+): bool', head):
            if re.search(r'(if|&&|\|\|) !?' + flag + r'\b', body):
                yield f'{name}:{line}: {function} ({flag})'


def point_8():
    "answers, invariants and lemmas: files of proofs/ and their lines"
    for path in sorted(ROOT.glob('*/proofs/**/*.antt')):
        yield f'{path.relative_to(ROOT)}: {len(path.read_text().splitlines())}'


POINTS = {'1a': point_1a, '1b': point_1b, '1c': point_1c, '2': point_2, '3': point_3, '4': point_4, '5': point_5, '6': point_6, '7': point_7, '8': point_8}


def main():
    if len(sys.argv) > 1:
        for place in POINTS[sys.argv[1]]():
            print(place)
        return
    for point, places in POINTS.items():
        print(f'{point:3} {len(list(places())):5}  {places.__doc__}')


main()
