/* Runs the proved loader and the plain one on the same cases, and compares all that they give back.

   compare COUNT SEED [FIRST] runs COUNT cases of the seed, from case FIRST on. It ends with status 1 at the
   first difference, or (unless FIRST is given) when a refusal or a command was not met at all, no command of a kind
   that writes was accepted over a seam, or no flash case met its ceiling of words fetched. In flash mode 14 can't be
   met, since a run stops when its session ends; in sent mode 18 and 25 can't, since what may be fed loads less than 2^29
   bytes and has less than 11,000 commands. 17 and 18 are for the DM648, and 18 takes the heavy cases: with less than 150,000
   cases it may not be met.
   Each case is run twice by each loader: as it is, and with words chosen, whose numbers are compared too. */
#include "ais.h"
#include "cases.h"
#include "guards.h"
#include "plain_loader.h"

#include <inttypes.h>
#include <stdio.h>
#include <stdlib.h>
#include <string.h>
#include <time.h>

typedef uint64_t sent_entry(const uint8_t *, size_t, uint8_t *, size_t, const uint8_t *, size_t, uint8_t *, size_t);
typedef uint64_t dm648_entry(uint8_t, const uint8_t *, size_t, uint8_t *, size_t, const uint8_t *, size_t, uint8_t *,
                             size_t);
typedef uint64_t bits_session(uint8_t, uint8_t, const uint8_t *, size_t, const uint8_t *, size_t, uint8_t *, size_t,
                              uint8_t *, size_t, const uint8_t *, size_t, uint8_t *, size_t);
typedef uint64_t bits_run(uint8_t, const uint8_t *, size_t, const uint8_t *, size_t, uint8_t *, size_t, uint8_t *, size_t,
                          const uint8_t *, size_t, uint8_t);
typedef uint64_t flash_entry(const uint8_t *, size_t, uint8_t *, size_t, const uint8_t *, size_t, uint8_t);

enum { REFUSAL_LIMIT = 256 };

/* What one loader was lent, and what it gave back. */
struct outcome {
    struct lent map;
    struct lent script;
    struct lent memory;
    struct lent room;
    struct lent chosen; /* these two are empty where no words are chosen */
    struct lent numbers;
    uint64_t value;
};

/* Counts of one thing, by dialect and mode. */
typedef uint64_t counts[PLAIN_DIALECTS][PLAIN_MODES];

struct tally {
    counts cases;
    counts refusals[REFUSAL_LIMIT];
    counts watched[REFUSAL_LIMIT]; /* the refusals where words are chosen */
    counts numbered;               /* bits of chosen words that have a number */
    counts retried;          /* cases with a retry, flash only */
    counts entered_by_retry; /* and of these, those that entered */
    counts retries;          /* counted in all */
    counts fetched;          /* words in all flash cases */
    counts at_ceiling;       /* flash cases that fetched as many words as any may */
};

/* ---- Running one loader ---- */

struct loader {
    sent_entry *bytes;
    sent_entry *halves;
    dm648_entry *dm648;
    flash_entry *flash[PLAIN_DIALECTS];
    bits_session *bits_sent;
    bits_run *bits_flash;
};

static const struct loader PROVED = {ais_sent_session,  ais_half_session,
                                     ais_dm648_session, {ais_flash_run, ais_dm648_run},
                                     ais_bits_session,  ais_bits_run};
static const struct loader COUNTING = {.flash = {ais_flash_fetched}};
static const struct loader PLAIN = {plain_sent_session,  plain_half_session,
                                    plain_dm648_session, {plain_flash_run, plain_dm648_run},
                                    plain_bits_session,  plain_bits_run};

static uint64_t run_flash(const struct bench_case *bench_case, struct outcome *outcome, const struct loader *loader)
{
    return loader->flash[bench_case->script.is_dm648](outcome->map.bytes, outcome->map.length, outcome->memory.bytes,
                                                      outcome->memory.length, outcome->script.bytes,
                                                      outcome->script.length, bench_case->limit);
}

static uint64_t run_sent(const struct bench_case *bench_case, struct outcome *outcome, const struct loader *loader)
{
    struct lent *map = &outcome->map, *script = &outcome->script, *memory = &outcome->memory, *room = &outcome->room;

    if (bench_case->script.is_dm648)
        return loader->dm648(bench_case->line, map->bytes, map->length, memory->bytes, memory->length, script->bytes,
                             script->length, room->bytes, room->length);
    return (bench_case->script.has_halves ? loader->halves : loader->bytes)(
        map->bytes, map->length, memory->bytes, memory->length, script->bytes, script->length, room->bytes,
        room->length);
}

/* Either of these with words chosen. */
static uint64_t run_watched(const struct bench_case *bench_case, struct outcome *outcome, const struct loader *loader)
{
    struct lent *map = &outcome->map, *script = &outcome->script, *memory = &outcome->memory, *room = &outcome->room;
    struct lent *chosen = &outcome->chosen, *numbers = &outcome->numbers;

    if (bench_case->script.is_flash)
        return loader->bits_flash(bench_case->dialect, map->bytes, map->length, chosen->bytes, chosen->length,
                                  memory->bytes, memory->length, numbers->bytes, numbers->length, script->bytes,
                                  script->length, bench_case->limit);
    return loader->bits_sent(bench_case->line, bench_case->dialect, map->bytes, map->length, chosen->bytes,
                             chosen->length, memory->bytes, memory->length, numbers->bytes, numbers->length,
                             script->bytes, script->length, room->bytes, room->length);
}

/* The plain loader gets no guards, so that the sanitizer sees the first byte too far. */
static void run_loader(const struct bench_case *bench_case, struct outcome *outcome, size_t guard,
                       const struct loader *loader, bool is_watched)
{
    const struct writer *script = &bench_case->script;
    const struct choice *choice = &bench_case->choice;

    outcome->chosen = lend_copy(choice->bytes, is_watched ? choice->length : 0, guard);
    outcome->numbers = lend(is_watched ? choice->numbers_length : 0, guard);
    fill_numbers(bench_case, outcome->numbers.bytes, outcome->numbers.length);
    outcome->map = lend_copy(bench_case->map.bytes, bench_case->map.length, guard);
    outcome->script = lend_copy(script->bytes, script->length, guard);
    outcome->memory = lend(bench_case->memory_length, guard);
    outcome->room = lend(script->is_flash ? 0 : bench_case->room_length, guard);
    fill_memory(bench_case, outcome->memory.bytes, outcome->memory.length);
    fill_room(bench_case, outcome->room.bytes, outcome->room.length);
    outcome->value = (is_watched ? run_watched : script->is_flash ? run_flash : run_sent)(bench_case, outcome, loader);
}

static void free_outcome(struct outcome *outcome)
{
    free(outcome->map.whole);
    free(outcome->script.whole);
    free(outcome->memory.whole);
    free(outcome->room.whole);
    free(outcome->chosen.whole);
    free(outcome->numbers.whole);
}

/* ---- Comparing ---- */

/* The room past the replies, against what it held before the call. */
static bool room_past_replies_kept(const struct bench_case *bench_case, const struct outcome *outcome)
{
    size_t count = (uint32_t)outcome->value;
    struct lent before = lend(outcome->room.length, 0);
    bool is_kept = count <= before.length;

    fill_room(bench_case, before.bytes, before.length);
    if (is_kept)
        is_kept = memcmp(before.bytes + count, outcome->room.bytes + count, before.length - count) == 0;
    free(before.whole);
    if (!is_kept)
        printf("room past %zu reply bytes was changed\n", count);
    return is_kept;
}

/* What was lent to be read only, and the guards around everything. */
static bool nothing_else_changed(const struct bench_case *bench_case, const struct outcome *outcome)
{
    const struct lent *map = &outcome->map, *script = &outcome->script, *chosen = &outcome->chosen;

    if (memcmp(map->bytes, bench_case->map.bytes, map->length) == 0 &&
        memcmp(script->bytes, bench_case->script.bytes, script->length) == 0 &&
        memcmp(chosen->bytes, bench_case->choice.bytes, chosen->length) == 0 && guards_hold(map) &&
        guards_hold(script) && guards_hold(chosen) && guards_hold(&outcome->numbers) &&
        guards_hold(&outcome->memory) && guards_hold(&outcome->room))
        return true;
    printf("bytes were changed that were lent for reading, or not lent at all\n");
    return false;
}

static bool same_outcome(const struct bench_case *bench_case, const struct outcome *proved, const struct outcome *plain)
{
    bool is_same = true;

    if (proved->value != plain->value) {
        printf("value differs: proved 0x%016" PRIX64 ", plain 0x%016" PRIX64 "\n", proved->value, plain->value);
        is_same = false;
    }
    is_same &= same_bytes("memory", &proved->memory, &plain->memory);
    is_same &= same_bytes("room", &proved->room, &plain->room);
    is_same &= same_bytes("numbers", &proved->numbers, &plain->numbers);
    if (!bench_case->script.is_flash)
        is_same &= room_past_replies_kept(bench_case, proved);
    is_same &= nothing_else_changed(bench_case, proved);
    return is_same;
}

/* The most words that a flash case may fetch. */
static uint64_t ceiling_of(const struct bench_case *bench_case)
{
    return ((uint64_t)bench_case->limit + 1) * (bench_case->script.length / 4);
}

/* Runs the proved loader again, asked for the words fetched: as many as the plain one fetched in its run, which
   was the last, no more than the ceiling, and all else as that run left it. */
static bool same_count(const struct bench_case *bench_case, const struct outcome *plain)
{
    struct outcome counted, expected = *plain;
    bool is_same;

    expected.value = plain->value >> 56 << 32 | plain_fetched;
    run_loader(bench_case, &counted, GUARD, &COUNTING, false);
    is_same = same_outcome(bench_case, &counted, &expected);
    if ((uint32_t)counted.value > ceiling_of(bench_case)) {
        printf("more words were fetched than the ceiling\n");
        is_same = false;
    }
    free_outcome(&counted);
    return is_same;
}

/* ---- Counting ---- */

static unsigned mode_of(const struct writer *script)
{
    if (script->is_flash)
        return PLAIN_FLASH;
    return script->has_halves ? PLAIN_HALVES : PLAIN_BYTES;
}

static void count_flash(struct tally *tally, const struct bench_case *bench_case, unsigned dialect, uint64_t value)
{
    uint64_t retries = value >> 48 & 0xFF;

    tally->retried[dialect][PLAIN_FLASH] += retries != 0;
    tally->entered_by_retry[dialect][PLAIN_FLASH] += retries != 0 && value >> 56 == 0;
    tally->retries[dialect][PLAIN_FLASH] += retries;
    tally->fetched[dialect][PLAIN_FLASH] += plain_fetched;
    tally->at_ceiling[dialect][PLAIN_FLASH] += plain_fetched != 0 && plain_fetched == ceiling_of(bench_case);
}

static unsigned refusal_of(unsigned mode, uint64_t value)
{
    return (unsigned)(mode == PLAIN_FLASH ? value >> 56 : value >> 32) % REFUSAL_LIMIT;
}

/* What words that are chosen add: a refusal, or numbers. Nothing is numbered where it was refused at once. */
static void count_watched(struct tally *tally, const struct bench_case *bench_case, const struct outcome *outcome)
{
    unsigned dialect = bench_case->script.is_dm648, mode = mode_of(&bench_case->script);
    unsigned refusal = refusal_of(mode, outcome->value);

    tally->watched[refusal][dialect][mode]++;
    for (size_t index = 0; refusal == 0 && index < outcome->numbers.length; index += 2)
        tally->numbered[dialect][mode] += (outcome->numbers.bytes[index] | outcome->numbers.bytes[index + 1]) != 0;
}

static void count_case(struct tally *tally, const struct bench_case *bench_case, uint64_t value)
{
    unsigned dialect = bench_case->script.is_dm648, mode = mode_of(&bench_case->script);

    tally->cases[dialect][mode]++;
    tally->refusals[refusal_of(mode, value)][dialect][mode]++;
    if (mode == PLAIN_FLASH)
        count_flash(tally, bench_case, dialect, value);
}

static uint64_t sum_of(const counts row)
{
    uint64_t sum = 0;

    for (unsigned way = 0; way < PLAIN_DIALECTS * PLAIN_MODES; way++)
        sum += row[way / PLAIN_MODES][way % PLAIN_MODES];
    return sum;
}

enum { NAME_WIDTH = 24 };

/* One row of counts, a column for each mode of each dialect. */
static void print_row(const char *name, const counts row)
{
    printf("%-*s", NAME_WIDTH, name);
    for (unsigned way = 0; way < PLAIN_DIALECTS * PLAIN_MODES; way++)
        printf("%10" PRIu64, row[way / PLAIN_MODES][way % PLAIN_MODES]);
    printf("\n");
}

/* The names of the dialects, and below them those of the modes. */
static void print_heading(const char *name)
{
    printf("%-*s", NAME_WIDTH, "");
    for (unsigned dialect = 0; dialect < PLAIN_DIALECTS; dialect++)
        printf("%10s%*s", plain_dialect_name(dialect), 10 * (PLAIN_MODES - 1), "");
    printf("\n%-*s", NAME_WIDTH, name);
    for (unsigned way = 0; way < PLAIN_DIALECTS * PLAIN_MODES; way++)
        printf("%10s", plain_mode_name(way % PLAIN_MODES));
    printf("\n");
}

/* A row for a kind of command. */
static void print_kind(plain_counts *accepted, unsigned kind)
{
    counts row;

    for (unsigned way = 0; way < PLAIN_DIALECTS * PLAIN_MODES; way++)
        row[way / PLAIN_MODES][way % PLAIN_MODES] = (*accepted)[way / PLAIN_MODES][way % PLAIN_MODES][kind];
    print_row(plain_command_name(kind), (const uint64_t(*)[PLAIN_MODES])row);
}

static void print_refusals(const char *name, const counts *refusals)
{
    print_heading(name);
    for (unsigned refusal = 0; refusal < REFUSAL_LIMIT; refusal++) {
        char number[12];
        snprintf(number, sizeof number, "%7u", refusal);
        if (sum_of(refusals[refusal]) != 0)
            print_row(number, refusals[refusal]);
    }
}

static void print_tally(const struct tally *tally)
{
    print_refusals("refusal", tally->refusals);
    printf("\n");
    print_refusals("with words chosen", tally->watched);
    print_row("bits with a number", tally->numbered);
    printf("\n");
    print_row("cases", tally->cases);
    print_row("retried", tally->retried);
    print_row("  and entered", tally->entered_by_retry);
    print_row("retries", tally->retries);
    print_row("words fetched", tally->fetched);
    print_row("cases at their ceiling", tally->at_ceiling);
    printf("\n");
    print_heading("accepted commands");
    for (unsigned kind = 0; kind < PLAIN_COMMANDS; kind++)
        print_kind(&plain_accepted, kind);
}

/* Load, Fill and Boot Table have ranges of bytes, and so may lie over a seam; the others never do. */
static void print_over_seam(void)
{
    printf("\n");
    print_heading("accepted over a seam");
    for (unsigned kind = 0; kind < PLAIN_COMMANDS; kind++)
        if (plain_command_writes(kind))
            print_kind(&plain_accepted_over_seam, kind);
}

static bool is_listed(unsigned refusal, const unsigned *list, size_t count)
{
    for (size_t index = 0; index < count; index++)
        if (list[index] == refusal)
            return true;
    return false;
}

#define IS_LISTED(refusal, list) is_listed(refusal, list, sizeof(list) / sizeof((list)[0]))

/* Whether a refusal can be met: those of both modes, those that a DM648 has alone, those of chosen words, and those of one
   mode. A wrong number for the dialect makes 19 one of flash mode too. */
static bool can_be_met(unsigned dialect, unsigned mode, bool is_watched, unsigned refusal)
{
    static const unsigned both[] = {0, 1, 2, 6, 7, 8, 9, 10, 15, 16}, sent[] = {14, 19}, flash[] = {3, 4, 5, 11, 12};
    static const unsigned watched[] = {19, 24}, watched_flash[] = {25};

    if (refusal == 17 || refusal == 18)
        return dialect == PLAIN_DM648 && (refusal == 17 || mode == PLAIN_FLASH);
    if (is_watched && (IS_LISTED(refusal, watched) || (mode == PLAIN_FLASH && IS_LISTED(refusal, watched_flash))))
        return true;
    return IS_LISTED(refusal, both) || (mode == PLAIN_FLASH ? IS_LISTED(refusal, flash) : IS_LISTED(refusal, sent));
}

/* Every refusal that can be met is, and no other. */
static bool all_refusals_met(const counts *refusals, unsigned dialect, unsigned mode, bool is_watched)
{
    bool is_met = true;

    for (unsigned refusal = 0; refusal < REFUSAL_LIMIT; refusal++) {
        bool was_met = refusals[refusal][dialect][mode] != 0;
        if (was_met != can_be_met(dialect, mode, is_watched, refusal)) {
            printf("refusal %u was %s (%s, %s%s)\n", refusal, was_met ? "met" : "not met", plain_dialect_name(dialect),
                   plain_mode_name(mode), is_watched ? ", words chosen" : "");
            is_met = false;
        }
    }
    return is_met;
}

static bool all_commands_met(unsigned dialect, unsigned mode)
{
    bool is_met = true;

    for (unsigned kind = 0; kind < PLAIN_COMMANDS; kind++) {
        if ((plain_command_allowed(mode, kind) && plain_accepted[dialect][mode][kind] == 0) ||
            (plain_command_writes(kind) && plain_accepted_over_seam[dialect][mode][kind] == 0)) {
            printf("%s was never accepted, or never over a seam (%s, %s)\n", plain_command_name(kind),
                   plain_dialect_name(dialect), plain_mode_name(mode));
            is_met = false;
        }
    }
    return is_met;
}

static bool everything_met(const struct tally *tally)
{
    bool is_met = true;

    for (unsigned dialect = 0; dialect < PLAIN_DIALECTS; dialect++) {
        for (unsigned mode = 0; mode < PLAIN_MODES; mode++) {
            is_met &= all_refusals_met(tally->refusals, dialect, mode, false);
            is_met &= all_refusals_met(tally->watched, dialect, mode, true);
            is_met &= all_commands_met(dialect, mode);
        }
        if (tally->at_ceiling[dialect][PLAIN_FLASH] == 0 || tally->entered_by_retry[dialect][PLAIN_FLASH] == 0) {
            printf("no case met its ceiling, or none entered by a retry (%s)\n", plain_dialect_name(dialect));
            is_met = false;
        }
    }
    return is_met;
}

/* ---- The whole run ---- */

/* The answer of a run with words chosen is that of the run without, but for its own refusals. */
static bool watching_changed_nothing(const struct bench_case *bench_case, const struct outcome *watched,
                                     const struct outcome *proved)
{
    unsigned refusal = refusal_of(mode_of(&bench_case->script), watched->value);
    const struct writer *script = &bench_case->script;

    if (!bench_case->choice.is_right || bench_case->dialect != script->is_dm648 || bench_case->line != script->has_halves ||
        refusal == 25)
        return true;
    if (watched->value == proved->value && same_bytes("watched memory", &watched->memory, &proved->memory) &&
        same_bytes("watched room", &watched->room, &proved->room))
        return true;
    printf("the answer is another where words are chosen\n");
    return false;
}

/* The same with words chosen. */
static bool compare_watched(const struct bench_case *bench_case, struct tally *tally, const struct outcome *unwatched)
{
    struct outcome proved, plain;
    bool is_same;

    run_loader(bench_case, &plain, 0, &PLAIN, true);
    run_loader(bench_case, &proved, GUARD, &PROVED, true);
    count_watched(tally, bench_case, &plain);
    is_same = same_outcome(bench_case, &proved, &plain);
    is_same &= watching_changed_nothing(bench_case, &proved, unwatched);
    free_outcome(&plain);
    free_outcome(&proved);
    return is_same;
}

static bool compare_case(struct bench_case *bench_case, struct tally *tally, uint64_t seed, uint64_t number)
{
    struct outcome proved, plain;
    bool is_same;

    make_case(bench_case, seed, number);
    begin_case(seed, number);
    run_loader(bench_case, &plain, 0, &PLAIN, false);
    run_loader(bench_case, &proved, GUARD, &PROVED, false);
    count_case(tally, bench_case, plain.value);
    is_same = same_outcome(bench_case, &proved, &plain);
    if (bench_case->script.is_flash && !bench_case->script.is_dm648)
        is_same &= same_count(bench_case, &plain);
    is_same &= compare_watched(bench_case, tally, &proved);
    free_outcome(&plain);
    free_outcome(&proved);
    end_case();
    if (!is_same) {
        print_case(bench_case);
        printf("DIFFERENCE: to see it again: compare 1 %" PRIu64 " %" PRIu64 "\n", seed, number);
    }
    return is_same;
}

int main(int argument_count, char **arguments)
{
    static struct bench_case bench_case;
    static struct tally tally;
    uint64_t count = argument_count > 1 ? strtoull(arguments[1], NULL, 0) : 200000;
    uint64_t seed = argument_count > 2 ? strtoull(arguments[2], NULL, 0) : 1;
    uint64_t first = argument_count > 3 ? strtoull(arguments[3], NULL, 0) : 0;
    clock_t begin = clock();

    guard_calls();
    for (uint64_t number = first; number < first + count; number++)
        if (!compare_case(&bench_case, &tally, seed, number))
            return 1;
    print_tally(&tally);
    print_over_seam();
    printf("\n%" PRIu64 " cases of seed %" PRIu64 " in %.1f seconds, no difference\n", count, seed,
           (double)(clock() - begin) / CLOCKS_PER_SEC);
    if (argument_count <= 3 && !everything_met(&tally)) {
        printf("not everything was met\n");
        return 1;
    }
    return 0;
}
