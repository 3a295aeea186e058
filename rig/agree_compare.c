/* Runs the same images from flash and by line, and compares what the two come to.

   agree_compare COUNT SEED [FIRST] runs COUNT images of the seed, from number FIRST on, by bytes and by halves in turns, two for the AM17xx and two for
   the DM648. Each is run from flash, and sent by the host to a loader with the same map, memory and retry limit. Where the exchange began, the two enter
   or don't, at the same address, with as many retries and the same memory. Their events, told into lent room, are the same ones; and all that is told, the
   count, every byte of the room and of the memory, is what the plain loader and the plain host tell. A room that is too short is 23, and nothing is changed.
   Every 16th image is made of settings, so that its waits fill the room or nearly fill it.
   It ends with status 1 at the first difference, or (unless FIRST is given) when a kind of run or a refusal was not met at all. */
#include "ais.h"
#include "guards.h"
#include "host_cases.h"
#include "plain_host.h"
#include "plain_loader.h"

#include <inttypes.h>
#include <stdio.h>
#include <stdlib.h>
#include <string.h>
#include <time.h>

enum { LINES = 2, WAYS = PLAIN_DIALECTS * LINES, SETTINGS_EVERY = 16, MANY_SETTINGS = 60, EVENT_BYTES = 8 };
enum { ENTRY_KIND = 3, SEQUENTIAL_READ = 9, ROOM_REFUSED = 23 };

/* ---- Counting ---- */

enum part { RUNS, FLASH_CODES, LINE_CODES, LOADER_CODES, PARTS };
enum { CODES = 256 };
enum run {
    COMPARED,
    ENTERED,
    WITH_WAITS,
    WITH_TWO_WAITS,
    WITH_MISMATCH,
    ENTERED_BY_RETRY,
    WITH_SEQUENTIAL_READ,
    REFUSED_AFTER_A_WAIT,
    NUMBERS_DIFFER,
    ROOM_FULL,
    RUNS_MET
};

static const char *const run_names[RUNS_MET] = {
    "begun on both sides",   "entered",           "with a wait",          "with two or more",
    "with a mismatch",       "entered after one", "with Sequential Read", "refused after a wait",
    "under another number",  "room filled"};

#define LISTED(...) (const unsigned[]){__VA_ARGS__}, sizeof((unsigned[]){__VA_ARGS__}) / sizeof(unsigned)

/* The keys that have to be met; no other may be. */
static const struct form {
    const char *heading;
    const unsigned *keys;
    size_t key_count;
} forms[PARTS] = {
    [RUNS] = {"images", LISTED(COMPARED, ENTERED, WITH_WAITS, WITH_TWO_WAITS, WITH_MISMATCH, ENTERED_BY_RETRY, WITH_SEQUENTIAL_READ,
                               REFUSED_AFTER_A_WAIT, NUMBERS_DIFFER, ROOM_FULL)},
    [FLASH_CODES] = {"from flash", LISTED(0, 1, 2, 3, 4, 5, 6, 7, 8, 9, 10, 11, 12, 15, 16, 17, BAD_CALL, ROOM_REFUSED)},
    [LINE_CODES] = {"by line, the host's", LISTED(0, 1, 2, 3, 4, 5, 6, 11, 12, 15, BAD_CALL, NO_ANSWER, ROOM_REFUSED)},
    [LOADER_CODES] = {"and its loader's", LISTED(0, 7, 8, 9, 10, 16, 17)},
};

static uint64_t met[PARTS][CODES][WAYS];

static void meet(const struct host_case *host_case, enum part part, unsigned key)
{
    const struct writer *script = &host_case->bench.script;

    met[part][key][LINES * script->is_dm648 + script->has_halves]++;
}

static void meet_if(const struct host_case *host_case, bool is_met, enum run run)
{
    if (is_met)
        meet(host_case, RUNS, run);
}

/* Totals differ on a DM648 only, and the words of its close leave room for one more event. */
static bool has_to_be_met(enum part part, unsigned key, unsigned way)
{
    bool is_dm648 = way >= LINES;

    if ((part == RUNS && key == ROOM_FULL && is_dm648) || (part != RUNS && key == 17 && !is_dm648))
        return false;
    for (size_t index = 0; index < forms[part].key_count; index++)
        if (forms[part].keys[index] == key)
            return true;
    return false;
}

static const char *key_name(enum part part, unsigned key)
{
    static char number[12];

    if (part == RUNS)
        return run_names[key];
    snprintf(number, sizeof number, "%u", key);
    return number;
}

static void print_part(enum part part)
{
    printf("\n%-24s%10s%10s%10s%10s\n", forms[part].heading, "bytes", "halves", "bytes", "halves");
    for (unsigned key = 0; key < CODES; key++) {
        const uint64_t *times = met[part][key];
        if (times[0] + times[1] + times[2] + times[3] != 0)
            printf("  %-22s%10" PRIu64 "%10" PRIu64 "%10" PRIu64 "%10" PRIu64 "\n", key_name(part, key), times[0], times[1], times[2], times[3]);
    }
}

static void print_counts(void)
{
    printf("%-24s%10s%10s%10s", "", plain_dialect_name(PLAIN_AM17XX), "", plain_dialect_name(PLAIN_DM648));
    for (unsigned part = 0; part < PARTS; part++)
        print_part(part);
}

static bool everything_met(void)
{
    bool is_met = true;

    for (unsigned index = 0; index < PARTS * CODES * WAYS; index++) {
        unsigned part = index / (CODES * WAYS), key = index / WAYS % CODES, way = index % WAYS;
        bool was_met = met[part][key][way] != 0;
        if (was_met == has_to_be_met(part, key, way))
            continue;
        printf("%s: %s was %s (%s, %s)\n", forms[part].heading, key_name(part, key), was_met ? "met" : "not met",
               plain_dialect_name(way / LINES), plain_mode_name(way % LINES));
        is_met = false;
    }
    return is_met;
}

/* ---- Cases ---- */

static uint32_t get_word(const uint8_t *bytes)
{
    return bytes[0] | (uint32_t)bytes[1] << 8 | (uint32_t)bytes[2] << 16 | (uint32_t)bytes[3] << 24;
}

/* Settings, then perhaps a Request that never matches and goes back to the first of them, then a close. */
static void write_settings(struct writer *writer)
{
    struct random_source *random = &writer->random;
    unsigned count = 1 + random_below(random, chance(random, 10) ? MANY_SETTINGS : 4);

    write_word(writer, FIRST_WORD);
    for (; count > 0; count--)
        write_good_setting(writer);
    if (chance(random, 50))
        write_flash_request(writer, 1 + random_below(random, 1000), 4 - ((uint32_t)writer->length + 12));
    write_good_jump_and_close(writer);
}

/* Waits of all lengths. What looks like a setting and is data changes all the same. */
static void widen_waits(struct writer *writer)
{
    for (size_t place = 0; place + 20 <= writer->length; place += 4) {
        uint32_t delay = random_word(&writer->random);
        if (get_word(writer->bytes + place) != OPCODE_BOOT_TABLE || !chance(&writer->random, 30))
            continue;
        for (unsigned index = 0; index < 4; index++)
            writer->bytes[place + 16 + index] = (uint8_t)(delay >> (8 * index));
    }
}

/* A case in which nothing is wrong but perhaps the totals of its close. */
static void make_settings_case(struct host_case *host_case)
{
    struct bench_case *bench = &host_case->bench;
    struct random_source random = random_from(bench->seed ^ 0x53455454494E4753, bench->number);
    bool has_halves = bench->script.has_halves, is_dm648 = bench->script.is_dm648;

    make_good_map(&random, &bench->map);
    begin_script(&bench->script, &bench->map, true, has_halves, is_dm648);
    write_settings(&bench->script);
    bench->memory_length = map_sum(&bench->map);
    bench->line = has_halves;
    bench->dialect = is_dm648;
    bench->limit = (uint8_t)random_below(&random, 4);
    host_case->tries = LEAST_TRIES + random_below(&random, 4);
}

static void make_agree_case(struct host_case *host_case, uint64_t seed, uint64_t number)
{
    make_host_case(host_case, seed, number, 0x4147524545);
    if (number / WAYS % SETTINGS_EVERY == 0)
        make_settings_case(host_case);
    widen_waits(&host_case->bench.script);
}

/* ---- What was told ---- */

/* A call, and the room that it was lent for events. */
struct told {
    struct outcome outcome;
    struct lent room;
};

/* The two sides of each call: flash and line, proved and plain. */
typedef uint64_t teller(const struct host_case *, struct outcome *, struct lent *);

static uint64_t flash_proved(const struct host_case *host_case, struct outcome *outcome, struct lent *room)
{
    return ais_flash_events(host_case->bench.dialect, outcome->map.bytes, outcome->map.length, outcome->memory.bytes, outcome->memory.length,
                            outcome->image.bytes, outcome->image.length, host_case->bench.limit, room->bytes, room->length);
}

static uint64_t flash_plain(const struct host_case *host_case, struct outcome *outcome, struct lent *room)
{
    return plain_flash_events(host_case->bench.dialect, outcome->map.bytes, outcome->map.length, outcome->memory.bytes,
                              outcome->memory.length, outcome->image.bytes, outcome->image.length, host_case->bench.limit, room->bytes,
                              room->length);
}

static uint64_t line_proved(const struct host_case *host_case, struct outcome *outcome, struct lent *room)
{
    const struct bench_case *bench = &host_case->bench;

    return ais_host_events(bench->line, bench->dialect, outcome->map.bytes, outcome->map.length, outcome->memory.bytes,
                           outcome->memory.length, outcome->image.bytes, outcome->image.length, host_case->tries, bench->limit,
                           host_case->pings, room->bytes, room->length);
}

static uint64_t line_plain(const struct host_case *host_case, struct outcome *outcome, struct lent *room)
{
    const struct bench_case *bench = &host_case->bench;

    return plain_host_events(bench->line, bench->dialect, outcome->map.bytes, outcome->map.length, outcome->memory.bytes,
                             outcome->memory.length, outcome->image.bytes, outcome->image.length, host_case->tries, bench->limit,
                             host_case->pings, room->bytes, room->length);
}

/* Room as long as it may have to be, and at times longer; or shorter, mostly by one byte. */
static size_t choose_room(const struct host_case *host_case, bool is_short)
{
    const struct bench_case *bench = &host_case->bench;
    struct random_source random = random_from(bench->seed ^ 0x524F4F4D, bench->number);
    size_t needed = plain_events_room(bench->script.length, bench->limit);

    if (is_short)
        return chance(&random, 80) ? needed - 1 : random_below(&random, (uint32_t)needed);
    return needed + (chance(&random, 50) ? 0 : random_below(&random, 40));
}

static struct told tell(const struct host_case *host_case, teller *teller, bool is_short, size_t guard)
{
    struct told told = {lend_case(host_case, guard), lend(choose_room(host_case, is_short), guard)};

    fill_room(&host_case->bench, told.room.bytes, told.room.length);
    told.outcome.value = teller(host_case, &told.outcome, &told.room);
    return told;
}

static void free_told(struct told *told)
{
    free_outcome(&told->outcome);
    free(told->room.whole);
}

/* Whether the proved side tells what the plain one does, and changes nothing else. */
static bool same_told(const struct host_case *host_case, const char *name, const struct told *proved, const struct told *plain)
{
    bool is_same = same_value(name, proved->outcome.value, plain->outcome.value);

    is_same &= same_bytes("its memory", &proved->outcome.memory, &plain->outcome.memory);
    is_same &= same_bytes("its room", &proved->room, &plain->room);
    is_same &= nothing_else_changed(host_case, &proved->outcome);
    if (guards_hold(&proved->room))
        return is_same;
    printf("%s: bytes around the room were changed\n", name);
    return false;
}

static bool has_refused_room(const struct host_case *host_case, const char *name, teller *proved_teller, teller *plain_teller, enum part part)
{
    struct told proved = tell(host_case, proved_teller, true, GUARD), plain = tell(host_case, plain_teller, true, 0);
    bool is_same = same_told(host_case, name, &proved, &plain);

    meet(host_case, part, (unsigned)(plain.outcome.value >> 56));
    free_told(&proved);
    free_told(&plain);
    return is_same;
}

/* ---- Flash and line ---- */

static struct outcome run_flash(const struct host_case *host_case)
{
    struct outcome outcome = lend_case(host_case, GUARD);

    outcome.value = (host_case->bench.dialect == PLAIN_DM648 ? ais_dm648_run : ais_flash_run)(
        outcome.map.bytes, outcome.map.length, outcome.memory.bytes, outcome.memory.length, outcome.image.bytes,
        outcome.image.length, host_case->bench.limit);
    return outcome;
}

static struct outcome run_line(const struct host_case *host_case)
{
    const struct bench_case *bench = &host_case->bench;
    struct outcome outcome = lend_case(host_case, GUARD);

    outcome.value = ais_host_session(bench->line, bench->dialect, outcome.map.bytes, outcome.map.length, outcome.memory.bytes,
                                     outcome.memory.length, outcome.image.bytes, outcome.image.length, host_case->tries,
                                     bench->limit, host_case->pings);
    return outcome;
}

/* The same call with events and without them. */
static bool same_without(const char *name, const struct told *told, const struct outcome *outcome)
{
    bool is_same = same_value(name, told->outcome.value >> 56, outcome->value >> 56);

    return is_same & same_bytes("its memory", &told->outcome.memory, &outcome->memory);
}

static bool agrees(const char *name, uint64_t flash, uint64_t line)
{
    if (flash != line)
        printf("%s is not the same: flash 0x%" PRIX64 ", line 0x%" PRIX64 "\n", name, flash, line);
    return flash == line;
}

static bool agree_bytes(const char *name, const struct lent *flash, const struct lent *line, size_t length)
{
    for (size_t index = 0; index < length; index++)
        if (flash->bytes[index] != line->bytes[index])
            return agrees(name, flash->bytes[index], line->bytes[index]);
    return true;
}

/* Where a flash run entered: the word behind the opcode of its last command; 0 where it did not. */
static uint32_t entry_address(const struct outcome *flash)
{
    size_t offset = 4 * (flash->value >> 32 & 0xFFFF);

    return flash->value >> 56 == 0 ? get_word(flash->image.bytes + offset + 4) : 0;
}

/* Entered or not, the address, the retries, and every byte of memory. */
static bool same_end(const struct outcome *flash, const struct outcome *line)
{
    bool is_same = agrees("whether it enters", flash->value >> 56 == 0, line->value >> 32 & 1);

    is_same &= agrees("the entry address", entry_address(flash), (uint32_t)line->value);
    is_same &= agrees("the count of retries", flash->value >> 48 & 0xFF, line->value >> 48 & 0xFF);
    return is_same & agree_bytes("a byte of memory", &flash->memory, &line->memory, flash->memory.length);
}

/* The same events, the entry among them as the last where there is one. */
static bool same_events(const struct outcome *run, const struct told *flash, const struct told *line)
{
    uint32_t count = (uint32_t)flash->outcome.value;
    const uint8_t *last = flash->room.bytes + EVENT_BYTES * ((size_t)count - 1);
    bool is_same = agrees("the count of events", count, (uint32_t)line->outcome.value);

    is_same = is_same && agree_bytes("a byte of the events", &flash->room, &line->room, EVENT_BYTES * (size_t)count);
    if (!is_same || run->value >> 56 != 0)
        return is_same;
    return agrees("the last event", count != 0 ? get_word(last) : 0, ENTRY_KIND) && agrees("its address", get_word(last + 4), entry_address(run));
}

/* ---- The whole run ---- */

static uint32_t waits_of(const struct told *flash)
{
    return (uint32_t)flash->outcome.value - (flash->outcome.value >> 56 == 0);
}

static void count_begun(const struct host_case *host_case, const struct outcome *run, const struct outcome *line, const struct told *flash)
{
    uint32_t waits = waits_of(flash);
    bool has_entered = run->value >> 56 == 0, has_mismatch = (run->value >> 48 & 0xFF) != 0;
    size_t room = plain_events_room(host_case->bench.script.length, host_case->bench.limit);

    meet(host_case, RUNS, COMPARED);
    meet_if(host_case, has_entered, ENTERED);
    meet_if(host_case, waits > 0, WITH_WAITS);
    meet_if(host_case, waits > 1, WITH_TWO_WAITS);
    meet_if(host_case, has_mismatch, WITH_MISMATCH);
    meet_if(host_case, has_mismatch && has_entered, ENTERED_BY_RETRY);
    meet_if(host_case, waits > 0 && !has_entered, REFUSED_AFTER_A_WAIT);
    meet_if(host_case, run->value >> 56 != line->value >> 56, NUMBERS_DIFFER);
    meet_if(host_case, (uint32_t)flash->outcome.value * EVENT_BYTES == room, ROOM_FULL);
    meet(host_case, LOADER_CODES, line->value >> 40 & 0xFF);
}

/* How many Sequential Reads the plain flash runs took so far. */
static uint64_t sequential_reads(void)
{
    return plain_accepted[PLAIN_AM17XX][PLAIN_FLASH][SEQUENTIAL_READ] + plain_accepted[PLAIN_DM648][PLAIN_FLASH][SEQUENTIAL_READ];
}

/* Flash and line beside each other, where the dialect is one and the exchange began. */
static bool compare_proved(const struct host_case *host_case, const struct told *flash, const struct told *line)
{
    struct outcome run = run_flash(host_case), exchange = run_line(host_case);
    bool is_same = same_without("the exchange without events", line, &exchange);

    if (host_case->bench.dialect < PLAIN_DIALECTS)
        is_same &= same_without("the run without events", flash, &run);
    if (was_begun(host_case, exchange.value)) {
        is_same &= same_end(&run, &exchange);
        is_same &= same_events(&run, flash, line);
        count_begun(host_case, &run, &exchange, flash);
    }
    free_outcome(&run);
    free_outcome(&exchange);
    return is_same;
}

static bool compare_agreement(struct host_case *host_case, uint64_t seed, uint64_t number)
{
    uint64_t reads = sequential_reads();
    struct told flash, line, plain_run, plain_line;
    bool is_same;

    make_agree_case(host_case, seed, number);
    plain_run = tell(host_case, flash_plain, false, 0);
    meet_if(host_case, sequential_reads() != reads, WITH_SEQUENTIAL_READ);
    plain_line = tell(host_case, line_plain, false, 0);
    flash = tell(host_case, flash_proved, false, GUARD);
    line = tell(host_case, line_proved, false, GUARD);
    meet(host_case, FLASH_CODES, (unsigned)(plain_run.outcome.value >> 56));
    meet(host_case, LINE_CODES, (unsigned)(plain_line.outcome.value >> 56));
    is_same = same_told(host_case, "the events of the run", &flash, &plain_run);
    is_same &= same_told(host_case, "the events of the exchange", &line, &plain_line);
    is_same &= has_refused_room(host_case, "a run with too little room", flash_proved, flash_plain, FLASH_CODES);
    is_same &= has_refused_room(host_case, "an exchange with too little room", line_proved, line_plain, LINE_CODES);
    is_same = is_same && compare_proved(host_case, &flash, &line);
    free_told(&flash);
    free_told(&line);
    free_told(&plain_run);
    free_told(&plain_line);
    return is_same;
}

static bool compare_all(uint64_t first, uint64_t count, uint64_t seed)
{
    static struct host_case host_case;

    for (uint64_t number = first; number < first + count; number++) {
        bool is_same;
        begin_case(seed, number);
        is_same = compare_agreement(&host_case, seed, number);
        end_case();
        if (!is_same) {
            print_host_case(&host_case);
            printf("DIFFERENCE: to see it again: agree_compare 1 %" PRIu64 " %" PRIu64 "\n", seed, number);
            return false;
        }
    }
    return true;
}

int main(int argument_count, char **arguments)
{
    uint64_t count = argument_count > 1 ? strtoull(arguments[1], NULL, 0) : 100000;
    uint64_t seed = argument_count > 2 ? strtoull(arguments[2], NULL, 0) : 1;
    uint64_t first = argument_count > 3 ? strtoull(arguments[3], NULL, 0) : 0;
    clock_t begin = clock();

    guard_calls();
    if (!compare_all(first, count, seed))
        return 1;
    print_counts();
    printf("\n%" PRIu64 " images of seed %" PRIu64 " in %.1f seconds, no difference\n", count, seed, (double)(clock() - begin) / CLOCKS_PER_SEC);
    if (argument_count <= 3 && !everything_met()) {
        printf("not everything was met\n");
        return 1;
    }
    return 0;
}
