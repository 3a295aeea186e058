/* Runs the proved host and the plain one on the same images and the same lines, and compares all that they give back.

   host_compare COUNT SEED [FIRST] runs COUNT exchanges and then COUNT talks of the seed, from number FIRST on, by bytes and by halves in turns, two for the
   AM17xx and two for the DM648.
   An exchange is a whole session between a host and a loader, on which no byte is lost. It is run by the two proved ones, by the two plain ones, and by
   the plain host with the proved loader, which is fed all that was sent so far after each turn of every fourth exchange, and once in the others. The flash
   run of the same image has to enter as the exchange does, with as many retries and the same memory.
   A talk is one host on a line that loses, delays, damages and adds bytes. Both hosts hear the same bytes, and after each turn its value and the bytes of
   the host are compared. Some talks begin with any host, in some its bytes are changed on the way, or the image, or its length.
   It ends with status 1 at the first difference, or (unless FIRST is given) when a refusal, a command, or a way in which a wait goes on was not met at all;
   with less than 50,000 cases 1,000 tries or 255 retries may not be. */
#include "ais.h"
#include "guards.h"
#include "host_cases.h"
#include "plain_host.h"
#include "plain_loader.h"

#include <inttypes.h>
#include <stdio.h>
#include <stdlib.h>
#include <string.h>
#include <time.h>

enum { LINES = 2, FED_LIMIT = 65536, BY_TURNS_EVERY = 4 };
enum { MANY_TRIES = 8, MANY_RETRIES = 3 }; /* more of these are not run turn by turn */

/* ---- Counting ---- */

enum part { EXCHANGES, LOADERS, RUNS, OPENINGS, TURNS, COMMANDS, ANSWERED, REPEATED, HELD_BACK, PARTS };
/* The three cases of 20, and of the second that with the most tries. The other keys of a refusal are its number. */
enum { TRIES_ASKED = 256, TRIES_SPENT, MOST_TRIES_SPENT, ECHO_DIFFERS, KEYS };
enum run { ENTERED, ENTERED_BY_RETRY, WENT_BACK_MOST, RUN_BY_TURNS, RUN_AT_ONCE, RUNS_MET };
enum { REQUEST_COMMAND = 5, SEQUENTIAL_READ_COMMAND = 9, HOST_COMMANDS };

static const char *const run_names[RUNS_MET] = {"entered", "entered after a retry", "255 retries", "replayed at each turn", "replayed once"};
static const char *const command_names[HOST_COMMANDS] = {"Load",       "Fill",         "Boot Table", "Enable", "Disable", "Request",
                                                         "Start-Over", "Jump & Close", "Ping",       "Sequential Read"};
static const char *const wait_names[PLAIN_WAITS] = {"Greeting", "Start", "Ping", "Echo", "Nothing", "Opcode", "Over", "Closing"};

#define LISTED(...) (const unsigned[]){__VA_ARGS__}, sizeof((unsigned[]){__VA_ARGS__}) / sizeof(unsigned)

static const struct form {
    const char *heading;
    const char *const *names; /* of the keys; null where they are refusals, of which no others may be met */
    const unsigned *keys;     /* that have to be met */
    size_t key_count;
} forms[PARTS] = {
    [EXCHANGES] = {"exchanges", NULL, LISTED(0, 1, 2, 3, 4, 5, 6, 11, 12, 15, 19, TRIES_ASKED, TRIES_SPENT)},
    [LOADERS] = {"their loaders", NULL, LISTED(0, 7, 8, 9, 10, 16, 17)},
    [RUNS] = {"of these", run_names, LISTED(ENTERED, ENTERED_BY_RETRY, WENT_BACK_MOST, RUN_BY_TURNS, RUN_AT_ONCE)},
    [OPENINGS] = {"openings of talks", NULL, LISTED(0, 3, 4, 19, TRIES_ASKED)},
    [TURNS] = {"turns of talks", NULL, LISTED(0, 3, 5, 6, 11, 12, 14, 15, 19, TRIES_SPENT, MOST_TRIES_SPENT, ECHO_DIFFERS)},
    [COMMANDS] = {"commands met", command_names, LISTED(0, 1, 2, 3, 4, 5, 7, 9)}, /* no Start-Over and no Ping are in an image */
    [ANSWERED] = {"waits answered", wait_names,
                  LISTED(PLAIN_GREETING, PLAIN_START, PLAIN_PING, PLAIN_ECHO, PLAIN_OPCODE, PLAIN_OVER, PLAIN_CLOSING)},
    [REPEATED] = {"sent again", wait_names, LISTED(PLAIN_START, PLAIN_PING, PLAIN_OPCODE, PLAIN_OVER)},
    [HELD_BACK] = {"something else heard", wait_names,
                   LISTED(PLAIN_GREETING, PLAIN_START, PLAIN_PING, PLAIN_ECHO, PLAIN_OPCODE, PLAIN_OVER, PLAIN_CLOSING)},
};

static uint64_t met[PARTS][KEYS][PLAIN_DIALECTS][LINES];

static void meet(enum part part, unsigned key, unsigned dialect, unsigned line)
{
    met[part][key][dialect][line]++;
}

static void meet_in(const struct host_case *host_case, enum part part, unsigned key)
{
    meet(part, key, host_case->bench.script.is_dm648, host_case->bench.script.has_halves);
}

static bool is_listed(enum part part, unsigned key)
{
    for (size_t index = 0; index < forms[part].key_count; index++)
        if (forms[part].keys[index] == key)
            return true;
    return false;
}

/* Totals differ on a DM648 only, and only its close is answered; by halves the greeting is not waited for. */
static bool has_to_be_met(enum part part, unsigned key, unsigned dialect, unsigned line)
{
    if ((part == LOADERS && key == 17) || (forms[part].names == wait_names && key == PLAIN_CLOSING))
        return is_listed(part, key) && dialect == PLAIN_DM648;
    if (part == HELD_BACK && key == PLAIN_GREETING)
        return line == PLAIN_BYTES;
    return is_listed(part, key);
}

static uint64_t times_met(enum part part, unsigned key)
{
    return met[part][key][0][0] + met[part][key][0][1] + met[part][key][1][0] + met[part][key][1][1];
}

static const char *key_name(enum part part, unsigned key)
{
    static const char *const cases[] = {"20, tries asked", "20, tries spent", "20, 1,000 of them", "20, an echo differs"};
    static char number[12];

    if (forms[part].names != NULL)
        return forms[part].names[key];
    if (key >= TRIES_ASKED)
        return cases[key - TRIES_ASKED];
    snprintf(number, sizeof number, "%u", key);
    return number;
}

static void print_part(enum part part)
{
    printf("\n%-24s%10s%10s%10s%10s\n", forms[part].heading, "bytes", "halves", "bytes", "halves");
    for (unsigned key = 0; key < KEYS; key++) {
        if (times_met(part, key) == 0)
            continue;
        printf("  %-22s", key_name(part, key));
        for (unsigned way = 0; way < PLAIN_DIALECTS * LINES; way++)
            printf("%10" PRIu64, met[part][key][way / LINES][way % LINES]);
        printf("\n");
    }
}

static void print_counts(void)
{
    printf("%-24s%10s%10s%10s", "", plain_dialect_name(PLAIN_AM17XX), "", plain_dialect_name(PLAIN_DM648));
    for (unsigned part = 0; part < PARTS; part++)
        print_part(part);
}

/* All that has to be met is, and no refusal is that can't be. */
static bool everything_met(void)
{
    bool is_met = true;

    for (unsigned part = 0; part < PARTS; part++) {
        for (unsigned index = 0; index < KEYS * PLAIN_DIALECTS * LINES; index++) {
            unsigned key = index / (PLAIN_DIALECTS * LINES), dialect = index / LINES % PLAIN_DIALECTS, line = index % LINES;
            bool was_met = met[part][key][dialect][line] != 0, has_to_be = has_to_be_met(part, key, dialect, line);
            if (was_met == has_to_be || (was_met && forms[part].names != NULL))
                continue;
            printf("%s: %s was %s (%s, %s)\n", forms[part].heading, key_name(part, key), was_met ? "met" : "not met",
                   plain_dialect_name(dialect), plain_mode_name(line));
            is_met = false;
        }
    }
    return is_met;
}

/* ---- Exchanges ---- */

/* All that was sent and replied in the exchange between the two plain ones. */
static struct plain_stream sent, replied;

/* The plain host and loader get no guards, so that the sanitizer sees the first byte too far. */
static struct outcome run_plain(const struct host_case *host_case)
{
    const struct bench_case *bench = &host_case->bench;
    struct outcome outcome = lend_case(host_case, 0);

    outcome.value = plain_host_session(bench->line, bench->dialect, outcome.map.bytes, outcome.map.length, outcome.memory.bytes,
                                       outcome.memory.length, outcome.image.bytes, outcome.image.length, host_case->tries,
                                       bench->limit, host_case->pings, &sent, &replied);
    return outcome;
}

static bool same_exchange(const struct host_case *host_case, const struct outcome *plain)
{
    const struct bench_case *bench = &host_case->bench;
    struct outcome outcome = lend_case(host_case, GUARD);
    bool is_same;

    outcome.value = ais_host_session(bench->line, bench->dialect, outcome.map.bytes, outcome.map.length, outcome.memory.bytes,
                                     outcome.memory.length, outcome.image.bytes, outcome.image.length, host_case->tries,
                                     bench->limit, host_case->pings);
    is_same = same_value("the exchange", outcome.value, plain->value);
    is_same &= same_bytes("memory", &outcome.memory, &plain->memory) && nothing_else_changed(host_case, &outcome);
    free_outcome(&outcome);
    return is_same;
}

/* The proved flash run of the same image enters as the exchange does, with as many retries and the same memory. */
static bool same_as_flash(const struct host_case *host_case, const struct outcome *plain)
{
    const struct bench_case *bench = &host_case->bench;
    struct outcome outcome = lend_case(host_case, GUARD);
    bool is_same;

    outcome.value = (bench->dialect == PLAIN_DM648 ? ais_dm648_run : ais_flash_run)(
        outcome.map.bytes, outcome.map.length, outcome.memory.bytes, outcome.memory.length, outcome.image.bytes,
        outcome.image.length, bench->limit);
    is_same = same_value("that the flash run enters", outcome.value >> 56 == 0, plain->value >> 32 & 1);
    is_same &= same_value("its count of retries", outcome.value >> 48 & 0xFF, plain->value >> 48 & 0xFF);
    is_same &= same_bytes("its memory", &outcome.memory, &plain->memory) && nothing_else_changed(host_case, &outcome);
    free_outcome(&outcome);
    return is_same;
}

/* Feeds the proved loader all that was sent so far. Some cases ask for the numbers of no words, which changes nothing. */
static uint64_t replay(const struct host_case *host_case, const struct plain_stream *fed, struct outcome *outcome, struct lent *room)
{
    const struct bench_case *bench = &host_case->bench;
    struct lent *map = &outcome->map, *memory = &outcome->memory;
    uint8_t chosen[1] = {0}, numbers[1] = {0};

    fill_memory(bench, memory->bytes, memory->length);
    if (bench->number / 16 % 4 == 0)
        return ais_bits_session(bench->line, bench->dialect, map->bytes, map->length, chosen, 0, memory->bytes, memory->length, numbers,
                                0, fed->bytes, fed->length, room->bytes, room->length);
    if (bench->dialect == PLAIN_DM648)
        return ais_dm648_session(bench->line, map->bytes, map->length, memory->bytes, memory->length, fed->bytes, fed->length,
                                 room->bytes, room->length);
    return (bench->line == PLAIN_HALVES ? ais_half_session : ais_sent_session)(
        map->bytes, map->length, memory->bytes, memory->length, fed->bytes, fed->length, room->bytes, room->length);
}

/* The first refusal of a replay, against that of the plain loader; a loader that has entered is fed nothing more. */
static bool same_refusal(uint64_t value, uint64_t plain_value)
{
    return same_value("the loader's refusal", value >> 32, plain_value >> 40 & 0xFF);
}

/* The plain host, turn by turn, with the proved loader. */
static struct plain_turn talk_to_proved(const struct host_case *host_case, struct plain_host *host, struct outcome *outcome,
                                        struct lent *room)
{
    static struct plain_stream fed;
    struct plain_turn turn = {0};
    size_t heard = 0, length = 0;

    fed.length = 0;
    outcome->value = replay(host_case, &fed, outcome, room);
    for (;;) {
        uint8_t word[PLAIN_WORD_BYTES];
        const uint8_t *bytes;
        for (; heard < (uint32_t)outcome->value; heard++)
            plain_host_hear(host, room->bytes[heard]);
        if (host->has_ended)
            return turn;
        turn = plain_host_turn(host, outcome->image.bytes, outcome->image.length);
        bytes = plain_host_sent(host->line, &turn, outcome->image.bytes, word, &length);
        plain_stream_add(&fed, bytes, length);
        if (length > 0)
            outcome->value = replay(host_case, &fed, outcome, room);
    }
}

static bool same_by_turns(const struct host_case *host_case, const struct outcome *plain, struct outcome *outcome, struct lent *room)
{
    const struct bench_case *bench = &host_case->bench;
    struct plain_host host;
    struct plain_turn last;
    bool is_same;

    plain_host_open(&host, bench->line, bench->dialect, outcome->image.bytes, outcome->image.length, host_case->tries, bench->limit,
                    host_case->pings);
    last = talk_to_proved(host_case, &host, outcome, room);
    is_same = same_value("the refusal with the proved loader", last.refusal, plain->value >> 56);
    is_same &= same_value("the retries with it", host.retries, plain->value >> 48 & 0xFF);
    is_same &= same_refusal(outcome->value, plain->value);
    return is_same;
}

/* All that the plain host sent, fed to the proved loader at once: all that it replies is what the plain loader replied. */
static bool same_at_once(const struct host_case *host_case, const struct outcome *plain, struct outcome *outcome, struct lent *room)
{
    bool is_same;

    outcome->value = replay(host_case, &sent, outcome, room);
    is_same = same_refusal(outcome->value, plain->value);
    is_same &= same_value("the count of replies", (uint32_t)outcome->value, replied.length);
    if (is_same && memcmp(room->bytes, replied.bytes, replied.length) == 0)
        return true;
    printf("the proved loader replies otherwise than the plain one\n");
    return false;
}

/* The plain host with the proved loader: at each turn, or once, or not at all where more was sent than one call takes. */
static bool same_with_proved_loader(const struct host_case *host_case, const struct outcome *plain)
{
    const struct bench_case *bench = &host_case->bench;
    bool is_by_turns = bench->number / 4 % BY_TURNS_EVERY == 0 && host_case->tries <= MANY_TRIES && bench->limit <= MANY_RETRIES;
    struct outcome outcome;
    struct lent room;
    bool is_same;

    if (sent.length > FED_LIMIT * plain_unit_bytes(bench->line))
        return true;
    outcome = lend_case(host_case, GUARD);
    room = lend(6 + 2 * sent.length, GUARD);
    meet_in(host_case, RUNS, is_by_turns ? RUN_BY_TURNS : RUN_AT_ONCE);
    is_same = (is_by_turns ? same_by_turns : same_at_once)(host_case, plain, &outcome, &room);
    is_same &= same_bytes("memory with the proved loader", &outcome.memory, &plain->memory);
    is_same &= nothing_else_changed(host_case, &outcome) && guards_hold(&room);
    free(room.whole);
    free_outcome(&outcome);
    return is_same;
}

static void count_exchange(const struct host_case *host_case, uint64_t value)
{
    bool is_begun = was_begun(host_case, value), has_entered = (value >> 32 & 1) != 0;
    unsigned refusal = value >> 56;

    meet_in(host_case, EXCHANGES, refusal != NO_ANSWER ? refusal : is_begun ? TRIES_SPENT : TRIES_ASKED);
    if (is_begun)
        meet_in(host_case, LOADERS, value >> 40 & 0xFF);
    if (has_entered)
        meet_in(host_case, RUNS, ENTERED);
    if (has_entered && (value >> 48 & 0xFF) != 0)
        meet_in(host_case, RUNS, ENTERED_BY_RETRY);
    if ((value >> 48 & 0xFF) == MOST_RETRIES)
        meet_in(host_case, RUNS, WENT_BACK_MOST);
}

static bool compare_exchange(struct host_case *host_case, uint64_t seed, uint64_t number)
{
    struct outcome plain;
    bool is_same;

    make_host_case(host_case, seed, number, 0);
    plain = run_plain(host_case);
    count_exchange(host_case, plain.value);
    is_same = same_exchange(host_case, &plain);
    if (was_begun(host_case, plain.value)) {
        is_same &= same_with_proved_loader(host_case, &plain);
        is_same &= same_as_flash(host_case, &plain);
    }
    free_outcome(&plain);
    return is_same;
}

/* ---- The bytes of a host ---- */

static uint32_t get_word(const uint8_t *bytes)
{
    return bytes[0] | (uint32_t)bytes[1] << 8 | (uint32_t)bytes[2] << 16 | (uint32_t)bytes[3] << 24;
}

static void put_word(uint8_t *bytes, uint32_t word)
{
    for (unsigned index = 0; index < 4; index++)
        bytes[index] = (uint8_t)(word >> (8 * index));
}

static void write_host(const struct plain_host *host, uint8_t *bytes)
{
    uint32_t value = host->wait == PLAIN_ECHO ? host->echo : host->wait == PLAIN_OPCODE ? host->end : host->wait == PLAIN_OVER ? host->sought : 0;
    uint8_t command = host->wait == PLAIN_OPCODE ? (uint8_t)host->command : 0, wait = (uint8_t)host->wait;
    const uint32_t words[] = {(uint32_t)host->image_length, host->tries, host->pings, host->offset, host->spent, value};
    const uint8_t rest[] = {host->line, host->dialect, host->has_ended,   host->limit,   host->retries,
                            wait,       command,       host->heard_count, host->has_news};

    for (unsigned index = 0; index < 6; index++)
        put_word(bytes + 4 * index, words[index]);
    memcpy(bytes + 24, host->heard, PLAIN_EAR);
    memcpy(bytes + 32, rest, sizeof rest);
}

/* Reads any bytes: flags that are not 0 are 1, and what is too large is the largest there is. */
static void read_host(const uint8_t *bytes, struct plain_host *host)
{
    uint32_t value = get_word(bytes + 20);

    *host = (struct plain_host){.image_length = get_word(bytes), .tries = get_word(bytes + 4), .pings = get_word(bytes + 8)};
    host->offset = get_word(bytes + 12);
    host->spent = get_word(bytes + 16);
    memcpy(host->heard, bytes + 24, PLAIN_EAR);
    host->line = bytes[32] != 0;
    host->dialect = bytes[33] != 0;
    host->has_ended = bytes[34] != 0;
    host->limit = bytes[35];
    host->retries = bytes[36];
    host->wait = bytes[37] < PLAIN_WAITS ? (enum plain_wait)bytes[37] : PLAIN_CLOSING;
    host->heard_count = bytes[39] < PLAIN_EAR ? bytes[39] : PLAIN_EAR;
    host->has_news = bytes[40] != 0;
    if (host->wait == PLAIN_OPCODE)
        host->command = bytes[38] < HOST_COMMANDS ? bytes[38] : HOST_COMMANDS - 1;
    host->end = host->wait == PLAIN_OPCODE ? value : 0;
    host->echo = host->wait == PLAIN_ECHO ? value : 0;
    host->sought = host->wait == PLAIN_OVER ? value : 0;
}

static void print_host(const char *name, const uint8_t *bytes)
{
    printf("%-8s", name);
    for (unsigned index = 0; index < AIS_HOST_BYTES; index++)
        printf("%s%02X", index % 4 == 0 && index <= 32 ? "  " : index > 32 ? " " : "", bytes[index]);
    printf("\n");
}

/* ---- Talks ---- */

enum { COMING_LIMIT = 1024, USUAL_TURNS = 150, REFUSED_IN_A_ROW = 3 };

struct talk {
    const struct host_case *host_case;
    struct random_source random;
    struct plain_host plain;
    struct lent proved; /* the bytes of the proved host */
    struct lent plain_image;
    struct lent proved_image;
    bool is_damaged;       /* the proved host was lent bytes that no host leaves, and may keep some of them */
    plain_session *loader; /* null where the answers are made up */
    struct lent memory;
    uint8_t coming[COMING_LIMIT]; /* what is still on its way to the host */
    unsigned coming_count;
    unsigned turns;
    unsigned silent_from; /* the turn from which on nothing is answered */
    uint32_t noise;       /* how many bytes of a hundred are lost, damaged, or joined by others */
    uint32_t delay;       /* how often in a hundred turns only a part of what is on its way comes in */
    bool has_changes;     /* the image and the host's bytes may be changed between two turns */
};

/* The proved host's bytes are those of the plain host. Where they were damaged, what both stand for is compared. */
static bool same_host(const struct talk *talk)
{
    uint8_t expected[AIS_HOST_BYTES], given[AIS_HOST_BYTES];
    struct plain_host host;

    write_host(&talk->plain, expected);
    memcpy(given, talk->proved.bytes, AIS_HOST_BYTES);
    if (talk->is_damaged) {
        read_host(given, &host);
        write_host(&host, given);
    }
    if (memcmp(expected, given, AIS_HOST_BYTES) == 0 && guards_hold(&talk->proved))
        return true;
    printf("the host differs, or bytes around it were changed\n");
    print_host("proved", given);
    print_host("plain", expected);
    return false;
}

/* ---- What comes in ---- */

static void add_coming(struct talk *talk, const uint8_t *bytes, size_t count)
{
    for (size_t index = 0; index < count && talk->coming_count < COMING_LIMIT; index++)
        talk->coming[talk->coming_count++] = bytes[index];
}

/* Bytes that nobody sent: a byte, a word that might be taken for an answer, or letters of the greeting or the close. */
static void add_strange(struct talk *talk)
{
    static const uint32_t answers[] = {0x52535901, 0x52535902, 0x52535903, 0x52535908, 0x5253590B, 0x52535906, 0x52525252, 0x454E4F44};
    struct random_source *random = &talk->random;
    uint8_t bytes[6];

    random_bytes(random, bytes, sizeof bytes);
    switch (random_below(random, 5)) {
    case 0:
        bytes[0] = 0x52;
        add_coming(talk, bytes, 1);
        break;
    case 1:
        put_word(bytes, PICK(random, answers));
        add_coming(talk, bytes, 4);
        break;
    case 2:
        add_coming(talk, (const uint8_t *)"BOOTME", 1 + random_below(random, 6));
        break;
    default:
        add_coming(talk, bytes, 1 + random_below(random, 4));
        break;
    }
}

/* One byte on a bad line: lost, damaged, or behind others that nobody sent. */
static void add_noisy(struct talk *talk, uint8_t byte)
{
    struct random_source *random = &talk->random;

    if (talk->turns >= talk->silent_from)
        return;
    if (chance(random, talk->noise)) {
        switch (random_below(random, 4)) {
        case 0:
        case 1:
            return;
        case 2:
            byte ^= (uint8_t)(1 << random_below(random, 8));
            break;
        default:
            add_strange(talk);
            break;
        }
    }
    add_coming(talk, &byte, 1);
}

static void add_answer(struct talk *talk, const uint8_t *bytes, size_t count)
{
    for (size_t index = 0; index < count; index++)
        add_noisy(talk, bytes[index]);
}

/* The host hears what came in, all of it or a part. */
static bool hear(struct talk *talk)
{
    struct random_source *random = &talk->random;
    unsigned count = chance(random, talk->delay) ? random_below(random, talk->coming_count + 1) : talk->coming_count;

    if (count == 0)
        return true;
    for (unsigned index = 0; index < count; index++) {
        uint8_t value = ais_host_hear(talk->proved.bytes, AIS_HOST_BYTES, talk->coming[index]);
        plain_host_hear(&talk->plain, talk->coming[index]);
        if (!same_value("hearing", value, 0))
            return false;
    }
    memmove(talk->coming, talk->coming + count, talk->coming_count - count);
    talk->coming_count -= count;
    return same_host(talk);
}

/* ---- The other end of the line ---- */

/* The checksum that a Request of the image expects, or any other. */
static uint32_t make_checksum(struct talk *talk)
{
    uint64_t place = (uint64_t)talk->plain.offset + 4;

    if (place + 4 > talk->plain_image.length || chance(&talk->random, 40))
        return random_word(&talk->random);
    return get_word(talk->plain_image.bytes + place);
}

/* The right answer to the wait that the host is in. */
static size_t make_answer(struct talk *talk, uint8_t *bytes)
{
    static const uint32_t opcodes[HOST_COMMANDS] = {
        OPCODE_LOAD,       OPCODE_FILL,           OPCODE_BOOT_TABLE, OPCODE_ENABLE,                 OPCODE_DISABLE, OPCODE_REQUEST,
        OPCODE_START_OVER, OPCODE_JUMP_AND_CLOSE, OPCODE_PING,       OPCODE_SEQUENTIAL_READ_ENABLE};
    const struct plain_host *host = &talk->plain;
    uint32_t opcode = host->wait == PLAIN_PING ? OPCODE_PING : host->wait == PLAIN_OVER ? OPCODE_START_OVER : opcodes[host->command];

    switch (host->wait) {
    case PLAIN_GREETING:
        memcpy(bytes, "BOOTME", 6);
        return 6;
    case PLAIN_START:
        memcpy(bytes, host->line == PLAIN_HALVES ? "\x53\x52" : "\x52", 1 + (host->line == PLAIN_HALVES));
        return 1 + (host->line == PLAIN_HALVES);
    case PLAIN_ECHO:
        put_word(bytes, host->echo == 0 ? host->pings : host->echo);
        return 4;
    case PLAIN_NO_WAIT:
        return 0;
    case PLAIN_CLOSING:
        memcpy(bytes, "DONE", 4);
        return 4;
    default:
        put_word(bytes, opcode - 0x06000000);
        put_word(bytes + 4, make_checksum(talk));
        return host->wait == PLAIN_OPCODE && host->command == REQUEST_COMMAND ? 8 : 4;
    }
}

/* A loader takes what was sent, at times with a byte damaged, and its replies go on their way. */
static void answer_by_loader(struct talk *talk, const uint8_t *bytes, size_t length)
{
    size_t unit = plain_unit_bytes(talk->host_case->bench.script.has_halves);

    for (size_t index = 0; index + unit <= length; index += unit) {
        uint8_t taken[2] = {0}, reply[8], refusal;
        memcpy(taken, bytes + index, unit);
        if (random_below(&talk->random, 1000) < talk->noise)
            taken[0] ^= (uint8_t)(1 << random_below(&talk->random, 8));
        add_answer(talk, reply, plain_session_feed(talk->loader, taken, reply, &refusal));
    }
}

static void answer(struct talk *talk, const struct plain_turn *turn)
{
    uint8_t bytes[8];
    const uint8_t *out;
    size_t length;

    if (chance(&talk->random, talk->noise))
        add_strange(talk);
    if (turn->sending == PLAIN_SENDS_NOTHING || turn->offset + turn->length > talk->plain_image.length)
        return; /* nothing, or a stretch of a longer image that was lent for this turn */
    if (talk->loader == NULL) {
        add_answer(talk, bytes, make_answer(talk, bytes));
        return;
    }
    out = plain_host_sent(talk->plain.line, turn, talk->plain_image.bytes, bytes, &length);
    answer_by_loader(talk, out, length);
}

/* ---- Any host, and any bytes ---- */

/* The offset of a command, of a word, or of neither. */
static uint32_t choose_offset(struct talk *talk)
{
    struct random_source *random = &talk->random;
    const struct writer *script = &talk->host_case->bench.script;
    uint32_t length = (uint32_t)script->length;

    switch (random_below(random, 8)) {
    case 0:
        return 4 * random_below(random, length / 4 + 2);
    case 1:
        return length - 4 * random_below(random, 5);
    case 2:
        return chance(random, 50) ? random_below(random, length + 8) : random_word(random);
    case 3:
        return 0xFFFFFFFF - random_below(random, 16);
    default:
        return script->mark_count == 0 ? 4 : (uint32_t)script->marks[random_below(random, script->mark_count)].offset;
    }
}

static uint32_t choose_count(struct random_source *random, uint32_t usual)
{
    return chance(random, 85) ? random_below(random, usual) : 0xFFFFFFFF - (chance(random, 50) ? 0 : random_word(random));
}

/* The wait of any host, with what belongs to it; what was heard may be the right answer. */
static void choose_wait(struct talk *talk)
{
    struct random_source *random = &talk->random;
    struct plain_host *host = &talk->plain;
    bool is_near = chance(random, 70);

    host->wait = (enum plain_wait)random_below(random, PLAIN_WAITS);
    host->spent = choose_count(random, 4);
    if (host->wait == PLAIN_ECHO)
        host->echo = is_near ? random_below(random, host->pings == 0xFFFFFFFF ? 4 : host->pings + 2) : choose_count(random, 6);
    if (host->wait == PLAIN_OPCODE) {
        host->command = random_below(random, HOST_COMMANDS);
        host->end = is_near ? host->offset + 4 * random_below(random, 7) : choose_offset(talk);
    }
    if (host->wait == PLAIN_OVER)
        host->sought = choose_offset(talk);
}

static void choose_ear(struct talk *talk)
{
    struct random_source *random = &talk->random;
    struct plain_host *host = &talk->plain;
    uint8_t bytes[8];
    size_t count = make_answer(talk, bytes);

    if (chance(random, 50))
        random_bytes(random, host->heard, sizeof host->heard);
    for (size_t index = 0; index < count && chance(random, 90); index++)
        plain_host_hear(host, bytes[index]);
    if (chance(random, 40))
        host->heard_count = (uint8_t)random_below(random, PLAIN_EAR + 1);
    host->has_news = chance(random, 50);
}

static void end_session(struct talk *talk)
{
    if (talk->loader != NULL)
        plain_session_end(talk->loader);
    talk->loader = NULL;
}

/* A host that no opening may lead to, though its bytes are those of one. No loader would follow it, and its answers are made up. */
static void choose_any_host(struct talk *talk)
{
    struct random_source *random = &talk->random;
    struct plain_host *host = &talk->plain;

    end_session(talk);
    *host = (struct plain_host){.line = chance(random, 50), .dialect = chance(random, 50), .limit = (uint8_t)random_below(random, 4)};
    host->retries = (uint8_t)(chance(random, 90) ? random_below(random, 4) : random_word(random));
    host->has_ended = chance(random, 3);
    host->image_length = chance(random, 92) ? talk->plain_image.length : choose_offset(talk);
    host->tries = choose_count(random, 6);
    host->pings = choose_count(random, 6);
    host->offset = choose_offset(talk);
    choose_wait(talk);
    choose_ear(talk);
    write_host(host, talk->proved.bytes);
}

/* Changes some of the host's bytes, or all of them. */
static void damage_host(struct talk *talk)
{
    static const uint32_t strange[] = {0, 1, 2, 4, 5, 6, 7, 8, 9, 10, 0x7F, 0x80, 0xFE, 0xFF};
    struct random_source *random = &talk->random;
    uint8_t bytes[AIS_HOST_BYTES];

    write_host(&talk->plain, bytes);
    if (chance(random, 10))
        random_bytes(random, bytes, sizeof bytes);
    for (unsigned count = 1 + random_below(random, 3); count > 0; count--) {
        unsigned place = chance(random, 50) ? 32 + random_below(random, AIS_HOST_BYTES - 32) : random_below(random, AIS_HOST_BYTES);
        bytes[place] = (uint8_t)(chance(random, 60) ? PICK(random, strange) : random_word(random));
    }
    read_host(bytes, &talk->plain);
    memcpy(talk->proved.bytes, bytes, sizeof bytes);
    talk->is_damaged = true;
}

/* ---- The beginning of a talk ---- */

static bool is_unchanged(const struct talk *talk, const uint8_t *before)
{
    if (memcmp(before, talk->proved.bytes, AIS_HOST_BYTES) == 0 && guards_hold(&talk->proved))
        return true;
    printf("a call that is 19 changed the host, or bytes around it\n");
    return false;
}

/* Each call, lent another length than that of a host, changes nothing. */
static bool refuses_other_lengths(struct talk *talk)
{
    static const uint32_t others[] = {0, 1, AIS_HOST_BYTES - 1, AIS_HOST_BYTES + 1, AIS_HOST_BYTES + GUARD};
    const struct host_case *host_case = talk->host_case;
    const struct bench_case *bench = &host_case->bench;
    const struct lent *image = &talk->proved_image;
    uint8_t before[AIS_HOST_BYTES], *host = talk->proved.bytes;
    size_t length = PICK(&talk->random, others);
    bool is_same;

    memcpy(before, host, AIS_HOST_BYTES);
    is_same = same_value("a turn of another length", ais_host_turn(host, length, image->bytes, image->length), (uint64_t)BAD_CALL << 56);
    is_same &= same_value("hearing at another length", ais_host_hear(host, length, (uint8_t)random_word(&talk->random)), BAD_CALL);
    is_same &= same_value("an opening at another length",
                          ais_host_open(host, length, bench->script.has_halves, bench->script.is_dm648, image->bytes, image->length,
                                        host_case->tries, bench->limit, host_case->pings),
                          BAD_CALL);
    meet(TURNS, BAD_CALL, talk->plain.dialect, talk->plain.line);
    return is_same && is_unchanged(talk, before);
}

/* An opening on a line, or in a dialect, that there is not changes nothing. */
static bool refuses_numbers(const struct talk *talk)
{
    const struct host_case *host_case = talk->host_case;
    const struct bench_case *bench = &host_case->bench;
    uint8_t before[AIS_HOST_BYTES], value;

    memcpy(before, talk->proved.bytes, AIS_HOST_BYTES);
    value = ais_host_open(talk->proved.bytes, AIS_HOST_BYTES, bench->line, bench->dialect, talk->proved_image.bytes,
                          talk->proved_image.length, host_case->tries, bench->limit, host_case->pings);
    meet_in(host_case, OPENINGS, BAD_CALL);
    return same_value("an opening by wrong numbers", value, BAD_CALL) && is_unchanged(talk, before);
}

/* Both hosts are opened, on the line and in the dialect that the case should have. */
static bool open_hosts(struct talk *talk)
{
    const struct host_case *host_case = talk->host_case;
    const struct bench_case *bench = &host_case->bench;
    bool has_halves = bench->script.has_halves, is_dm648 = bench->script.is_dm648;
    uint8_t plain, proved;

    random_bytes(&talk->random, talk->proved.bytes, AIS_HOST_BYTES);
    if ((bench->line != has_halves || bench->dialect != is_dm648) && !refuses_numbers(talk))
        return false;
    plain = plain_host_open(&talk->plain, has_halves, is_dm648, talk->plain_image.bytes, talk->plain_image.length, host_case->tries,
                            bench->limit, host_case->pings);
    proved = ais_host_open(talk->proved.bytes, AIS_HOST_BYTES, has_halves, is_dm648, talk->proved_image.bytes,
                           talk->proved_image.length, host_case->tries, bench->limit, host_case->pings);
    meet_in(host_case, OPENINGS, plain != NO_ANSWER ? plain : TRIES_ASKED);
    return same_value("the opening", proved, plain) && same_host(talk);
}

/* Where many tries are allowed all of them may be spent, in one wait or another. */
static void choose_line(struct talk *talk)
{
    static const uint32_t noises[] = {0, 0, 1, 2, 5, 20}, delays[] = {0, 0, 10, 40};
    struct random_source *random = &talk->random;
    bool becomes_silent = chance(random, talk->host_case->tries > MANY_TRIES ? 50 : 1);

    talk->noise = PICK(random, noises);
    talk->delay = PICK(random, delays);
    talk->silent_from = becomes_silent ? random_below(random, 24) : USUAL_TURNS + MOST_TRIES;
    talk->has_changes = chance(random, 15);
}

static void begin_talk(struct talk *talk, const struct host_case *host_case)
{
    const struct bench_case *bench = &host_case->bench;
    const struct writer *script = &bench->script;
    uint8_t refusal;

    *talk = (struct talk){.host_case = host_case, .random = random_from(bench->seed ^ 0x54414C4B54414C4B, bench->number)};
    choose_line(talk);
    talk->proved = lend(AIS_HOST_BYTES, GUARD);
    talk->plain_image = lend_copy(script->bytes, script->length, 0);
    talk->proved_image = lend_copy(script->bytes, script->length, GUARD);
    talk->memory = lend(bench->memory_length, 0);
    fill_memory(bench, talk->memory.bytes, talk->memory.length);
    if (chance(&talk->random, 40))
        talk->loader = plain_session_open(script->has_halves, script->is_dm648, bench->map.bytes, bench->map.length, talk->memory.bytes,
                                          talk->memory.length, &refusal);
}

static void end_talk(struct talk *talk)
{
    end_session(talk);
    free(talk->proved.whole);
    free(talk->plain_image.whole);
    free(talk->proved_image.whole);
    free(talk->memory.whole);
}

/* ---- Turns ---- */

/* How a wait went on, told from the host before the turn and after it. */
static void count_turn(const struct plain_host *before, const struct plain_host *after, const struct plain_turn *turn)
{
    bool has_echo = before->wait == PLAIN_ECHO && before->heard_count >= 4;
    unsigned key = turn->refusal != NO_ANSWER ? turn->refusal : has_echo ? ECHO_DIFFERS : TRIES_SPENT;

    meet(TURNS, key, before->dialect, before->line);
    if (key == TRIES_SPENT && before->tries == MOST_TRIES && before->spent == MOST_TRIES - 1)
        meet(TURNS, MOST_TRIES_SPENT, before->dialect, before->line);
    if (turn->refusal != 0)
        return;
    if (before->wait == PLAIN_NO_WAIT)
        meet(COMMANDS, after->wait == PLAIN_OPCODE ? after->command : SEQUENTIAL_READ_COMMAND, before->dialect, before->line);
    else if (after->wait != before->wait || after->spent <= before->spent)
        meet(ANSWERED, before->wait, before->dialect, before->line);
    else if (before->has_news)
        meet(HELD_BACK, before->wait, before->dialect, before->line);
    else if (turn->sending != PLAIN_SENDS_NOTHING)
        meet(REPEATED, before->wait, before->dialect, before->line);
}

static uint64_t value_of(const struct plain_turn *turn, bool has_ended)
{
    uint64_t out = turn->sending == PLAIN_SENDS_WORD ? turn->word : (uint64_t)turn->length << 24 | turn->offset;

    return (uint64_t)turn->refusal << 56 | (uint64_t)has_ended << 52 | (uint64_t)turn->sending << 48 | out;
}

/* Takes a turn with both, lent these images. */
static bool take_turn_with(struct talk *talk, const struct lent *plain_image, const struct lent *proved_image, struct plain_turn *turn)
{
    struct plain_host before = talk->plain;
    uint8_t bytes[AIS_HOST_BYTES];
    uint64_t proved;
    bool is_same;

    *turn = plain_host_turn(&talk->plain, plain_image->bytes, plain_image->length);
    proved = ais_host_turn(talk->proved.bytes, AIS_HOST_BYTES, proved_image->bytes, proved_image->length);
    count_turn(&before, &talk->plain, turn);
    is_same = same_value("the turn", proved, value_of(turn, talk->plain.has_ended));
    is_same &= same_host(talk);
    if (is_same)
        return true;
    write_host(&before, bytes);
    print_host("before", bytes);
    return false;
}

/* The same with an image of another length. */
static bool take_turn_at_length(struct talk *talk, size_t length, struct plain_turn *turn)
{
    const struct lent *image = &talk->plain_image;
    struct lent plain = lend(length, 0), proved = lend(length, GUARD);
    bool is_same;

    memset(plain.bytes, 0, length);
    memcpy(plain.bytes, image->bytes, length < image->length ? length : image->length);
    memcpy(proved.bytes, plain.bytes, length);
    is_same = take_turn_with(talk, &plain, &proved, turn);
    free(plain.whole);
    free(proved.whole);
    return is_same;
}

static size_t choose_lent_length(struct talk *talk)
{
    size_t length = talk->plain_image.length;
    const uint32_t lengths[] = {0, 4, (uint32_t)length + 4, (uint32_t)length + 1, (uint32_t)(length < 4 ? 0 : length - 4), 65536, 65540};

    return chance(&talk->random, 2) ? PICK(&talk->random, lengths) : length;
}

static bool take_turn(struct talk *talk, struct plain_turn *turn)
{
    size_t length = choose_lent_length(talk);

    if (length != talk->plain_image.length)
        return take_turn_at_length(talk, length, turn);
    return take_turn_with(talk, &talk->plain_image, &talk->proved_image, turn);
}

/* Another word in the image, the same in both that are lent. */
static void change_image(struct talk *talk)
{
    size_t words = talk->plain_image.length / 4, place;

    if (words == 0)
        return;
    place = 4 * (size_t)random_below(&talk->random, (uint32_t)words);
    put_word(talk->plain_image.bytes + place, tricky_word(&talk->random));
    memcpy(talk->proved_image.bytes + place, talk->plain_image.bytes + place, 4);
}

/* What may happen between two turns, beside what comes in. */
static bool go_between(struct talk *talk)
{
    if (talk->has_changes && chance(&talk->random, 10))
        change_image(talk);
    if (talk->has_changes && chance(&talk->random, 5))
        damage_host(talk);
    return !chance(&talk->random, 1) || refuses_other_lengths(talk);
}

/* Turn after turn until some are refused in a row, as they are when the host has ended. */
static bool take_turns(struct talk *talk)
{
    unsigned limit = USUAL_TURNS + (talk->host_case->tries > MANY_TRIES ? MOST_TRIES : 0), refused = 0;

    for (; talk->turns < limit && refused < REFUSED_IN_A_ROW; talk->turns++) {
        struct plain_turn turn;
        if (!go_between(talk) || !hear(talk) || !take_turn(talk, &turn)) {
            printf("in a talk, after %u turns\n", talk->turns);
            return false;
        }
        answer(talk, &turn);
        refused = turn.refusal == 0 ? 0 : refused + 1;
    }
    if (memcmp(talk->plain_image.bytes, talk->proved_image.bytes, talk->plain_image.length) == 0 && guards_hold(&talk->proved_image))
        return true;
    printf("the image was changed, or bytes around it\n");
    return false;
}

static bool compare_talk(struct host_case *host_case, uint64_t seed, uint64_t number)
{
    static struct talk talk;
    uint8_t greeting[8];
    bool is_same;

    make_host_case(host_case, seed, number, 0x54414C4B);
    if (number % 64 >= 60) /* a count that no talk comes to the end of */
        host_case->pings = ~(uint32_t)number;
    begin_talk(&talk, host_case);
    is_same = open_hosts(&talk);
    add_answer(&talk, greeting, plain_greeting(host_case->bench.script.has_halves, greeting));
    if (is_same && chance(&talk.random, 10))
        choose_any_host(&talk);
    is_same = is_same && take_turns(&talk);
    end_talk(&talk);
    return is_same;
}

/* ---- The whole run ---- */

typedef bool comparison(struct host_case *, uint64_t, uint64_t);

static bool compare_all(comparison *compare, uint64_t first, uint64_t count, uint64_t seed)
{
    static struct host_case host_case;

    for (uint64_t number = first; number < first + count; number++) {
        bool is_same;
        begin_case(seed, number);
        is_same = compare(&host_case, seed, number);
        end_case();
        if (!is_same) {
            print_host_case(&host_case);
            printf("DIFFERENCE: to see it again: host_compare 1 %" PRIu64 " %" PRIu64 "\n", seed, number);
            return false;
        }
    }
    return true;
}

int main(int argument_count, char **arguments)
{
    uint64_t count = argument_count > 1 ? strtoull(arguments[1], NULL, 0) : 100000;
    uint64_t seed = argument_count > 2 ? strtoull(arguments[2], NULL, 0) : 1;
    uint64_t first = argument_count > 3 ? strtoull(arguments[3], NULL, 0) : 0;
    clock_t begin = clock(), between;

    guard_calls();
    if (!compare_all(compare_exchange, first, count, seed))
        return 1;
    between = clock();
    if (!compare_all(compare_talk, first, count, seed))
        return 1;
    print_counts();
    printf("\n%" PRIu64 " exchanges of seed %" PRIu64 " in %.1f seconds and as many talks in %.1f, no difference\n", count, seed,
           (double)(between - begin) / CLOCKS_PER_SEC, (double)(clock() - between) / CLOCKS_PER_SEC);
    if (argument_count <= 3 && !everything_met()) {
        printf("not everything was met\n");
        return 1;
    }
    return 0;
}
