/* Runs the proved reading and writing of hexadecimal text and the plain one on the same cases, and compares all that they give back.

   hex_compare COUNT SEED runs every character at every place of a word, then COUNT cases of the seed. It ends with status 1 at the first
   difference, or when a refusal was not met at all, alone or with another that stands after it. */
#include "ais.h"
#include "plain_hex.h"
#include "writer.h"

#include <inttypes.h>
#include <stdio.h>
#include <stdlib.h>
#include <string.h>

typedef uint8_t hex_entry(const uint8_t *, size_t, uint8_t *, size_t);

enum { READ, WRITE, WAYS };
enum { BAD_LENGTH = 21, NO_DIGIT = 22, SHORT_ROOM = 23, REFUSAL_LIMIT = 256 };
enum { DIGITS = 8, BYTES = 4, WORD_LIMIT = 40, GUARD = 17 };
enum { LENT_LIMIT = DIGITS * WORD_LIMIT + 8, WHOLE = LENT_LIMIT + 2 * GUARD };

struct way {
    const char *name;
    hex_entry *proved;
    hex_entry *plain;
    size_t from; /* bytes lent for a word, and bytes made of it */
    size_t to;
};

static const struct way ways[WAYS] = {
    {"read", ais_hex_read, plain_hex_read, DIGITS, BYTES},
    {"write", ais_hex_write, plain_hex_write, BYTES, DIGITS},
};

struct hex_case {
    const struct way *way;
    size_t length;
    size_t room_length;
    uint8_t lent[LENT_LIMIT];
    uint8_t room[LENT_LIMIT];
};

struct tally {
    uint64_t cases;
    uint64_t refusals[REFUSAL_LIMIT];
    uint64_t faults; /* refused cases with a further fault that stands after the first */
};

static struct tally tallies[WAYS];

/* ---- Comparing ---- */

/* What one of the two made of a case, with guards before and after all that was lent. */
struct outcome {
    uint8_t value;
    uint8_t lent[WHOLE];
    uint8_t room[WHOLE];
};

static void run(const struct hex_case *hex_case, hex_entry *entry, struct outcome *outcome)
{
    memset(outcome, 0xA5, sizeof *outcome);
    memcpy(outcome->lent + GUARD, hex_case->lent, hex_case->length);
    memcpy(outcome->room + GUARD, hex_case->room, hex_case->room_length);
    outcome->value = entry(outcome->lent + GUARD, hex_case->length, outcome->room + GUARD, hex_case->room_length);
}

/* What was lent to be read, the room past the result, and the guards around both are as they were; of a refusal all of the room is. */
static bool nothing_else_changed(const struct hex_case *hex_case, const struct outcome *outcome)
{
    struct outcome before;
    size_t made = outcome->value == 0 ? hex_case->length / hex_case->way->from * hex_case->way->to : 0;

    memset(&before, 0xA5, sizeof before);
    memcpy(before.lent + GUARD, hex_case->lent, hex_case->length);
    memcpy(before.room + GUARD, hex_case->room, hex_case->room_length);
    memcpy(before.room + GUARD, outcome->room + GUARD, made);
    return memcmp(before.lent, outcome->lent, WHOLE) == 0 && memcmp(before.room, outcome->room, WHOLE) == 0;
}

/* A result that is turned back is what it was made of; a text, in capitals. */
static bool comes_back(const struct hex_case *hex_case, const struct outcome *outcome)
{
    const struct way *way = hex_case->way, *back = way == &ways[READ] ? &ways[WRITE] : &ways[READ];
    size_t made = hex_case->length / way->from * way->to;
    uint8_t again[LENT_LIMIT];

    if (outcome->value != 0)
        return true;
    if (back->proved(outcome->room + GUARD, made, again, hex_case->length) != 0)
        return false;
    for (size_t index = 0; index < hex_case->length; index++) {
        uint8_t byte = hex_case->lent[index];

        if (again[index] != (way == &ways[READ] && byte >= 'a' ? byte - 'a' + 'A' : byte))
            return false;
    }
    return true;
}

static bool has_strange(const struct hex_case *hex_case)
{
    for (size_t index = 0; index < hex_case->length; index++)
        if (memchr("0123456789ABCDEFabcdef", hex_case->lent[index], 22) == NULL)
            return true;
    return false;
}

static void count_case(const struct hex_case *hex_case, uint8_t value)
{
    const struct way *way = hex_case->way;
    struct tally *tally = &tallies[way - ways];
    bool is_strange = way == &ways[READ] && has_strange(hex_case);
    bool is_short = hex_case->room_length < hex_case->length / way->from * way->to;

    tally->cases++;
    tally->refusals[value]++;
    tally->faults += (value == BAD_LENGTH && (is_strange || is_short)) || (value == NO_DIGIT && is_short);
}

static bool compare(const struct hex_case *hex_case)
{
    static struct outcome proved, plain;

    run(hex_case, hex_case->way->plain, &plain);
    run(hex_case, hex_case->way->proved, &proved);
    count_case(hex_case, plain.value);
    if (proved.value == plain.value && memcmp(proved.room, plain.room, WHOLE) == 0 && nothing_else_changed(hex_case, &proved) &&
        comes_back(hex_case, &proved))
        return true;
    printf("DIFFERENCE in %s of %zu bytes into %zu: proved %u, plain %u\n", hex_case->way->name, hex_case->length,
           hex_case->room_length, proved.value, plain.value);
    for (size_t index = 0; index < hex_case->length; index++)
        printf("%02X%s", hex_case->lent[index], index % 32 == 31 ? "\n" : " ");
    printf("\n");
    return false;
}

/* ---- Cases ---- */

static uint8_t random_digit(struct random_source *random)
{
    return (uint8_t)"0123456789ABCDEFabcdef"[random_below(random, 22)];
}

/* A good case: mostly a few words, sometimes none, sometimes many; the room exact or longer. */
static void make_good(struct random_source *random, struct hex_case *hex_case)
{
    size_t words = chance(random, 15) ? random_below(random, WORD_LIMIT + 1) : random_below(random, 4);

    hex_case->way = &ways[random_below(random, WAYS)];
    hex_case->length = words * hex_case->way->from;
    hex_case->room_length = words * hex_case->way->to + (chance(random, 50) ? 0 : random_below(random, 8));
    random_bytes(random, hex_case->lent, sizeof hex_case->lent);
    random_bytes(random, hex_case->room, sizeof hex_case->room);
    if (hex_case->way == &ways[READ])
        for (size_t index = 0; index < hex_case->length + DIGITS; index++)
            hex_case->lent[index] = random_digit(random);
}

/* Faults, each by itself or together: bytes too many or too few, a strange character, a room too short. */
static void damage(struct random_source *random, struct hex_case *hex_case)
{
    static const uint32_t near[] = {'/', ':', '@', 'G', '`', 'g', ' ', '\n', '\r', 0, 0x80, 0xB0, 0xFF};

    if (chance(random, 30))
        hex_case->length += 1 + random_below(random, (uint32_t)hex_case->way->from - 1);
    else if (chance(random, 15) && hex_case->length > 0)
        hex_case->length -= 1 + random_below(random, (uint32_t)hex_case->way->from - 1);
    if (chance(random, 30) && hex_case->length > 0)
        hex_case->lent[random_below(random, (uint32_t)hex_case->length)] =
            chance(random, 60) ? (uint8_t)PICK(random, near) : (uint8_t)random_below(random, 256);
    if (chance(random, 30) && hex_case->room_length > 0)
        hex_case->room_length = chance(random, 60) ? hex_case->room_length - 1 : random_below(random, (uint32_t)hex_case->room_length);
}

/* Every character at every place of a word. */
static bool compare_characters(void)
{
    static struct hex_case hex_case = {.way = &ways[READ], .length = 2 * DIGITS, .room_length = 2 * BYTES + 1};

    for (unsigned place = 0; place < 2 * DIGITS; place++) {
        for (unsigned character = 0; character < 256; character++) {
            memcpy(hex_case.lent, "0123456789ABCDEF", 2 * DIGITS);
            hex_case.lent[place] = (uint8_t)character;
            if (!compare(&hex_case))
                return false;
        }
    }
    return true;
}

/* ---- The whole run ---- */

static bool everything_met(void)
{
    static const struct {
        unsigned way;
        uint8_t refusal;
    } expected[] = {{READ, 0}, {READ, BAD_LENGTH}, {READ, NO_DIGIT}, {READ, SHORT_ROOM}, {WRITE, 0}, {WRITE, BAD_LENGTH}, {WRITE, SHORT_ROOM}};
    bool is_met = tallies[READ].faults > 0 && tallies[WRITE].faults > 0;

    for (size_t index = 0; index < sizeof expected / sizeof *expected; index++)
        is_met &= tallies[expected[index].way].refusals[expected[index].refusal] > 0;
    return is_met;
}

int main(int argument_count, char **arguments)
{
    static struct hex_case hex_case;
    uint64_t count = argument_count > 1 ? strtoull(arguments[1], NULL, 0) : 200000;
    uint64_t seed = argument_count > 2 ? strtoull(arguments[2], NULL, 0) : 1;

    if (!compare_characters())
        return 1;
    for (uint64_t number = 0; number < count; number++) {
        struct random_source random = random_from(seed, number);

        make_good(&random, &hex_case);
        if (chance(&random, 60))
            damage(&random, &hex_case);
        if (!compare(&hex_case))
            return 1;
    }
    printf("hex text   %10s%10s%10s%10s%10s%10s\n", "cases", "0", "21", "22", "23", "further");
    for (unsigned way = 0; way < WAYS; way++)
        printf("%-11s%10" PRIu64 "%10" PRIu64 "%10" PRIu64 "%10" PRIu64 "%10" PRIu64 "%10" PRIu64 "\n", ways[way].name, tallies[way].cases,
               tallies[way].refusals[0], tallies[way].refusals[BAD_LENGTH], tallies[way].refusals[NO_DIGIT],
               tallies[way].refusals[SHORT_ROOM], tallies[way].faults);
    if (!everything_met()) {
        printf("not everything was met\n");
        return 1;
    }
    printf("hex text: no difference\n");
    return 0;
}
