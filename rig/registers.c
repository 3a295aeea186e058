/* Runs the proved register and the plain one on the same texts, and compares all that they give back.

   registers COUNT SEED runs COUNT texts of the seed: good ones, clashing ones and damaged ones, some with 199 to 202 lines. Each is read, and asked
   about bits and commands. It ends with status 1 at the first difference, or when a kind of answer was not met at all. */
#include "ais.h"
#include "plain_register.h"

#include <inttypes.h>
#include <stdbool.h>
#include <stdio.h>
#include <stdlib.h>
#include <string.h>

enum { TEXT_ROOM = 32768, LARGEST_ROOM = 40, QUESTIONS = 4, REFUSALS = 32, MANY = 199 };

static uint64_t state;

static uint32_t draw(uint32_t below)
{
    state ^= state << 13;
    state ^= state >> 7;
    state ^= state << 17;
    return (uint32_t)((state >> 11) % below);
}

static const char *const names[] = {"a", "dwell", "priority", "door", "sixteenlettersab", "bed"};
static const uint32_t addresses[] = {0x80000010, 0x80000014, 0, 0xFFFFFFFC, 0x00abcdE0};
static const uint32_t releases[] = {1, 2, 3, 4, 9, 10, 9998, 9999};

#define PICK(list) (list)[draw(sizeof(list) / sizeof(list)[0])]

struct text {
    char bytes[TEXT_ROOM];
    size_t length;
};

/* The name of a line of a large text: no two numbers share one. */
static void large_name(char *name, uint32_t number)
{
    sprintf(name, "n%c%c", 'a' + (int)(number / 26), 'a' + (int)(number % 26));
}

static void add_line(struct text *text, const char *name, uint32_t word, uint32_t start, uint32_t stop, uint32_t since, uint32_t until)
{
    const char *form = draw(2) == 0 ? "field=%s word=0x%08X start=%u stop=%u since=%u until=%u\n" : "field=%s word=0x%08x start=%u stop=%u since=%u until=%u\n";

    text->length += (size_t)snprintf(text->bytes + text->length, TEXT_ROOM - text->length, form, name, word, start, stop, since, until);
}

static void add_random_line(struct text *text)
{
    uint32_t start = draw(32), stop = start + draw(4), since = PICK(releases), until = draw(3) == 0 ? 0 : since + draw(3);

    add_line(text, PICK(names), PICK(addresses), start, stop > 31 ? 31 : stop, since, until > 9999 ? 9999 : until);
}

/* Keeps a line only where the text stays good. */
static void add_good_line(struct text *text)
{
    size_t before = text->length;

    add_random_line(text);
    if (plain_register_read((const uint8_t *)text->bytes, text->length) >> 32 != 0)
        text->length = before;
}

static void make_large(struct text *text)
{
    uint32_t count = MANY + draw(4);

    for (uint32_t number = 0; number < count; number++) {
        char name[8];

        large_name(name, number);
        add_line(text, name, 0x1000 + 4 * (number / 8), number % 8 * 4, number % 8 * 4 + 3, 1 + draw(5), 0);
    }
}

static void damage(struct text *text)
{
    static const char bytes[] = "\n 0019azAZ=xX\t\r/:@[`{fgFG";
    size_t at = text->length == 0 ? 0 : draw((uint32_t)text->length);

    if (text->length == 0)
        return;
    switch (draw(3)) {
    case 0: /* another byte */
        text->bytes[at] = draw(4) == 0 ? (char)draw(256) : bytes[draw(sizeof bytes)];
        break;
    case 1: /* one less */
        memmove(text->bytes + at, text->bytes + at + 1, text->length - at - 1);
        text->length--;
        break;
    default: /* one more */
        memmove(text->bytes + at + 1, text->bytes + at, text->length - at);
        text->bytes[at] = bytes[draw(sizeof bytes)];
        text->length++;
    }
}

static void make_text(struct text *text, uint64_t number)
{
    uint32_t lines = draw(8);

    text->length = 0;
    if (number % 40 == 0) {
        make_large(text);
    } else {
        for (uint32_t line = 0; line < lines; line++)
            if (draw(6) == 0)
                add_random_line(text);
            else
                add_good_line(text);
    }
    if (draw(3) == 0)
        damage(text);
    if (draw(20) == 0 && text->length > 0)
        text->length -= 1 + draw((uint32_t)text->length);
}

static uint64_t met[3][REFUSALS + 1]; /* read, bit, command; the last place is for an answer */

static void count(int call, uint64_t value)
{
    uint64_t refusal = value >> 32;

    met[call][refusal < REFUSALS && refusal != 0 ? refusal : REFUSALS]++;
}

static void differ(const char *what, uint64_t number, const struct text *text, uint64_t proved, uint64_t plain)
{
    printf("%s differs in text %" PRIu64 ": proved %016" PRIx64 ", plain %016" PRIx64 "\n", what, number, proved, plain);
    fwrite(text->bytes, 1, text->length, stdout);
    exit(1);
}

static void ask_bit(const struct text *text, uint64_t number)
{
    uint32_t word = number % 40 == 0 ? 0x1000 + 4 * draw(27) : PICK(addresses) + draw(20) / 19;
    uint32_t bit = draw(20) == 0 ? draw(256) : draw(32);
    uint32_t release = draw(4) == 0 ? draw(12000) : PICK(releases);
    size_t room = draw(8) == 0 ? draw(16) : 16 + draw(LARGEST_ROOM - 16);
    uint8_t one[LARGEST_ROOM], other[LARGEST_ROOM];
    uint64_t proved, plain;

    memset(one, 0xA5, sizeof one);
    memset(other, 0xA5, sizeof other);
    proved = ais_register_bit((const uint8_t *)text->bytes, text->length, word, bit, release, one, room);
    plain = plain_register_bit((const uint8_t *)text->bytes, text->length, word, bit, release, other, room);
    if (proved != plain || memcmp(one, other, sizeof one) != 0)
        differ("a bit", number, text, proved, plain);
    count(1, proved);
}

static void ask_command(const struct text *text, uint64_t number)
{
    char name[32];
    uint32_t release = draw(4) == 0 ? draw(12000) : PICK(releases), value = draw(3) == 0 ? draw(UINT32_MAX) : draw(20);
    size_t room = draw(8) == 0 ? draw(20) : 20 + draw(LARGEST_ROOM - 20), length;
    uint8_t one[LARGEST_ROOM], other[LARGEST_ROOM];
    uint64_t proved, plain;

    if (number % 40 == 0)
        large_name(name, draw(MANY + 4));
    else
        strcpy(name, PICK(names));
    length = strlen(name);
    if (draw(8) == 0)
        length = draw(sizeof name); /* another name, or one with zeros behind it */
    else if (draw(8) == 0)
        name[draw((uint32_t)length)] = (char)draw(256);
    memset(name + strlen(name), 0, sizeof name - strlen(name));
    memset(one, 0xA5, sizeof one);
    memset(other, 0xA5, sizeof other);
    proved = ais_register_command((const uint8_t *)text->bytes, text->length, (const uint8_t *)name, length, release, value, one, room);
    plain = plain_register_command((const uint8_t *)text->bytes, text->length, (const uint8_t *)name, length, release, value, other, room);
    if (proved != plain || memcmp(one, other, sizeof one) != 0)
        differ("a command", number, text, proved, plain);
    count(2, proved);
}

/* Was each kind of answer met that this call can give? */
static bool all_met(int call, const int *refusals)
{
    bool all = met[call][REFUSALS] != 0;

    for (; *refusals != 0; refusals++)
        all = all && met[call][*refusals] != 0;
    return all;
}

int main(int argc, char **argv)
{
    static struct text text;
    static const int of_reading[] = {26, 27, 0}, of_bits[] = {23, 26, 27, 28, 0}, of_commands[] = {16, 23, 26, 27, 28, 0};
    uint64_t texts = argc == 3 ? strtoull(argv[1], NULL, 10) : 0, large[4] = {0};

    if (texts == 0) {
        fprintf(stderr, "registers COUNT SEED\n");
        return 2;
    }
    state = strtoull(argv[2], NULL, 10) * UINT64_C(0x9E3779B97F4A7C15) + 1;
    for (uint64_t number = 0; number < texts; number++) {
        make_text(&text, number);
        uint64_t proved = ais_register_read((const uint8_t *)text.bytes, text.length);
        uint64_t plain = plain_register_read((const uint8_t *)text.bytes, text.length);

        if (proved != plain)
            differ("reading", number, &text, proved, plain);
        count(0, proved);
        if (proved == 199 || proved == 200)
            large[proved - MANY]++;
        if (proved == (UINT64_C(26) << 32) + 201)
            large[2]++;
        for (int question = 0; question < QUESTIONS; question++) {
            ask_bit(&text, number);
            ask_command(&text, number);
        }
    }
    for (int call = 0; call < 3; call++) {
        printf("%s: answered %" PRIu64, call == 0 ? "reading" : call == 1 ? "bits" : "commands", met[call][REFUSALS]);
        for (int refusal = 1; refusal < REFUSALS; refusal++)
            if (met[call][refusal] != 0)
                printf(", %d: %" PRIu64, refusal, met[call][refusal]);
        printf("\n");
    }
    printf("good with 199 lines %" PRIu64 ", with 200 %" PRIu64 ", refused at line 201 %" PRIu64 "\n", large[0], large[1], large[2]);
    if (!all_met(0, of_reading) || !all_met(1, of_bits) || !all_met(2, of_commands) || large[0] == 0 || large[1] == 0 || large[2] == 0) {
        printf("a kind of answer was not met\n");
        return 1;
    }
    printf("%" PRIu64 " texts, no difference\n", texts);
    return 0;
}
