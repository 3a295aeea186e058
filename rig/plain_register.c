/* A line is taken apart loosely, printed again as it should be, and right if that gives the same bytes. Bits are masks, releases are stretches with
   two ends. */
#include "plain_register.h"

#include <stdbool.h>
#include <stdio.h>
#include <stdlib.h>
#include <string.h>

enum { MOST_LINES = 200, NAME_ROOM = 16, COMMAND_ROOM = 20, LINE_ROOM = 128 };
enum { ROOM = 23, MALFORMED = 26, CLASH = 27, NO_FIELD = 28, TOO_WIDE = 16 };

struct field {
    char name[NAME_ROOM + 1];
    uint32_t word, start, stop, mask;
    uint64_t first, last; /* releases */
};

struct outcome {
    unsigned refusal;
    size_t line; /* counted from 1 */
    size_t count;
    struct field fields[MOST_LINES];
};

static uint64_t least(uint64_t a, uint64_t b) { return a < b ? a : b; }
static uint64_t most(uint64_t a, uint64_t b) { return a < b ? b : a; }

static bool take_line(const uint8_t *bytes, size_t length, struct field *field)
{
    char line[LINE_ROOM] = {0}, again[LINE_ROOM + 64], address[9] = {0}, numbers[4][6] = {{0}};
    unsigned long value[4];

    if (length >= sizeof line)
        return false;
    memcpy(line, bytes, length);
    memset(field, 0, sizeof *field);
    if (sscanf(line, "field=%16[a-z] word=0x%8[0-9a-fA-F] start=%5[0-9] stop=%5[0-9] since=%5[0-9] until=%5[0-9]", field->name, address, numbers[0],
               numbers[1], numbers[2], numbers[3]) != 6)
        return false;
    for (int index = 0; index < 4; index++)
        value[index] = strtoul(numbers[index], NULL, 10);
    int printed = snprintf(again, sizeof again, "field=%s word=0x%s start=%lu stop=%lu since=%lu until=%lu\n", field->name, address, value[0], value[1],
                           value[2], value[3]);
    if (strlen(address) != 8 || (size_t)printed != length + 1 || memcmp(again, bytes, length + 1) != 0)
        return false;
    field->word = (uint32_t)strtoul(address, NULL, 16);
    if (field->word % 4 != 0 || value[1] > 31 || value[0] > value[1])
        return false;
    if (value[2] < 1 || value[2] > 9999 || value[3] > 9999 || (value[3] != 0 && value[3] < value[2]))
        return false;
    field->start = (uint32_t)value[0];
    field->stop = (uint32_t)value[1];
    for (uint32_t bit = field->start; bit <= field->stop; bit++)
        field->mask |= UINT32_C(1) << bit;
    field->first = value[2];
    field->last = value[3] == 0 ? UINT64_MAX : value[3];
    return true;
}

static bool clash(const struct field *a, const struct field *b)
{
    if (most(a->first, b->first) > least(a->last, b->last))
        return false;
    return strcmp(a->name, b->name) == 0 || (a->word == b->word && (a->mask & b->mask) != 0);
}

static struct outcome *take_text(const uint8_t *text, size_t length)
{
    struct outcome *outcome = calloc(1, sizeof *outcome);
    size_t at = 0;

    if (outcome == NULL)
        abort();
    while (at < length) {
        const uint8_t *end = memchr(text + at, '\n', length - at);
        struct field field;

        outcome->line = outcome->count + 1;
        outcome->refusal = MALFORMED;
        if (outcome->count == MOST_LINES || end == NULL || !take_line(text + at, (size_t)(end - text) - at, &field))
            return outcome;
        outcome->refusal = CLASH;
        for (size_t index = 0; index < outcome->count; index++)
            if (clash(&outcome->fields[index], &field))
                return outcome;
        outcome->refusal = 0;
        outcome->fields[outcome->count++] = field;
        at = (size_t)(end - text) + 1;
    }
    return outcome;
}

static uint64_t said(const struct outcome *outcome)
{
    if (outcome->refusal == 0)
        return outcome->count;
    return ((uint64_t)outcome->refusal << 32) + outcome->line;
}

uint64_t plain_register_read(const uint8_t *text, size_t text_len)
{
    struct outcome *outcome = take_text(text, text_len);
    uint64_t value = said(outcome);

    free(outcome);
    return value;
}

uint64_t plain_register_bit(const uint8_t *text, size_t text_len, uint32_t word, uint32_t bit, uint32_t release, uint8_t *name, size_t name_len)
{
    if (name_len < NAME_ROOM)
        return (uint64_t)ROOM << 32;
    struct outcome *outcome = take_text(text, text_len);
    uint64_t value = said(outcome);

    if (outcome->refusal == 0) {
        value = (uint64_t)NO_FIELD << 32;
        for (size_t index = 0; index < outcome->count; index++) {
            const struct field *field = &outcome->fields[index];

            if (field->word == word && bit < 32 && (field->mask >> bit & 1) != 0 && field->first <= release && release <= field->last) {
                memcpy(name, field->name, NAME_ROOM);
                value = field->first;
            }
        }
    }
    free(outcome);
    return value;
}

static void put_word(uint8_t *at, uint32_t word)
{
    for (int index = 0; index < 4; index++)
        at[index] = (uint8_t)(word >> 8 * index);
}

static uint64_t set_field(const struct field *field, uint32_t value, uint8_t *command)
{
    if (((uint64_t)value >> (field->stop - field->start + 1)) != 0)
        return (uint64_t)TOO_WIDE << 32;
    put_word(command, 0x58535907);
    put_word(command + 4, 3 | field->start << 8 | field->stop << 16);
    put_word(command + 8, field->word);
    put_word(command + 12, value);
    put_word(command + 16, 0);
    return 0;
}

uint64_t plain_register_command(const uint8_t *text, size_t text_len, const uint8_t *name, size_t name_len, uint32_t release, uint32_t value,
                                uint8_t *command, size_t command_len)
{
    if (command_len < COMMAND_ROOM)
        return (uint64_t)ROOM << 32;
    struct outcome *outcome = take_text(text, text_len);
    uint64_t answer = said(outcome);

    if (outcome->refusal == 0) {
        answer = (uint64_t)NO_FIELD << 32;
        for (size_t index = 0; index < outcome->count; index++) {
            const struct field *field = &outcome->fields[index];

            if (strlen(field->name) == name_len && memcmp(field->name, name, name_len) == 0 && field->first <= release && release <= field->last)
                answer = set_field(field, value, command);
        }
    }
    free(outcome);
    return answer;
}
