/* A loader of boot scripts in plain C, written from the paper alone. Nothing here is shared with the proved one. */
#include "plain_loader.h"

#include <stdbool.h>
#include <stdio.h>
#include <stdlib.h>
#include <string.h>

enum refusal {
    ACCEPTED = 0,
    MAP_WRONG = 1,
    MEMORY_LENGTH_WRONG = 2,
    IMAGE_LENGTH_WRONG = 3,
    FIRST_WORD_WRONG = 4,
    IMAGE_TOO_SHORT = 5,
    OPCODE_WRONG = 6,
    NOT_GRANTED = 7,
    TYPE_WRONG = 8,
    NOT_ALIGNED = 9,
    ENTRY_WRONG = 10,
    CHECKSUM_DIFFERS = 11,
    SEEK_WRONG = 12,
    SESSION_ENDED = 14,
    OPCODE_RETIRED = 15,
    DATA_TOO_WIDE = 16,
    TOTALS_DIFFER = 17,
    TOTAL_TOO_LARGE = 18,
    CALL_WRONG = 19,
    ROOM_TOO_SHORT = 23,
    CHOICE_WRONG = 24,
    NUMBER_TOO_LARGE = 25
};

enum right { LOAD_RIGHT = 1, SET_RIGHT = 2, ENTRY_RIGHT = 4 };

enum { WINDOW_LIMIT = 8, WINDOW_BYTES = 12, MEMORY_LIMIT = 65536, IMAGE_LIMIT = 65536, FED_LIMIT = 65536 };
enum { WORD_BYTES = 4, ARGUMENT_LIMIT = 4, REPLY_LIMIT = 8, GREETING_LENGTH = 6 };
enum { CHOICE_LIMIT = 64, LARGEST_NUMBER = 65535, NUMBER_BYTES = 2, CHOICE_BYTES = 64 };
enum { WAIT_EVENT = 1, ENTRY_EVENT = 3, EVENT_BYTES = 8, SETTING_BYTES = 20 };

static const uint32_t FIRST_WORD = 0x41504954;
static const uint32_t POLYNOMIAL = 0x04C11DB7;
static const uint64_t ADDRESS_SPACE = (uint64_t)1 << 32;
static const uint32_t START_BYTE = 0x58, START_HALF = 0x5853;
static const uint32_t BYTE_ANSWER = 0x52, HALF_ANSWER = 0x5253;

/* ---- Words ---- */

static uint32_t read_word(const uint8_t *bytes)
{
    return (uint32_t)bytes[0] | (uint32_t)bytes[1] << 8 | (uint32_t)bytes[2] << 16 | (uint32_t)bytes[3] << 24;
}

/* Writes the low `count` bytes of a value, lowest first. */
static void write_low_bytes(uint8_t *bytes, uint32_t value, uint32_t count)
{
    for (uint32_t index = 0; index < count; index++)
        bytes[index] = (uint8_t)(value >> (8 * index));
}

/* ---- Opcodes ---- */

enum command {
    LOAD,
    REQUEST,
    ENABLE,
    DISABLE,
    JUMP_AND_CLOSE = PLAIN_JUMP_AND_CLOSE,
    BOOT_TABLE,
    START_OVER,
    FILL,
    PING,
    SEQUENTIAL_READ_ENABLE
};

enum { NOT_ALLOWED = -1 };

struct command_row {
    uint32_t opcode;
    int sent_words, flash_words; /* how many argument words; a Jump & Close of a DM648 has two more */
    const char *name;
};

static const struct command_row COMMANDS[PLAIN_COMMANDS] = {
    [LOAD] = {0x58535901, 2, 2, "Load"},
    [REQUEST] = {0x58535902, 0, 2, "Request"},
    [ENABLE] = {0x58535903, 0, 0, "Enable"},
    [DISABLE] = {0x58535904, 0, 0, "Disable"},
    [JUMP_AND_CLOSE] = {0x58535906, 1, 1, "Jump & Close"},
    [BOOT_TABLE] = {0x58535907, 4, 4, "Boot Table"},
    [START_OVER] = {0x58535908, 0, NOT_ALLOWED, "Start-Over"},
    [FILL] = {0x5853590A, 4, 4, "Fill"},
    [PING] = {0x5853590B, 1, NOT_ALLOWED, "Ping"},
    [SEQUENTIAL_READ_ENABLE] = {0x58535963, NOT_ALLOWED, 0, "Sequential Read Enable"},
};

/* Jump, which no mode takes any more. */
static const uint32_t RETIRED = 0x58535905;

plain_counts plain_accepted;
plain_counts plain_accepted_over_seam;
uint32_t plain_fetched;

const char *plain_dialect_name(unsigned dialect)
{
    static const char *const names[PLAIN_DIALECTS] = {"AM17xx", "DM648"};

    return names[dialect];
}

const char *plain_mode_name(unsigned mode)
{
    static const char *const names[PLAIN_MODES] = {"bytes", "halves", "flash"};

    return names[mode];
}

const char *plain_command_name(unsigned kind)
{
    return COMMANDS[kind].name;
}

static int row_words(unsigned mode, unsigned kind)
{
    return mode == PLAIN_FLASH ? COMMANDS[kind].flash_words : COMMANDS[kind].sent_words;
}

static unsigned argument_words(unsigned dialect, unsigned mode, unsigned kind)
{
    return (unsigned)row_words(mode, kind) + (dialect == PLAIN_DM648 && kind == JUMP_AND_CLOSE ? 2 : 0);
}

int plain_command_allowed(unsigned mode, unsigned kind)
{
    return row_words(mode, kind) != NOT_ALLOWED;
}

int plain_command_writes(unsigned kind)
{
    return kind == LOAD || kind == FILL || kind == BOOT_TABLE;
}

/* Finds the command of an opcode in a mode: refused where it is retired, or where there is none. */
static enum refusal find_command(uint32_t opcode, unsigned mode, enum command *found)
{
    if (opcode == RETIRED)
        return OPCODE_RETIRED;
    for (unsigned kind = 0; kind < PLAIN_COMMANDS; kind++) {
        if (COMMANDS[kind].opcode == opcode && plain_command_allowed(mode, kind)) {
            *found = (enum command)kind;
            return ACCEPTED;
        }
    }
    return OPCODE_WRONG;
}

/* ---- Map ---- */

struct window {
    uint32_t first;
    uint32_t length;
    uint32_t rights;
};

struct map {
    struct window windows[WINDOW_LIMIT];
    size_t count;
    uint64_t sum;
};

static uint64_t window_end(const struct window *window)
{
    return (uint64_t)window->first + window->length;
}

/* Reads and checks a map; false is refusal 1. */
static bool read_map(struct map *map, const uint8_t *bytes, size_t length)
{
    uint64_t free_from = 0;

    if (length % WINDOW_BYTES != 0 || length == 0 || length > WINDOW_LIMIT * WINDOW_BYTES)
        return false;
    map->count = length / WINDOW_BYTES;
    map->sum = 0;
    for (size_t index = 0; index < map->count; index++) {
        struct window *window = &map->windows[index];
        window->first = read_word(bytes + index * WINDOW_BYTES);
        window->length = read_word(bytes + index * WINDOW_BYTES + 4);
        window->rights = read_word(bytes + index * WINDOW_BYTES + 8);
        if (window->length == 0 || window->rights < 1 || window->rights > 7)
            return false;
        if (window->first < free_from || window_end(window) > ADDRESS_SPACE)
            return false;
        free_from = window_end(window);
        map->sum += window->length;
    }
    return map->sum <= MEMORY_LIMIT;
}

/* Follows a chain from one window on: each next window begins exactly where the one before ends, and has the right.
   Gives back how many windows it takes to reach an address, 0 where the chain breaks off before it. */
static unsigned follow_chain(const struct map *map, enum right right, size_t index, uint64_t reached_address)
{
    unsigned taken = 1;

    for (; window_end(&map->windows[index]) < reached_address; index++, taken++) {
        const struct window *next = &map->windows[index + 1];
        if (index + 1 == map->count || next->first != window_end(&map->windows[index]) || (next->rights & right) == 0)
            return 0;
    }
    return taken;
}

/* Grants a range of addresses, and finds its place in the lent memory. Gives back how many windows it lies in, 0 where it
   is not granted; a range of no byte lies in the one window that holds its address. */
static unsigned find_place(const struct map *map, enum right right, uint32_t address, uint32_t size, size_t *place)
{
    size_t window_place = 0;

    for (size_t index = 0; index < map->count; index++) {
        const struct window *window = &map->windows[index];
        if ((window->rights & right) != 0 && window->first <= address && address < window_end(window)) {
            *place = window_place + (address - window->first);
            return follow_chain(map, right, index, (uint64_t)address + size);
        }
        window_place += window->length;
    }
    return 0;
}

/* ---- Sections, which a DM648 counts ---- */

/* All sections that stand, in their order: for each, the bytes of it and of all before it. What a retry takes back is
   the end of the list, from the last place on at which a retry could begin. */
struct sections {
    uint64_t *bytes;
    size_t count;
    size_t room;
    size_t kept; /* how many of them a retry leaves */
};

/* Makes a list so long, or ends the program where there is no memory left. */
static void *with_length(void *list, size_t length)
{
    list = realloc(list, length);
    if (list == NULL) {
        fprintf(stderr, "no memory left\n");
        exit(2);
    }
    return list;
}

/* Makes room for one more in a list of things of some size. */
static void *with_room(void *list, size_t count, size_t *room, size_t size)
{
    if (count < *room)
        return list;
    *room = 2 * *room + 64;
    return with_length(list, *room * size);
}

static uint64_t bytes_of(const struct sections *sections)
{
    return sections->count == 0 ? 0 : sections->bytes[sections->count - 1];
}

static bool is_too_large(const struct sections *sections, uint32_t size)
{
    return (uint64_t)sections->count + 1 > UINT32_MAX || bytes_of(sections) + size > UINT32_MAX;
}

static void append_section(struct sections *sections, uint32_t size)
{
    sections->bytes = with_room(sections->bytes, sections->count, &sections->room, sizeof *sections->bytes);
    sections->bytes[sections->count] = bytes_of(sections) + size;
    sections->count++;
}

/* ---- Which command wrote a bit of a chosen word ---- */

/* The words that were chosen, as they are lent, and where their numbers go. */
struct watch {
    const uint8_t *chosen;
    size_t chosen_length;
    uint8_t *numbers;
    size_t numbers_length;
};

/* An accepted load, fill or setting: its number, the bytes that it wrote, and which bits of these, a field's word being
   the only one of which it is not all. */
struct written {
    uint32_t number;
    uint32_t address;
    uint32_t size;
    uint32_t bits;
};

/* All commands that were accepted, in their order, those given up too. */
struct history {
    struct written *list;
    size_t count;
    size_t room;
    uint32_t standing; /* how many of them stand */
    uint32_t kept;     /* how many a retry leaves */
};

static void append_written(struct history *history, uint32_t address, uint32_t size, uint32_t bits)
{
    history->list = with_room(history->list, history->count, &history->room, sizeof *history->list);
    history->standing++;
    history->list[history->count++] = (struct written){history->standing, address, size, bits};
}

/* The bits of a word that a command wrote. */
static uint32_t bits_written(const struct written *written, uint32_t word)
{
    uint32_t bits = 0;

    for (unsigned index = 0; index < WORD_BYTES; index++) {
        uint64_t address = (uint64_t)word + index;
        if (written->address <= address && address < (uint64_t)written->address + written->size)
            bits |= (uint32_t)0xFF << (8 * index);
    }
    return bits & written->bits;
}

/* Looks back from the last command to the first until each bit of a word is found. */
static void write_numbers_of(const struct history *history, uint32_t word, uint8_t *numbers)
{
    uint32_t sought = 0xFFFFFFFF;

    memset(numbers, 0, CHOICE_BYTES);
    for (size_t index = history->count; index > 0 && sought != 0; index--) {
        uint32_t found = bits_written(&history->list[index - 1], word) & sought;
        for (unsigned bit = 0; bit < 32; bit++)
            if (found >> bit & 1)
                write_low_bytes(numbers + NUMBER_BYTES * bit, history->list[index - 1].number, NUMBER_BYTES);
        sought &= ~found;
    }
}

static bool lies_in_set_window(const struct map *map, uint32_t word)
{
    for (size_t index = 0; index < map->count; index++) {
        const struct window *window = &map->windows[index];
        if ((window->rights & SET_RIGHT) != 0 && window->first <= word &&
            (uint64_t)word + WORD_BYTES <= window_end(window))
            return true;
    }
    return false;
}

/* Whether the chosen words are allowed; false is refusal 24. */
static bool choice_is_right(const struct map *map, const struct watch *watch)
{
    if (watch->chosen_length % WORD_BYTES != 0 || watch->chosen_length / WORD_BYTES > CHOICE_LIMIT)
        return false;
    for (size_t place = 0; place < watch->chosen_length; place += WORD_BYTES) {
        uint32_t word = read_word(watch->chosen + place);
        if (word % WORD_BYTES != 0 || !lies_in_set_window(map, word))
            return false;
        for (size_t earlier = 0; earlier < place; earlier += WORD_BYTES)
            if (read_word(watch->chosen + earlier) == word)
                return false;
    }
    return true;
}

/* ---- Events ---- */

/* A pass through an image has at most so many settings, each with a wait; there is one pass more than retries, and one entry. */
size_t plain_events_room(size_t image_length, uint8_t limit)
{
    size_t counted = image_length < IMAGE_LIMIT ? image_length : IMAGE_LIMIT;

    return EVENT_BYTES * (((size_t)limit + 1) * (counted / SETTING_BYTES) + 1);
}

/* The next event, unless nobody asks. The room was judged before: one that is too short now was judged wrongly. */
static void tell(struct plain_events *events, uint32_t kind, uint32_t value)
{
    if (events == NULL)
        return;
    if (events->length / EVENT_BYTES == events->count) {
        printf("there are more events than their room may have to hold\n");
        abort();
    }
    write_low_bytes(events->room + EVENT_BYTES * (size_t)events->count, kind, WORD_BYTES);
    write_low_bytes(events->room + EVENT_BYTES * (size_t)events->count + WORD_BYTES, value, WORD_BYTES);
    events->count++;
}

/* ---- What both modes share ---- */

struct loader {
    unsigned dialect;
    struct map map;
    struct sections sections;  /* none in AM17xx */
    const struct watch *watch; /* null where no words are chosen, and nothing is numbered */
    struct history history;
    struct plain_events *events; /* null where nobody asks for them */
    bool has_requested; /* sent mode: the last opcode was a Request, after which a retry may still come */
    uint8_t *memory;
    uint32_t checksum;
    bool checksum_on;
    bool ended;
    bool entered; /* ended by a Jump & Close */
    uint32_t entry_address;
    unsigned windows_taken; /* by the range of the command at hand */
};

/* Grants a range to the command at hand; false where it is not granted. */
static bool grant(struct loader *loader, enum right right, uint32_t address, uint32_t size, size_t *place)
{
    loader->windows_taken = find_place(&loader->map, right, address, size, place);
    return loader->windows_taken > 0;
}

/* Whether one more section of that size is too much. */
static bool section_is_too_much(const struct loader *loader, uint32_t size)
{
    return loader->dialect == PLAIN_DM648 && is_too_large(&loader->sections, size);
}

static void add_section(struct loader *loader, uint32_t size)
{
    if (loader->dialect == PLAIN_DM648)
        append_section(&loader->sections, size);
}

/* Whether one more numbered command is too much. */
static bool number_is_too_large(const struct loader *loader)
{
    return loader->watch != NULL && loader->history.standing == LARGEST_NUMBER;
}

static void add_written(struct loader *loader, uint32_t address, uint32_t size, uint32_t bits)
{
    if (loader->watch != NULL)
        append_written(&loader->history, address, size, bits);
}

/* From here on a retry would begin. */
static void keep_all(struct loader *loader)
{
    loader->sections.kept = loader->sections.count;
    loader->history.kept = loader->history.standing;
}

/* A retry: sections and numbers go back, and what was written stays in the history. */
static void take_back(struct loader *loader)
{
    loader->sections.count = loader->sections.kept;
    loader->history.standing = loader->history.kept;
}

/* What an opcode on the line says of the commands before it: a Start-Over takes them back, any other opcode directly
   after a Request says that they were right. */
static void judge_earlier(struct loader *loader, enum command command)
{
    if (command == START_OVER)
        take_back(loader);
    else if (loader->has_requested || command == ENABLE)
        keep_all(loader);
    loader->has_requested = command == REQUEST;
}

/* At the end: the numbers of the chosen words, by the history. */
static void write_numbers(const struct loader *loader)
{
    for (size_t index = 0; loader->watch != NULL && index < loader->watch->chosen_length / WORD_BYTES; index++)
        write_numbers_of(&loader->history, read_word(loader->watch->chosen + WORD_BYTES * index),
                         loader->watch->numbers + CHOICE_BYTES * index);
}

static void end_loader(struct loader *loader)
{
    free(loader->sections.bytes);
    free(loader->history.list);
}

/* Map and chosen words, in their order. */
static enum refusal judge_opening(struct loader *loader, const uint8_t *map, size_t map_length)
{
    if (!read_map(&loader->map, map, map_length))
        return MAP_WRONG;
    return loader->watch == NULL || choice_is_right(&loader->map, loader->watch) ? ACCEPTED : CHOICE_WRONG;
}

/* Memory and numbers have to be as long as map and choice say. */
static bool lengths_are_right(const struct loader *loader, size_t memory_length)
{
    const struct watch *watch = loader->watch;

    return memory_length == loader->map.sum &&
           (watch == NULL || watch->numbers_length == watch->chosen_length / WORD_BYTES * CHOICE_BYTES);
}

static void count_accepted(struct loader *loader, unsigned mode, enum command command)
{
    plain_accepted[loader->dialect][mode][command]++;
    plain_accepted_over_seam[loader->dialect][mode][command] += loader->windows_taken > 1;
    loader->windows_taken = 0;
}

/* Feeds the low bits of a value to the checksum, highest first, while it is on. */
static void feed_checksum(struct loader *loader, uint32_t value, unsigned bits)
{
    uint32_t checksum = loader->checksum;

    if (!loader->checksum_on)
        return;
    while (bits > 0) {
        bool fell_off = checksum >> 31 != 0;
        bits--;
        checksum = checksum << 1 | (value >> bits & 1);
        if (fell_off)
            checksum ^= POLYNOMIAL;
    }
    loader->checksum = checksum;
}

static void enable(struct loader *loader)
{
    loader->checksum_on = true;
    loader->checksum = 0;
}

static void disable(struct loader *loader)
{
    loader->checksum_on = false;
}

static void start_over(struct loader *loader)
{
    loader->checksum = 0;
}

/* Repeats the low bytes of a pattern, one unit of them. Zeros go quickly: it takes 2^32 bytes to come to TOTAL_TOO_LARGE. */
static void put_pattern(uint8_t *bytes, uint32_t size, uint32_t unit, uint32_t pattern)
{
    if (pattern == 0) {
        memset(bytes, 0, size);
        return;
    }
    for (uint32_t index = 0; index < size; index++)
        bytes[index] = (uint8_t)(pattern >> (8 * (index & (unit - 1))));
}

static enum refusal fill(struct loader *loader, const uint32_t *arguments)
{
    uint32_t address = arguments[0], size = arguments[1], type = arguments[2], pattern = arguments[3];
    uint32_t unit;
    size_t place;

    if (type > 2)
        return TYPE_WRONG;
    unit = (uint32_t)1 << type;
    if (address % unit != 0 || size % unit != 0)
        return NOT_ALIGNED;
    if (!grant(loader, LOAD_RIGHT, address, size, &place))
        return NOT_GRANTED;
    if (section_is_too_much(loader, size))
        return TOTAL_TOO_LARGE;
    if (number_is_too_large(loader))
        return NUMBER_TOO_LARGE;
    put_pattern(loader->memory + place, size, unit, pattern);
    for (unsigned index = 0; index < 4; index++)
        feed_checksum(loader, arguments[index], 32);
    add_section(loader, size);
    add_written(loader, address, size, 0xFFFFFFFF);
    return ACCEPTED;
}

/* All ones, as many as a field from bit `start` to bit `stop` has bits. */
static uint32_t field_ones(uint32_t start, uint32_t stop)
{
    return 0xFFFFFFFF >> (31 - (stop - start));
}

/* Puts data that fit into the bits `start` to `stop` of a word, and keeps the others. */
static uint32_t put_field(uint32_t word, uint32_t data, uint32_t start, uint32_t stop)
{
    return (word & ~(field_ones(start, stop) << start)) | data << start;
}

static enum refusal boot_table(struct loader *loader, const uint32_t *arguments)
{
    uint32_t type = arguments[0], address = arguments[1], data = arguments[2];
    uint32_t kind = type & 0xFF, start = type >> 8 & 0xFF, stop = type >> 16 & 0xFF;
    bool is_field = kind == 3 || kind == 4;
    uint32_t unit;
    size_t place;

    if (type >> 24 != 0 || kind > 4)
        return TYPE_WRONG;
    if (is_field && (start > stop || stop > 31))
        return TYPE_WRONG;
    if (is_field && (data & ~field_ones(start, stop)) != 0)
        return DATA_TOO_WIDE;
    unit = is_field ? 4 : (uint32_t)1 << kind;
    if (address % unit != 0)
        return NOT_ALIGNED;
    if (!grant(loader, SET_RIGHT, address, unit, &place))
        return NOT_GRANTED;
    if (number_is_too_large(loader))
        return NUMBER_TOO_LARGE;
    if (is_field)
        data = put_field(read_word(loader->memory + place), data, start, stop);
    write_low_bytes(loader->memory + place, data, unit);
    add_written(loader, address, unit, is_field ? field_ones(start, stop) << start : 0xFFFFFFFF);
    tell(loader->events, WAIT_EVENT, arguments[3]);
    return ACCEPTED;
}

/* The two words that a DM648 has after the entry address. */
static bool totals_are_right(const struct sections *sections, uint32_t section_total, uint32_t byte_total)
{
    return section_total == sections->count && byte_total == bytes_of(sections);
}

static enum refusal jump_and_close(struct loader *loader, const uint32_t *arguments)
{
    uint32_t address = arguments[0];
    size_t place;

    if (address % 4 != 0 || !grant(loader, ENTRY_RIGHT, address, 0, &place))
        return ENTRY_WRONG;
    if (loader->dialect == PLAIN_DM648 && !totals_are_right(&loader->sections, arguments[1], arguments[2]))
        return TOTALS_DIFFER;
    loader->ended = true;
    loader->entered = true;
    loader->entry_address = address;
    tell(loader->events, ENTRY_EVENT, address);
    return ACCEPTED;
}

/* ---- Flash mode ---- */

struct flash_run {
    struct loader loader;
    const uint8_t *image;
    size_t length;
    size_t offset;
    uint8_t limit;
    uint8_t retries;
    uint32_t fetched; /* words read from the image */
};

static uint32_t fetch_word(struct flash_run *run, size_t offset)
{
    run->fetched++;
    return read_word(run->image + offset);
}

static enum refusal flash_load(struct flash_run *run, const uint32_t *arguments, size_t after)
{
    uint32_t address = arguments[0], size = arguments[1];
    const uint8_t *data = run->image + after;
    uint32_t left_over = size % WORD_BYTES, whole = size - left_over;
    size_t padded, place;

    if (!grant(&run->loader, LOAD_RIGHT, address, size, &place))
        return NOT_GRANTED;
    if (section_is_too_much(&run->loader, size))
        return TOTAL_TOO_LARGE;
    padded = whole + (left_over != 0 ? WORD_BYTES : 0);
    if (run->length - after < padded)
        return IMAGE_TOO_SHORT;
    if (number_is_too_large(&run->loader))
        return NUMBER_TOO_LARGE;
    memcpy(run->loader.memory + place, data, size);
    run->fetched += (uint32_t)(padded / WORD_BYTES);
    feed_checksum(&run->loader, address, 32);
    feed_checksum(&run->loader, size, 32);
    for (uint32_t index = 0; index < whole; index += WORD_BYTES)
        feed_checksum(&run->loader, read_word(data + index), 32);
    if (left_over != 0)
        feed_checksum(&run->loader, read_word(data + whole), 8 * left_over);
    add_section(&run->loader, size);
    add_written(&run->loader, address, size, 0xFFFFFFFF);
    run->offset = after + padded;
    return ACCEPTED;
}

/* Compares the register; on a mismatch goes back by the seek, which counts from the word after it. */
static enum refusal flash_request(struct flash_run *run, const uint32_t *arguments, size_t after)
{
    uint32_t expected = arguments[0], seek = arguments[1];
    bool matches = run->loader.checksum == expected;
    uint32_t target = (uint32_t)after + seek;

    run->loader.checksum = 0;
    if (matches) {
        keep_all(&run->loader);
        run->offset = after;
        return ACCEPTED;
    }
    if (run->retries == run->limit)
        return CHECKSUM_DIFFERS;
    if (target % WORD_BYTES != 0 || target < WORD_BYTES || target >= run->offset)
        return SEEK_WRONG;
    take_back(&run->loader);
    run->retries++;
    run->offset = target;
    return ACCEPTED;
}

/* Does the commands that only move on past their arguments. */
static enum refusal flash_simple(struct loader *loader, enum command command, const uint32_t *arguments)
{
    switch (command) {
    case FILL:
        return fill(loader, arguments);
    case BOOT_TABLE:
        return boot_table(loader, arguments);
    case JUMP_AND_CLOSE:
        return jump_and_close(loader, arguments);
    case ENABLE:
        enable(loader);
        keep_all(loader);
        return ACCEPTED;
    case DISABLE:
        disable(loader);
        return ACCEPTED;
    default: /* Sequential Read Enable has no effect */
        return ACCEPTED;
    }
}

/* Does the command at the offset, and moves the offset past it. */
static enum refusal flash_command(struct flash_run *run)
{
    uint32_t arguments[ARGUMENT_LIMIT] = {0};
    enum command command;
    enum refusal refusal;
    size_t after = run->offset + WORD_BYTES;
    unsigned argument_count;

    if (after > run->length)
        return IMAGE_TOO_SHORT;
    refusal = find_command(fetch_word(run, run->offset), PLAIN_FLASH, &command);
    if (refusal != ACCEPTED)
        return refusal;
    argument_count = argument_words(run->loader.dialect, PLAIN_FLASH, command);
    for (unsigned index = 0; index < argument_count; index++, after += WORD_BYTES) {
        if (run->length - after < WORD_BYTES)
            return IMAGE_TOO_SHORT;
        arguments[index] = fetch_word(run, after);
    }
    if (command == LOAD) {
        refusal = flash_load(run, arguments, after);
    } else if (command == REQUEST) {
        refusal = flash_request(run, arguments, after);
    } else {
        refusal = flash_simple(&run->loader, command, arguments);
        if (refusal == ACCEPTED)
            run->offset = after;
    }
    if (refusal == ACCEPTED)
        count_accepted(&run->loader, PLAIN_FLASH, command);
    return refusal;
}

static enum refusal flash_opening(struct flash_run *run, const uint8_t *map, size_t map_length)
{
    enum refusal refusal = judge_opening(&run->loader, map, map_length);

    if (refusal != ACCEPTED)
        return refusal;
    if (run->length % WORD_BYTES != 0 || run->length < WORD_BYTES || run->length > IMAGE_LIMIT)
        return IMAGE_LENGTH_WRONG;
    if (fetch_word(run, 0) != FIRST_WORD)
        return FIRST_WORD_WRONG;
    return ACCEPTED;
}

static uint64_t run_in(unsigned dialect, const struct watch *watch, struct plain_events *events, const uint8_t *map,
                       size_t map_length, uint8_t *memory, size_t memory_length, const uint8_t *image, size_t image_length,
                       uint8_t limit)
{
    struct flash_run run = {.loader = {.dialect = dialect, .watch = watch, .events = events, .memory = memory},
                            .image = image,
                            .length = image_length,
                            .offset = WORD_BYTES,
                            .limit = limit};
    enum refusal refusal = flash_opening(&run, map, map_length);
    size_t last_offset = 0;
    bool is_begun;

    if (refusal == ACCEPTED && !lengths_are_right(&run.loader, memory_length))
        refusal = MEMORY_LENGTH_WRONG;
    is_begun = refusal == ACCEPTED;
    while (refusal == ACCEPTED && !run.loader.ended) {
        last_offset = run.offset;
        refusal = flash_command(&run);
    }
    plain_fetched = run.fetched;
    if (is_begun)
        write_numbers(&run.loader);
    end_loader(&run.loader);
    return (uint64_t)refusal << 56 | (uint64_t)run.retries << 48 | (uint64_t)(last_offset / 4) << 32 |
           run.loader.checksum;
}

uint64_t plain_flash_run(const uint8_t *map, size_t map_length, uint8_t *memory, size_t memory_length,
                         const uint8_t *image, size_t image_length, uint8_t limit)
{
    return run_in(PLAIN_AM17XX, NULL, NULL, map, map_length, memory, memory_length, image, image_length, limit);
}

uint64_t plain_dm648_run(const uint8_t *map, size_t map_length, uint8_t *memory, size_t memory_length,
                         const uint8_t *image, size_t image_length, uint8_t limit)
{
    return run_in(PLAIN_DM648, NULL, NULL, map, map_length, memory, memory_length, image, image_length, limit);
}

uint64_t plain_bits_run(uint8_t dialect, const uint8_t *map, size_t map_length, const uint8_t *chosen,
                        size_t chosen_length, uint8_t *memory, size_t memory_length, uint8_t *numbers,
                        size_t numbers_length, const uint8_t *image, size_t image_length, uint8_t limit)
{
    struct watch watch = {chosen, chosen_length, numbers, numbers_length};

    plain_fetched = 0;
    if (dialect >= PLAIN_DIALECTS)
        return (uint64_t)CALL_WRONG << 56;
    return run_in(dialect, &watch, NULL, map, map_length, memory, memory_length, image, image_length, limit);
}

uint64_t plain_flash_events(uint8_t dialect, const uint8_t *map, size_t map_length, uint8_t *memory, size_t memory_length,
                            const uint8_t *image, size_t image_length, uint8_t limit, uint8_t *room, size_t room_length)
{
    struct plain_events events = {.room = room, .length = room_length};
    uint64_t value;

    if (dialect >= PLAIN_DIALECTS)
        return (uint64_t)CALL_WRONG << 56;
    if (room_length < plain_events_room(image_length, limit))
        return (uint64_t)ROOM_TOO_SHORT << 56;
    value = run_in(dialect, NULL, &events, map, map_length, memory, memory_length, image, image_length, limit);
    return value >> 56 << 56 | events.count;
}

/* ---- Sent mode ---- */

enum awaiting { AWAITING_OPCODE, AWAITING_ARGUMENT, AWAITING_DATA, AWAITING_ECHO };

struct sent_session {
    struct loader loader;
    unsigned line;     /* by bytes or by halves */
    bool started;      /* the first start word was answered */
    bool acknowledged; /* an opcode was acknowledged */
    uint32_t gathered; /* the bytes of the unfinished word */
    unsigned gathered_count;
    enum awaiting awaiting;
    enum command command;
    uint32_t arguments[ARGUMENT_LIMIT];
    unsigned argument_count;
    size_t load_place;
    uint32_t load_left;
    uint32_t echoes_left;
};

struct reply {
    uint8_t bytes[REPLY_LIMIT];
    unsigned count;
};

static void reply_word(struct reply *reply, uint32_t word)
{
    write_low_bytes(reply->bytes + reply->count, word, WORD_BYTES);
    reply->count += WORD_BYTES;
}

/* Judges a load at its size word; its data follows. */
static enum refusal sent_load(struct sent_session *session)
{
    uint32_t address = session->arguments[0], size = session->arguments[1];

    if (!grant(&session->loader, LOAD_RIGHT, address, size, &session->load_place))
        return NOT_GRANTED;
    if (section_is_too_much(&session->loader, size))
        return TOTAL_TOO_LARGE;
    if (number_is_too_large(&session->loader))
        return NUMBER_TOO_LARGE;
    feed_checksum(&session->loader, address, 32);
    feed_checksum(&session->loader, size, 32);
    add_section(&session->loader, size);
    add_written(&session->loader, address, 0, 0xFFFFFFFF);
    session->load_left = size;
    if (size != 0)
        session->awaiting = AWAITING_DATA;
    return ACCEPTED;
}

/* Writes and feeds one word of load data, or as many of its bytes as are left. */
static void sent_load_data(struct sent_session *session, uint32_t word)
{
    uint32_t count = session->load_left < WORD_BYTES ? session->load_left : WORD_BYTES;

    write_low_bytes(session->loader.memory + session->load_place, word, count);
    feed_checksum(&session->loader, word, 8 * count);
    session->load_place += count;
    session->load_left -= count;
    if (session->loader.watch != NULL) /* the load is the last command in the history */
        session->loader.history.list[session->loader.history.count - 1].size += count;
    if (session->load_left == 0)
        session->awaiting = AWAITING_OPCODE;
}

static void sent_request(struct sent_session *session, struct reply *reply)
{
    reply_word(reply, session->loader.checksum);
    session->loader.checksum = 0;
}

static void sent_ping(struct sent_session *session, struct reply *reply)
{
    reply_word(reply, session->arguments[0]);
    session->echoes_left = session->arguments[0];
    if (session->echoes_left != 0)
        session->awaiting = AWAITING_ECHO;
}

static void sent_echo(struct sent_session *session, uint32_t word, struct reply *reply)
{
    reply_word(reply, word);
    session->echoes_left--;
    if (session->echoes_left == 0)
        session->awaiting = AWAITING_OPCODE;
}

/* A DM648 says that it enters. */
static enum refusal sent_close(struct sent_session *session, struct reply *reply)
{
    enum refusal refusal = jump_and_close(&session->loader, session->arguments);

    if (refusal == ACCEPTED && session->loader.dialect == PLAIN_DM648) {
        memcpy(reply->bytes + reply->count, "DONE", 4);
        reply->count += 4;
    }
    return refusal;
}

/* Does a command whose last argument word has come. */
static enum refusal sent_perform(struct sent_session *session, struct reply *reply)
{
    switch (session->command) {
    case LOAD:
        return sent_load(session);
    case FILL:
        return fill(&session->loader, session->arguments);
    case BOOT_TABLE:
        return boot_table(&session->loader, session->arguments);
    case JUMP_AND_CLOSE:
        return sent_close(session, reply);
    case ENABLE:
        enable(&session->loader);
        return ACCEPTED;
    case DISABLE:
        disable(&session->loader);
        return ACCEPTED;
    case START_OVER:
        start_over(&session->loader);
        return ACCEPTED;
    case REQUEST:
        sent_request(session, reply);
        return ACCEPTED;
    default: /* Sequential Read Enable never comes here */
        sent_ping(session, reply);
        return ACCEPTED;
    }
}

/* Does the command if all of its argument words are here, else waits for the next one. */
static enum refusal sent_perform_when_complete(struct sent_session *session, struct reply *reply)
{
    enum refusal refusal;

    if (session->argument_count < argument_words(session->loader.dialect, session->line, session->command)) {
        session->awaiting = AWAITING_ARGUMENT;
        return ACCEPTED;
    }
    session->awaiting = AWAITING_OPCODE;
    refusal = sent_perform(session, reply);
    if (refusal == ACCEPTED)
        count_accepted(&session->loader, session->line, session->command);
    return refusal;
}

static enum refusal sent_opcode(struct sent_session *session, uint32_t opcode, struct reply *reply)
{
    enum refusal refusal = find_command(opcode, session->line, &session->command);

    if (refusal != ACCEPTED)
        return refusal;
    judge_earlier(&session->loader, session->command);
    session->acknowledged = true;
    session->argument_count = 0;
    reply_word(reply, (opcode & 0x00FFFFFF) | (uint32_t)0x52 << 24);
    return sent_perform_when_complete(session, reply);
}

static enum refusal sent_word(struct sent_session *session, uint32_t word, struct reply *reply)
{
    switch (session->awaiting) {
    case AWAITING_OPCODE:
        return sent_opcode(session, word, reply);
    case AWAITING_ARGUMENT:
        session->arguments[session->argument_count++] = word;
        return sent_perform_when_complete(session, reply);
    case AWAITING_DATA:
        sent_load_data(session, word);
        return ACCEPTED;
    default:
        sent_echo(session, word, reply);
        return ACCEPTED;
    }
}

unsigned plain_unit_bytes(unsigned line)
{
    return line == PLAIN_HALVES ? 2 : 1;
}

/* Reads a unit, the low byte of a half first. */
static uint32_t read_unit(unsigned line, const uint8_t *bytes)
{
    return line == PLAIN_HALVES ? bytes[0] | (uint32_t)bytes[1] << 8 : bytes[0];
}

/* Takes one unit from the line, a byte or a half. */
static enum refusal sent_unit(struct sent_session *session, uint32_t unit, struct reply *reply)
{
    bool has_halves = session->line == PLAIN_HALVES;
    enum refusal refusal;

    reply->count = 0;
    if (session->loader.ended)
        return SESSION_ENDED;
    if (!session->acknowledged && session->gathered_count == 0 && unit == (has_halves ? START_HALF : START_BYTE)) {
        session->started = true;
        reply->count = plain_unit_bytes(session->line);
        write_low_bytes(reply->bytes, has_halves ? HALF_ANSWER : BYTE_ANSWER, reply->count);
        return ACCEPTED;
    }
    if (!session->started)
        return ACCEPTED;
    session->gathered |= unit << (8 * session->gathered_count);
    session->gathered_count += plain_unit_bytes(session->line);
    if (session->gathered_count < WORD_BYTES)
        return ACCEPTED;
    refusal = sent_word(session, session->gathered, reply);
    session->gathered = 0;
    session->gathered_count = 0;
    if (refusal != ACCEPTED) {
        session->loader.ended = true;
        reply->count = 0;
    }
    return refusal;
}

/* What is fed has to be whole units, at most so many, and the room has to hold all replies that they can have. */
static bool call_is_right(unsigned line, size_t fed_length, size_t room_length)
{
    size_t units = fed_length / plain_unit_bytes(line);

    if (fed_length % plain_unit_bytes(line) != 0 || units > FED_LIMIT)
        return false;
    return room_length >= (line == PLAIN_HALVES ? 4 * units : GREETING_LENGTH + 2 * units);
}

static enum refusal sent_opening(struct sent_session *session, const uint8_t *map, size_t map_length,
                                 size_t memory_length, size_t fed_length, size_t room_length)
{
    enum refusal refusal = judge_opening(&session->loader, map, map_length);

    if (refusal != ACCEPTED)
        return refusal;
    if (!lengths_are_right(&session->loader, memory_length))
        return MEMORY_LENGTH_WRONG;
    return call_is_right(session->line, fed_length, room_length) ? ACCEPTED : CALL_WRONG;
}

size_t plain_greeting(unsigned line, uint8_t *room)
{
    if (line == PLAIN_HALVES)
        return 0;
    memcpy(room, "BOOTME", GREETING_LENGTH);
    return GREETING_LENGTH;
}

static uint64_t session_on(unsigned line, unsigned dialect, const struct watch *watch, const uint8_t *map,
                           size_t map_length, uint8_t *memory, size_t memory_length, const uint8_t *fed,
                           size_t fed_length, uint8_t *room, size_t room_length)
{
    struct sent_session session = {.loader = {.dialect = dialect, .watch = watch, .memory = memory}, .line = line};
    enum refusal first_refusal = sent_opening(&session, map, map_length, memory_length, fed_length, room_length);
    size_t count;

    if (first_refusal != ACCEPTED)
        return (uint64_t)first_refusal << 32;
    count = plain_greeting(line, room);
    for (size_t index = 0; index < fed_length; index += plain_unit_bytes(line)) {
        struct reply reply;
        enum refusal refusal = sent_unit(&session, read_unit(line, fed + index), &reply);
        if (first_refusal == ACCEPTED)
            first_refusal = refusal;
        for (unsigned place = 0; place < reply.count; place++)
            room[count++] = reply.bytes[place];
    }
    write_numbers(&session.loader);
    end_loader(&session.loader);
    return (uint64_t)first_refusal << 32 | count;
}

uint64_t plain_sent_session(const uint8_t *map, size_t map_length, uint8_t *memory, size_t memory_length,
                            const uint8_t *fed, size_t fed_length, uint8_t *room, size_t room_length)
{
    return session_on(PLAIN_BYTES, PLAIN_AM17XX, NULL, map, map_length, memory, memory_length, fed, fed_length, room,
                      room_length);
}

uint64_t plain_half_session(const uint8_t *map, size_t map_length, uint8_t *memory, size_t memory_length,
                            const uint8_t *fed, size_t fed_length, uint8_t *room, size_t room_length)
{
    return session_on(PLAIN_HALVES, PLAIN_AM17XX, NULL, map, map_length, memory, memory_length, fed, fed_length, room,
                      room_length);
}

uint64_t plain_dm648_session(uint8_t line, const uint8_t *map, size_t map_length, uint8_t *memory, size_t memory_length,
                             const uint8_t *fed, size_t fed_length, uint8_t *room, size_t room_length)
{
    if (line != PLAIN_BYTES && line != PLAIN_HALVES)
        return (uint64_t)CALL_WRONG << 32;
    return session_on(line, PLAIN_DM648, NULL, map, map_length, memory, memory_length, fed, fed_length, room,
                      room_length);
}

uint64_t plain_bits_session(uint8_t line, uint8_t dialect, const uint8_t *map, size_t map_length, const uint8_t *chosen,
                            size_t chosen_length, uint8_t *memory, size_t memory_length, uint8_t *numbers,
                            size_t numbers_length, const uint8_t *fed, size_t fed_length, uint8_t *room,
                            size_t room_length)
{
    struct watch watch = {chosen, chosen_length, numbers, numbers_length};

    if ((line != PLAIN_BYTES && line != PLAIN_HALVES) || dialect >= PLAIN_DIALECTS)
        return (uint64_t)CALL_WRONG << 32;
    return session_on(line, dialect, &watch, map, map_length, memory, memory_length, fed, fed_length, room,
                      room_length);
}

/* ---- Sent mode, unit by unit ---- */

plain_session *plain_session_open(uint8_t line, uint8_t dialect, const uint8_t *map, size_t map_length, uint8_t *memory,
                                  size_t memory_length, uint8_t *refusal)
{
    plain_session *session = with_length(NULL, sizeof *session);

    *session = (plain_session){.loader = {.dialect = dialect, .memory = memory}, .line = line};
    *refusal = (uint8_t)sent_opening(session, map, map_length, memory_length, 0, GREETING_LENGTH);
    if (*refusal == ACCEPTED)
        return session;
    plain_session_end(session);
    return NULL;
}

void plain_session_tell(plain_session *session, struct plain_events *events)
{
    session->loader.events = events;
}

unsigned plain_session_feed(plain_session *session, const uint8_t *unit, uint8_t *room, uint8_t *refusal)
{
    struct reply reply;

    *refusal = (uint8_t)sent_unit(session, read_unit(session->line, unit), &reply);
    memcpy(room, reply.bytes, reply.count);
    return reply.count;
}

int plain_session_entered(const plain_session *session, uint32_t *address)
{
    if (session->loader.entered)
        *address = session->loader.entry_address;
    return session->loader.entered;
}

void plain_session_end(plain_session *session)
{
    end_loader(&session->loader);
    free(session);
}
