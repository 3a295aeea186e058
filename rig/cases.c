#include "cases.h"

#include <inttypes.h>
#include <stdio.h>
#include <string.h>

enum { FED_LIMIT = 65536, IMAGE_LIMIT = 65536, GREETING_LENGTH = 6, HEAVY_EVERY = 50000, LONG_EVERY = 7500 };

/* ---- Good maps ---- */

static uint32_t choose_length(struct random_source *random)
{
    if (chance(random, 70))
        return 4 * (1 + random_below(random, 24));
    return chance(random, 15) ? 1 : 1 + random_below(random, 97);
}

/* The distance to the window before: none, a few bytes, some words, or far. */
static uint32_t choose_gap(struct random_source *random)
{
    switch (random_below(random, 5)) {
    case 0:
    case 1:
        return 0;
    case 2:
        return 1 + random_below(random, 4);
    case 3:
        return 4 * (1 + random_below(random, 16));
    default:
        return 4 * random_below(random, 0x04000000);
    }
}

/* Where a map of this span begins: at 0x80000000, the top, the bottom, across the middle, or anywhere. */
static uint32_t choose_base(struct random_source *random, uint64_t span)
{
    uint64_t highest = ((uint64_t)1 << 32) - span;
    uint64_t base;

    switch (random_below(random, 6)) {
    case 0:
    case 1:
        base = 0x80000000;
        break;
    case 2:
        base = highest;
        break;
    case 3:
        base = chance(random, 50) ? 0 : random_below(random, 16);
        break;
    case 4:
        base = 0x80000000 - 4 * (uint64_t)random_below(random, (uint32_t)(span / 4 % 0x08000000) + 1);
        break;
    default:
        base = random_word(random) & ~(uint32_t)3;
        break;
    }
    return (uint32_t)(base < highest ? base : highest);
}

static uint32_t choose_rights(struct random_source *random)
{
    return chance(random, 60) ? ALL_RIGHTS : 1 + random_below(random, 7);
}

/* Sets down windows of these lengths from a chosen base on. */
static void place_windows(struct random_source *random, struct map *map)
{
    uint64_t span = 0;
    uint32_t base;

    for (unsigned index = 0; index < map->count; index++) {
        span += index == 0 ? 0 : choose_gap(random);
        map->windows[index].first = (uint32_t)span;
        map->windows[index].rights = choose_rights(random);
        span += map->windows[index].length;
    }
    base = choose_base(random, span);
    for (unsigned index = 0; index < map->count; index++)
        map->windows[index].first += base;
    encode_map(map);
}

void make_good_map(struct random_source *random, struct map *map)
{
    map->count = 1 + random_below(random, chance(random, 40) ? 8 : 3);
    for (unsigned index = 0; index < map->count; index++)
        map->windows[index].length = choose_length(random);
    place_windows(random, map);
}

/* A map whose lengths add up to the most that is allowed. */
void make_large_map(struct random_source *random, struct map *map)
{
    uint32_t left = MEMORY_LIMIT;

    map->count = chance(random, 60) ? 1 : 1 + random_below(random, 8);
    for (unsigned index = 1; index < map->count; index++) {
        map->windows[index].length = chance(random, 50) ? 4 * (1 + random_below(random, 2000)) : choose_length(random);
        left -= map->windows[index].length;
    }
    map->windows[0].length = left;
    place_windows(random, map);
    if (chance(random, 70))
        map->windows[0].rights = ALL_RIGHTS;
    encode_map(map);
}

/* One window of all the memory that is allowed, with all rights. */
static void make_heavy_map(struct random_source *random, struct map *map)
{
    map->count = 1;
    map->windows[0].length = MEMORY_LIMIT;
    place_windows(random, map);
    map->windows[0].rights = ALL_RIGHTS;
    encode_map(map);
}

/* ---- Bad maps ---- */

static void set_window(struct window *window, uint32_t first, uint32_t length, uint32_t rights)
{
    window->first = first;
    window->length = length;
    window->rights = rights;
}

static void break_count(struct random_source *random, struct map *map)
{
    if (chance(random, 40)) {
        map->count = 0;
        return;
    }
    map->count = 9;
    for (unsigned index = 0; index < 9; index++)
        set_window(&map->windows[index], 0x1000 + 64 * index, 64, ALL_RIGHTS);
}

/* The last window ends one byte, or more, past the top of the address space. */
static void break_end(struct random_source *random, struct map *map)
{
    struct window *window = &map->windows[map->count - 1];
    uint32_t past;

    window->length += 1;
    past = chance(random, 60) ? 1 : 1 + random_below(random, window->length - 1);
    window->first = (uint32_t)(((uint64_t)1 << 32) - window->length + past);
}

/* Two windows change places, or one begins inside the one before it. */
static void break_order(struct random_source *random, struct map *map)
{
    unsigned later;

    if (map->count == 1) {
        set_window(&map->windows[1], map->windows[0].first, map->windows[0].length, ALL_RIGHTS);
        map->count = 2;
        return;
    }
    later = 1 + random_below(random, map->count - 1);
    if (chance(random, 50)) {
        struct window kept = map->windows[later];
        map->windows[later] = map->windows[later - 1];
        map->windows[later - 1] = kept;
    } else {
        const struct window *before = &map->windows[later - 1];
        map->windows[later].first = before->first + before->length - 1;
        if (chance(random, 40))
            map->windows[later].first = before->first;
    }
}

/* The lengths add up to too much: by one byte, or so far that the sum leaves 32 bits. */
static void break_sum(struct random_source *random, struct map *map)
{
    map->count = 2;
    switch (random_below(random, 4)) {
    case 0:
        set_window(&map->windows[0], 0, 0x80000000, ALL_RIGHTS);
        set_window(&map->windows[1], 0x80000000, 0x80000000, ALL_RIGHTS);
        break;
    case 1:
        set_window(&map->windows[0], 0, 0xFFFFFFF0, ALL_RIGHTS);
        map->count = 1;
        break;
    default:
        set_window(&map->windows[0], 0x80000000, 32768, ALL_RIGHTS);
        set_window(&map->windows[1], 0x80008000, 32769 + random_below(random, 2) * 400, ALL_RIGHTS);
        break;
    }
}

static void break_rights(struct random_source *random, struct map *map)
{
    static const uint32_t wrong[] = {0, 8, 9, 15, 0x101, 0x80000007, 0x10007, 0xFFFFFFFF, 0x700};

    map->windows[random_below(random, map->count)].rights = PICK(random, wrong);
}

static void break_bytes(struct random_source *random, struct map *map)
{
    encode_map(map);
    random_bytes(random, map->bytes + map->length, WINDOW_BYTES);
    if (chance(random, 50) && map->length > 0)
        map->length -= 1 + random_below(random, WINDOW_BYTES - 1);
    else
        map->length += 1 + random_below(random, WINDOW_BYTES - 1);
}

void break_map(struct random_source *random, struct map *map)
{
    switch (random_below(random, 8)) {
    case 0:
        break_count(random, map);
        break;
    case 1:
        map->windows[random_below(random, map->count)].length = 0;
        break;
    case 2:
        break_end(random, map);
        break;
    case 3:
        break_order(random, map);
        break;
    case 4:
        break_sum(random, map);
        break;
    case 5:
        break_rights(random, map);
        break;
    case 6:
        break_bytes(random, map);
        return;
    default:
        random_bytes(random, (uint8_t *)map->windows, sizeof map->windows);
        break;
    }
    encode_map(map);
}

/* ---- Commands that a loader accepts ---- */

static uint32_t choose_pattern(struct random_source *random)
{
    return chance(random, 10) ? tricky_word(random) : random_word(random);
}

void write_good_load(struct writer *writer)
{
    uint32_t address, size;

    if (choose_range(writer, LOAD_RIGHT, 1, 40, &address, &size))
        write_load(writer, address, size);
}

void write_good_fill(struct writer *writer)
{
    uint32_t type = random_below(&writer->random, 3), address, size;

    if (choose_range(writer, LOAD_RIGHT, (uint32_t)1 << type, MEMORY_LIMIT, &address, &size))
        write_fill(writer, address, size, type, choose_pattern(&writer->random));
}

/* A type word that is right: fields with START and STOP in order, other kinds with anything there. */
static uint32_t choose_setting_type(struct random_source *random)
{
    uint32_t kind = random_below(random, 5);
    uint32_t start = random_below(random, 32), stop = start + random_below(random, 32 - start);

    if (kind < 3)
        return kind | (random_word(random) & 0x00FFFF00);
    if (chance(random, 10))
        start = 0;
    if (chance(random, 10))
        stop = 31;
    return kind | start << 8 | stop << 16;
}

static uint32_t setting_unit(uint32_t type)
{
    return (type & 0xFF) < 2 ? (uint32_t)1 << (type & 0xFF) : 4;
}

/* Data that fit; at times the most that does. */
static uint32_t choose_setting_data(struct random_source *random, uint32_t type)
{
    return fit_data(type, chance(random, 10) ? 0xFFFFFFFF : choose_pattern(random));
}

void write_good_setting(struct writer *writer)
{
    uint32_t type = choose_setting_type(&writer->random), data = choose_setting_data(&writer->random, type);
    uint32_t address, size;

    if (choose_range(writer, SET_RIGHT, setting_unit(type), 4, &address, &size))
        write_setting(writer, type, address, data, random_below(&writer->random, 1000));
}

/* Totals of a DM648 that are wrong, or right all the same: one more or less, changed places, those that a retry would
   leave, none, or anything. */
static struct totals break_totals(struct writer *writer)
{
    struct random_source *random = &writer->random;
    struct totals totals = writer->loaded.now;

    switch (random_below(random, 7)) {
    case 0:
        totals.sections += chance(random, 50) ? 1 : -1;
        return totals;
    case 1:
        totals.bytes += chance(random, 50) ? 1 : -1;
        return totals;
    case 2:
        return (struct totals){totals.bytes, totals.sections, 0};
    case 3:
        return writer->loaded.kept;
    case 4:
        return (struct totals){0, 0, 0};
    case 5:
        totals.bytes = (totals.bytes + 3) & ~(uint32_t)3;
        return totals;
    default:
        return (struct totals){chance(random, 50) ? totals.sections : random_word(random), random_word(random), 0};
    }
}

/* Mostly those that stand. */
static struct totals choose_totals(struct writer *writer)
{
    return writer->is_dm648 && chance(&writer->random, 15) ? break_totals(writer) : writer->loaded.now;
}

void write_good_jump_and_close(struct writer *writer)
{
    uint32_t address, size;
    const struct window *window;

    if (choose_range(writer, ENTRY_RIGHT, 4, 4, &address, &size)) {
        write_close_with(writer, address, choose_totals(writer));
        return;
    }
    /* A window of less than four bytes may still hold an entry address. */
    window = &writer->map->windows[0];
    if (writer->map->count > 0)
        write_close_with(writer, (window->first + 3) & ~(uint32_t)3, choose_totals(writer));
}

/* A seek from a Request at `offset`: to a command before it, to some word before it, or to a wrong place. */
static uint32_t choose_seek(struct writer *writer, uint32_t offset)
{
    struct random_source *random = &writer->random;
    uint32_t after = offset + 12, target;

    if (chance(random, 75) && writer->mark_count > 0) {
        target = (uint32_t)writer->marks[random_below(random, writer->mark_count)].offset;
    } else {
        const uint32_t wrong[] = {0, 1, 4, 5, 8, 0xFFFFFFFC, random_word(random), offset - 4, offset - 2,
                                  offset - 1, offset, offset + 4, after, after + 8};
        target = PICK(random, wrong);
    }
    return target - after;
}

/* A late mark from which the checksum comes out otherwise than it stands; null where there is none. */
static const struct mark *choose_healing_mark(struct writer *writer)
{
    unsigned late = writer->mark_count < 4 ? writer->mark_count : 4;

    for (unsigned tried = 0; tried < 6 && late > 0; tried++) {
        const struct mark *mark = &writer->marks[writer->mark_count - 1 - random_below(&writer->random, late)];
        if (mark->checksum != writer->checksum && mark->offset < writer->length)
            return mark;
    }
    return NULL;
}

/* A Request that matches, one that matches when it is tried again from a mark, or one that differs. */
static void write_some_flash_request(struct writer *writer)
{
    struct random_source *random = &writer->random;
    uint32_t offset = (uint32_t)writer->length;
    uint32_t expected = writer->checksum;
    uint32_t seek = chance(random, 15) ? random_word(random) : choose_seek(writer, offset);
    const struct mark *mark = choose_healing_mark(writer);

    if (mark != NULL && chance(random, 60)) {
        expected = mark->checksum;
        seek = (uint32_t)mark->offset - (offset + 12);
    } else if (chance(random, 12)) {
        expected ^= chance(random, 50) ? (uint32_t)1 << random_below(random, 32) : random_word(random);
    }
    write_flash_request(writer, expected, seek);
}

static void write_some_ping(struct writer *writer)
{
    write_ping(writer, random_below(&writer->random, chance(&writer->random, 20) ? 12 : 4));
    if (chance(&writer->random, 4)) {
        write_word(writer, OPCODE_PING);
        write_word(writer, tricky_word(&writer->random));
    }
}

/* The commands without effect on memory; those of the other mode are left out. */
static void write_good_small_command(struct writer *writer)
{
    bool is_flash = writer->is_flash;

    switch (random_below(&writer->random, 10)) {
    case 0:
    case 1:
        write_switch(writer, OPCODE_ENABLE);
        break;
    case 2:
        write_switch(writer, OPCODE_DISABLE);
        break;
    case 3:
    case 4:
        write_switch(writer, is_flash ? OPCODE_SEQUENTIAL_READ_ENABLE : OPCODE_START_OVER);
        break;
    case 5:
    case 6:
        if (!is_flash) {
            write_some_ping(writer);
            break;
        }
        /* fall through */
    default:
        if (is_flash)
            write_some_flash_request(writer);
        else
            write_sent_request(writer);
        break;
    }
}

void write_good_command(struct writer *writer)
{
    uint32_t drawn = random_below(&writer->random, 100);

    write_mark(writer);
    if (drawn < 25)
        write_good_load(writer);
    else if (drawn < 43)
        write_good_fill(writer);
    else if (drawn < 60)
        write_good_setting(writer);
    else
        write_good_small_command(writer);
}

/* ---- Commands that a loader refuses, mostly ---- */

enum flaw { TYPE_FLAW = 1, ALIGNMENT_FLAW = 2, RANGE_FLAW = 4, WIDTH_FLAW = 8 };
enum { FILL_FLAWS = 3, SETTING_FLAWS = 4 };

/* One of the first `count` flaws, or now and then several, so that their order is tried too. */
static unsigned choose_flaws(struct random_source *random, unsigned count)
{
    return chance(random, 70) ? 1u << random_below(random, count) : 1 + random_below(random, (1u << count) - 1);
}

static const struct window *choose_window(struct writer *writer)
{
    static const struct window none = {0x80000000, 64, ALL_RIGHTS};

    if (writer->map->count == 0)
        return &none;
    return &writer->map->windows[random_below(&writer->random, writer->map->count)];
}

/* Takes a range from a window's last bytes on into the next window, over a seam or a gap, with the right there or not. */
static void stretch_range(struct writer *writer, const struct window *window, uint32_t unit, uint32_t *address,
                          uint32_t *size)
{
    const struct map *map = writer->map;
    bool has_next = map->count > 1 && window != &map->windows[map->count - 1];
    const struct window *next = has_next ? window + 1 : window;
    uint32_t last = next->first + random_below(&writer->random, next->length);

    *address = window->first + window->length - unit * (1 + random_below(&writer->random, 4));
    *size = (last - *address + unit) & ~(unit - 1);
}

/* Moves a range out of its window: past an end, before the beginning, round the top, or anywhere. */
static void break_range(struct writer *writer, uint32_t unit, uint32_t *address, uint32_t *size)
{
    struct random_source *random = &writer->random;
    const struct window *window = choose_window(writer);
    uint32_t end = window->first + window->length;

    switch (random_below(random, 9)) {
    case 0: /* one unit too long */
        *address = end - unit * (1 + random_below(random, 4));
        *size = end + unit - *address;
        break;
    case 1: /* at the end */
        *address = end;
        *size = unit * random_below(random, 3);
        break;
    case 2: /* before the beginning */
        *address = window->first - unit;
        break;
    case 3: /* a sum that is small in 32 bits: at the window, or at its very end */
        *size = (chance(random, 50) ? window->first : end) - *address;
        break;
    case 4: /* the sum is 0 or a little more in 32 bits */
        *size = 0 - *address + unit * random_below(random, 8);
        break;
    case 5: /* perhaps without the right */
        *address = window->first;
        *size = window->length;
        break;
    case 6:
    case 7:
        stretch_range(writer, window, unit, address, size);
        break;
    default:
        *address = random_word(random) & ~(unit - 1);
        break;
    }
}

static void write_flawed_load(struct writer *writer)
{
    uint32_t address = 0x80000000, size = 4;
    const struct window *window = choose_window(writer);

    choose_range(writer, LOAD_RIGHT, 1, 40, &address, &size);
    if (chance(&writer->random, 25)) { /* just up to the end */
        address = window->first + random_below(&writer->random, 8);
        size = window->first + window->length - address;
    } else {
        break_range(writer, 1, &address, &size);
    }
    write_word(writer, OPCODE_LOAD);
    write_word(writer, address);
    write_word(writer, size);
    write_load_data(writer, size < 100 ? size : random_below(&writer->random, 16));
}

static void write_flawed_fill(struct writer *writer)
{
    static const uint32_t wrong_types[] = {3, 4, 8, 0x100, 0x101, 0x10000, 0x80000000, 0xFFFFFFFF};
    struct random_source *random = &writer->random;
    unsigned flaws = choose_flaws(random, FILL_FLAWS);
    uint32_t type = random_below(random, 3), unit = (uint32_t)1 << type, address = 0x80000000, size = 8;

    choose_range(writer, LOAD_RIGHT, unit, MEMORY_LIMIT, &address, &size);
    if (flaws & RANGE_FLAW)
        break_range(writer, unit, &address, &size);
    if (flaws & ALIGNMENT_FLAW) {
        uint32_t which = random_below(random, 3);
        address += which != 1 ? 1 + random_below(random, 3) : 0;
        size += which != 0 ? 1 + random_below(random, 3) : 0;
    }
    if (flaws & TYPE_FLAW)
        type = chance(random, 80) ? PICK(random, wrong_types) : random_word(random);
    write_fill(writer, address, size, type, choose_pattern(random));
}

/* A setting's type word that is wrong: its kind, its top byte, or a field that is no field. */
static uint32_t choose_wrong_setting_type(struct random_source *random, uint32_t type)
{
    uint32_t start = random_below(random, 32), field = 3 + random_below(random, 2);

    switch (random_below(random, 6)) {
    case 0:
        return (type & 0x00FFFF00) | (5 + random_below(random, chance(random, 50) ? 3 : 251));
    case 1:
        return type | (uint32_t)1 << (24 + random_below(random, 8));
    case 2: /* START after STOP */
        return field | (start + 1) << 8 | start << 16;
    case 3: /* STOP past the word */
        return field | start << 8 | (chance(random, 50) ? 32 : 32 + start * 7) << 16;
    case 4: /* both past the word */
        return field | (32 + start) << 8 | (32 + start) << 16;
    default:
        return random_word(random);
    }
}

/* Data with one bit too many for a field: the least that is too wide, or with some higher bit. */
static uint32_t widen_data(struct random_source *random, uint32_t type, uint32_t data)
{
    uint32_t width = data_width(type);

    if (width == 32)
        return data;
    return chance(random, 40) ? (uint32_t)1 << width : data | (uint32_t)1 << (width + random_below(random, 32 - width));
}

static void write_flawed_setting(struct writer *writer)
{
    struct random_source *random = &writer->random;
    unsigned flaws = choose_flaws(random, SETTING_FLAWS);
    uint32_t type = choose_setting_type(random), unit = setting_unit(type), address = 0x80000000, size = 4;
    uint32_t data = choose_setting_data(random, type);

    if (flaws & WIDTH_FLAW)
        data = widen_data(random, type, data);
    choose_range(writer, SET_RIGHT, unit, 4, &address, &size);
    if (flaws & RANGE_FLAW)
        break_range(writer, unit, &address, &size);
    if (flaws & ALIGNMENT_FLAW)
        address += 1 + random_below(random, 3);
    if (flaws & TYPE_FLAW)
        type = choose_wrong_setting_type(random, type);
    write_setting(writer, type, address, data, random_below(random, 1000));
}

static void write_flawed_jump_and_close(struct writer *writer)
{
    struct random_source *random = &writer->random;
    const struct window *window = choose_window(writer);
    uint32_t end = window->first + window->length;
    const uint32_t addresses[] = {end,           end & ~3u,         (end - 1) & ~3u,   (end - 4) | 1,
                                  window->first, window->first + 2, window->first - 4, random_word(random) & ~3u};

    write_close_with(writer, PICK(random, addresses), choose_totals(writer));
}

/* The retired Jump: as old scripts have it, with an address that no longer counts, or with nothing after it. */
static void write_retired(struct writer *writer)
{
    struct random_source *random = &writer->random;
    const struct window *window = choose_window(writer);

    write_word(writer, OPCODE_JUMP);
    if (chance(random, 70))
        write_word(writer, chance(random, 70) ? (window->first + 3) & ~(uint32_t)3 : tricky_word(random));
}

/* An opcode that is unknown, or belongs to the other mode. */
static void write_flawed_opcode(struct writer *writer)
{
    static const uint32_t wrong[] = {0x58535900, 0x58535909, 0x5853590C, 0x5853590D, 0x52535901, 0x58535801,
                                     0x59535903, 0x58535964, 0x00000000, 0xFFFFFFFF, 0x58545903, 0x41504954};
    static const uint32_t sent_only[] = {OPCODE_START_OVER, OPCODE_PING};
    struct random_source *random = &writer->random;

    if (chance(random, 50))
        write_word(writer, writer->is_flash ? PICK(random, sent_only) : OPCODE_SEQUENTIAL_READ_ENABLE);
    else
        write_word(writer, chance(random, 90) ? PICK(random, wrong) : random_word(random));
    if (chance(random, 50))
        write_word(writer, random_below(random, 3));
}

void write_flawed_command(struct writer *writer)
{
    switch (random_below(&writer->random, 7)) {
    case 0:
        write_flawed_load(writer);
        break;
    case 1:
        write_flawed_fill(writer);
        break;
    case 2:
    case 3:
        write_flawed_setting(writer);
        break;
    case 4:
        write_flawed_jump_and_close(writer);
        break;
    case 5:
        write_retired(writer);
        break;
    default:
        write_flawed_opcode(writer);
        break;
    }
}

/* ---- Damage ---- */

static void remove_byte(struct writer *writer, size_t place)
{
    memmove(writer->bytes + place, writer->bytes + place + 1, writer->length - place - 1);
    writer->length--;
}

static void insert_byte(struct writer *writer, size_t place, uint8_t byte)
{
    if (writer->length == SCRIPT_LIMIT)
        return;
    memmove(writer->bytes + place + 1, writer->bytes + place, writer->length - place);
    writer->bytes[place] = byte;
    writer->length++;
}

static uint32_t start_unit(const struct writer *writer)
{
    return writer->has_halves ? START_HALF : START_WORD;
}

/* A unit more. By halves it may also be one byte, so that all after it are cut otherwise. */
static void insert_unit(struct writer *writer, size_t place, uint32_t unit)
{
    if (writer->has_halves && chance(&writer->random, 80)) {
        place -= place % 2;
        insert_byte(writer, place, (uint8_t)(unit >> 8));
    }
    insert_byte(writer, place, (uint8_t)unit);
}

/* Puts another word in the place of one. */
static void replace_word(struct writer *writer)
{
    struct random_source *random = &writer->random;
    size_t words = writer->length > writer->first_word ? (writer->length - writer->first_word) / 4 : 0;
    uint32_t word = tricky_word(random);
    size_t place;

    if (words == 0)
        return;
    place = writer->first_word + 4 * (size_t)random_below(random, (uint32_t)words);
    if (chance(random, 40)) { /* a little more or less than it was */
        writer->bytes[place] = (uint8_t)(writer->bytes[place] + random_below(random, 9) - 4);
        return;
    }
    for (unsigned index = 0; index < 4; index++)
        writer->bytes[place + index] = (uint8_t)(word >> (8 * index));
}

void damage_script(struct writer *writer)
{
    struct random_source *random = &writer->random;
    size_t place;

    if (writer->length == 0)
        return;
    place = random_below(random, (uint32_t)writer->length);
    switch (random_below(random, 7)) {
    case 0:
        writer->bytes[place] ^= (uint8_t)(1 << random_below(random, 8));
        break;
    case 1:
        writer->bytes[place] = (uint8_t)random_word(random);
        break;
    case 2:
        replace_word(writer);
        break;
    case 3:
        writer->length = place - (writer->has_halves && chance(random, 80) ? place % 2 : 0);
        break;
    case 4: /* a cut near the end */
        place = random_below(random, writer->length < 28 ? (uint32_t)writer->length : 28) + 1;
        if (writer->has_halves && writer->length > 1)
            place -= place > 1 && chance(random, 80) ? place % 2 : 0;
        writer->length -= writer->is_flash ? (place + 3) / 4 * 4 % (writer->length + 1) : place;
        break;
    case 5:
        remove_byte(writer, place);
        break;
    default: /* a start word, or another byte, too many */
        insert_unit(writer, place, chance(random, 60) ? start_unit(writer) : random_word(random));
        break;
    }
}

/* ---- Scripts ---- */

static void write_commands(struct writer *writer)
{
    unsigned count = random_below(&writer->random, chance(&writer->random, 15) ? 24 : 10);

    while (count-- > 0) {
        if (chance(&writer->random, 4))
            write_flawed_command(writer);
        else
            write_good_command(writer);
    }
    if (chance(&writer->random, 12))
        write_flawed_command(writer);
}

/* Fills the room, but for a greeting, to its last byte: Requests answer with twice as many bytes as they have. */
static void write_requests_only(struct writer *writer, size_t length)
{
    while (writer->length + 4 <= length)
        write_sent_request(writer);
}

static void write_sent_beginning(struct writer *writer)
{
    struct random_source *random = &writer->random;

    if (chance(random, 15)) {
        for (unsigned count = random_below(random, 6); count > 0; count--)
            write_unit(writer, random_word(random));
    }
    if (!chance(random, 2))
        write_start_words(writer, 1 + (chance(random, 30) ? random_below(random, 5) : 0));
    if (chance(random, 50))
        write_switch(writer, OPCODE_ENABLE);
}

/* Short sections between opcodes that keep them, take them back, or leave that open. */
static void write_totals_walk(struct writer *writer)
{
    static const uint32_t turns[] = {OPCODE_ENABLE, OPCODE_DISABLE, OPCODE_START_OVER, OPCODE_START_OVER};
    struct random_source *random = &writer->random;
    uint32_t address, size;

    for (unsigned count = 4 + random_below(random, 10); count > 0; count--) {
        switch (random_below(random, 8)) {
        case 0:
        case 1:
            write_sent_request(writer);
            break;
        case 2:
        case 3:
        case 4:
            write_switch(writer, PICK(random, turns));
            break;
        case 5:
            write_ping(writer, 0);
            break;
        default:
            if (choose_range(writer, LOAD_RIGHT, 1, 3, &address, &size))
                write_load(writer, address, size);
            break;
        }
    }
}

static void write_sent_script(struct writer *writer)
{
    struct random_source *random = &writer->random;

    write_sent_beginning(writer);
    if (chance(random, 1))
        write_requests_only(writer, random_below(random, 400));
    else if (writer->is_dm648 && chance(random, 20))
        write_totals_walk(writer);
    else
        write_commands(writer);
    if (chance(random, 55))
        write_good_jump_and_close(writer);
    if (chance(random, 12))
        write_word(writer, tricky_word(random));
    if (chance(random, 20))
        damage_script(writer);
}

/* A script about as long as a session can be fed. */
static void write_large_sent_script(struct writer *writer)
{
    static const uint32_t lengths[] = {FED_LIMIT - 1, FED_LIMIT, FED_LIMIT, FED_LIMIT + 1, FED_LIMIT + 4};
    struct random_source *random = &writer->random;
    size_t length = chance(random, 60) ? PICK(random, lengths) : 20000 + random_below(random, 45000);
    uint32_t address, size;

    if (writer->has_halves)
        length *= 2;
    write_sent_beginning(writer);
    if (chance(random, 30))
        write_requests_only(writer, length);
    while (writer->length < length) {
        if (chance(random, 50) && choose_range(writer, LOAD_RIGHT, 1, 20000, &address, &size))
            write_load(writer, address, size);
        else
            write_ping(writer, random_below(random, 4000));
    }
    writer->length = length;
}

static void write_image_beginning(struct writer *writer)
{
    static const uint32_t wrong[] = {0x54495041, 0x41504955, 0x00000000, 0x58535906, 0xC1504954, 0x40504954};
    struct random_source *random = &writer->random;

    write_word(writer, chance(random, 98) ? FIRST_WORD : PICK(random, wrong));
    if (chance(random, 70))
        write_switch(writer, OPCODE_ENABLE);
}

/* A length that is no multiple of four, none, or past the limit. */
static void break_image_length(struct writer *writer)
{
    static const uint32_t lengths[] = {0, 1, 2, 3, 5, 6, 7};
    struct random_source *random = &writer->random;

    if (chance(random, 40)) {
        writer->length = PICK(random, lengths);
    } else if (chance(random, 92)) {
        writer->length += 1 + random_below(random, 3);
    } else {
        size_t length = IMAGE_LIMIT + 1 + random_below(random, 8);
        memset(writer->bytes + writer->length, 0, length - writer->length);
        writer->length = length;
    }
}

/* A Request that differs once and seeks to before the last one that matched. The first pass has the checksum on and the
   second has it off; the fill at the front, which both count, leaves the register at 0 either way. */
static void write_seek_behind(struct writer *writer)
{
    uint32_t address, size, begin;

    if (!choose_range(writer, LOAD_RIGHT, 4, 400, &address, &size))
        return;
    write_switch(writer, OPCODE_ENABLE);
    begin = (uint32_t)writer->length;
    write_vanishing_fill(writer, address, size);
    write_flash_request(writer, 0, random_word(&writer->random));
    write_good_fill(writer);
    write_switch(writer, OPCODE_DISABLE);
    write_flash_request(writer, 0, begin - ((uint32_t)writer->length + 12));
    writer->loaded.now.sections += 1;
    writer->loaded.now.bytes += size;
    writer->loaded.now.commands += 1;
    writer->loaded.kept = writer->loaded.now;
}

void write_image(struct writer *writer)
{
    struct random_source *random = &writer->random;

    write_image_beginning(writer);
    write_commands(writer);
    if (writer->is_dm648 && chance(random, 6))
        write_seek_behind(writer);
    if (chance(random, 80))
        write_good_jump_and_close(writer);
    if (chance(random, 12))
        write_word(writer, tricky_word(random));
    if (chance(random, 20))
        damage_script(writer);
    if (chance(random, 3))
        break_image_length(writer);
}

/* An image about as long as an image can be: one long load, then perhaps commands and seeks far behind it. */
void write_large_image(struct writer *writer)
{
    struct random_source *random = &writer->random;
    const struct window *window = &writer->map->windows[0];
    size_t length = IMAGE_LIMIT - 16 + 4 * (size_t)random_below(random, 7);
    bool has_more = chance(random, 60);
    uint32_t size = has_more ? 20000 + random_below(random, 40000) : (uint32_t)(length - 60);

    write_image_beginning(writer);
    write_mark(writer);
    write_load(writer, window->first, (size < window->length ? size : window->length) - random_below(random, 4));
    write_some_flash_request(writer);
    for (unsigned count = 0; count < 10 && has_more; count++)
        write_good_command(writer);
    if (has_more)
        write_some_flash_request(writer);
    while (writer->length + (writer->is_dm648 ? 16 : 8) < length)
        write_switch(writer, OPCODE_SEQUENTIAL_READ_ENABLE);
    write_jump_and_close(writer, (window->first + 3) & ~(uint32_t)3);
}

/* The end of an image that goes round: what stands here a retry keeps, for a Request matches or an Enable comes; what comes
   then it takes back; and a Request that never matches goes back to the beginning. The checksum is off all the time. */
static void write_round_end(struct writer *writer, uint32_t begin)
{
    struct random_source *random = &writer->random;

    if (chance(random, 70)) {
        write_flash_request(writer, 0, random_word(random));
    } else {
        write_switch(writer, OPCODE_ENABLE);
        write_switch(writer, OPCODE_DISABLE);
    }
    if (chance(random, 40))
        write_good_load(writer);
    write_flash_request(writer, 1 + random_below(random, 1000), begin - ((uint32_t)writer->length + 12));
    write_good_jump_and_close(writer);
}

/* A limit for so many passes, or for one more. */
static uint8_t choose_round_limit(struct random_source *random, uint32_t passes)
{
    return (uint8_t)(passes < 256 && chance(random, 50) ? passes : passes - 1);
}

/* What every pass of a heavy image loads: fills of the whole memory, and the rest as a fill and perhaps a short load. */
static void write_heavy_sections(struct writer *writer, uint64_t bytes)
{
    struct random_source *random = &writer->random;
    uint32_t first = writer->map->windows[0].first, loaded = chance(random, 50) ? random_below(random, 40) : 0;

    for (; bytes >= MEMORY_LIMIT; bytes -= MEMORY_LIMIT)
        write_fill(writer, first, MEMORY_LIMIT, random_below(random, 3), 0);
    loaded = loaded < bytes ? loaded : (uint32_t)bytes;
    if (bytes > 0)
        write_fill(writer, first, (uint32_t)bytes - loaded, 0, choose_pattern(random));
    if (loaded > 0)
        write_load(writer, first, loaded);
}

/* An image that loads so many bytes by going round. Where they are 2^32 it does so by fills of 2^16 bytes alone, so that the
   last of them would be too much by its bytes and, where commands are numbered, by its number. */
static uint8_t write_heavy_image(struct writer *writer, uint64_t bytes)
{
    struct random_source *random = &writer->random;
    uint32_t passes = chance(random, 30) ? 256 : 32 + random_below(random, 225), begin;

    if (bytes == (uint64_t)UINT32_MAX + 1)
        passes = (uint32_t)32 << random_below(random, 4);
    write_word(writer, FIRST_WORD);
    if (bytes % passes != 0)
        write_fill(writer, writer->map->windows[0].first, (uint32_t)(bytes % passes), 0, choose_pattern(random));
    begin = (uint32_t)writer->length;
    write_heavy_sections(writer, bytes / passes);
    write_round_end(writer, begin);
    return choose_round_limit(random, passes);
}

/* Short commands that have a number. */
static void write_numbered(struct writer *writer, uint32_t count)
{
    struct random_source *random = &writer->random;
    uint32_t address = 0, size = 0;

    for (; count > 0; count--) {
        uint32_t drawn = random_below(random, 10), type = choose_setting_type(random), unit = setting_unit(type);
        if (drawn < 5 && choose_range(writer, SET_RIGHT, unit, 4, &address, &size)) {
            write_setting(writer, type, address, choose_setting_data(random, type), 0);
            continue;
        }
        choose_range(writer, LOAD_RIGHT, 1, 8, &address, &size);
        if (drawn < 7)
            write_fill(writer, address, size, 0, choose_pattern(random));
        else
            write_load(writer, address, size);
    }
}

/* An image that has so many numbered commands by going round. */
static uint8_t write_long_image(struct writer *writer, uint32_t commands)
{
    struct random_source *random = &writer->random;
    uint32_t passes = chance(random, 30) ? 256 : 32 + random_below(random, 225), begin;

    write_word(writer, FIRST_WORD);
    write_numbered(writer, commands % passes);
    begin = (uint32_t)writer->length;
    write_numbered(writer, commands / passes);
    write_round_end(writer, begin);
    return choose_round_limit(random, passes);
}

/* ---- Chosen words ---- */

uint32_t chosen_word(const struct choice *choice, size_t index)
{
    const uint8_t *bytes = choice->bytes + 4 * index;

    return bytes[0] | (uint32_t)bytes[1] << 8 | (uint32_t)bytes[2] << 16 | (uint32_t)bytes[3] << 24;
}

static void add_word(struct choice *choice, uint32_t word)
{
    for (unsigned index = 0; index < 4; index++)
        choice->bytes[choice->length++] = (uint8_t)(word >> (8 * index));
}

static bool has_word(const struct choice *choice, uint32_t word)
{
    for (size_t index = 0; index < choice->length / 4; index++)
        if (chosen_word(choice, index) == word)
            return true;
    return false;
}

void choose_words(struct random_source *random, const struct map *map, struct choice *choice)
{
    uint32_t wanted = chance(random, 10) ? 0 : 1 + random_below(random, chance(random, 50) ? 8 : CHOICE_LIMIT);

    choice->length = 0;
    for (unsigned tried = 0; tried < 3 * wanted && choice->length < 4 * wanted; tried++) {
        const struct window *window = &map->windows[random_below(random, map->count)];
        uint32_t skipped = (4 - window->first % 4) % 4, words, word;
        if ((window->rights & SET_RIGHT) == 0 || window->length < skipped + 4)
            continue;
        words = (window->length - skipped) / 4;
        word = window->first + skipped + 4 * random_below(random, words > 24 && chance(random, 60) ? 24 : words);
        if (!has_word(choice, word))
            add_word(choice, word);
    }
    choice->numbers_length = choice->length / 4 * NUMBERS_OF_WORD;
    choice->is_right = true;
}

/* A word that can't be chosen: not aligned, chosen before, over a window's end, past it or before its beginning, in a window
   that may lack the right, or anywhere. */
static uint32_t choose_wrong_word(struct random_source *random, const struct map *map, const struct choice *choice)
{
    const struct window *window = &map->windows[random_below(random, map->count)];
    uint32_t end = window->first + window->length;

    switch (random_below(random, 7)) {
    case 0:
        return window->first + 1 + random_below(random, 3);
    case 1:
        return choice->length > 0 ? chosen_word(choice, random_below(random, (uint32_t)choice->length / 4)) : end;
    case 2:
        return (end - 1) & ~(uint32_t)3;
    case 3:
        return (end + 3) & ~(uint32_t)3;
    case 4:
        return (window->first - 1) & ~(uint32_t)3;
    case 5:
        return (window->first + 3) & ~(uint32_t)3;
    default:
        return random_word(random) & ~(uint32_t)3;
    }
}

/* Too many words, no whole words, or a wrong word somewhere. */
static void break_choice(struct random_source *random, const struct map *map, struct choice *choice)
{
    uint32_t kind = random_below(random, 8);

    choice->is_right = false;
    if (kind == 0) {
        const struct window *window = &map->windows[random_below(random, map->count)];
        for (uint32_t word = (window->first + 3) & ~(uint32_t)3; choice->length < 4 * (CHOICE_LIMIT + 1); word += 4)
            if (!has_word(choice, word))
                add_word(choice, word);
    } else if (kind == 1) {
        add_word(choice, map->windows[0].first & ~(uint32_t)3);
        choice->length -= 1 + random_below(random, 3);
    } else {
        uint32_t word = choose_wrong_word(random, map, choice);
        size_t place = 4 * (size_t)random_below(random, (uint32_t)choice->length / 4 + 1);
        if (place == choice->length)
            choice->length += 4;
        for (unsigned index = 0; index < 4; index++)
            choice->bytes[place + index] = (uint8_t)(word >> (8 * index));
    }
    choice->numbers_length = choice->length / 4 * NUMBERS_OF_WORD;
}

static void break_numbers_length(struct random_source *random, struct choice *choice)
{
    const uint32_t lengths[] = {0, (uint32_t)choice->numbers_length + 1, (uint32_t)choice->numbers_length + 64,
                                (uint32_t)choice->numbers_length - 1, (uint32_t)choice->length,
                                random_below(random, 4096)};
    uint32_t length = PICK(random, lengths);

    choice->is_right &= length == choice->numbers_length;
    choice->numbers_length = length <= 8192 ? length : 1;
}

/* ---- Cases ---- */

static void choose_map(struct random_source *random, struct map *map, bool is_large)
{
    if (is_large || chance(random, 1))
        make_large_map(random, map);
    else
        make_good_map(random, map);
}

size_t choose_memory_length(struct random_source *random, const struct map *map, bool is_wrong)
{
    uint32_t sum = (uint32_t)map_sum(map) <= 70000 ? (uint32_t)map_sum(map) : 4096;

    if (!is_wrong)
        return sum;
    switch (random_below(random, 5)) {
    case 0:
        return 0;
    case 1:
        return sum - (sum > 0);
    case 2:
        return map->count > 1 && map->windows[0].length <= sum ? sum - map->windows[0].length : 2 * (size_t)sum;
    case 3:
        return random_below(random, 300);
    default:
        return (size_t)sum + 1;
    }
}

/* By halves there is no greeting, and a half has twice the room of a byte: a script needs as many bytes for replies. */
static size_t choose_room_length(struct random_source *random, const struct writer *script, bool is_wrong)
{
    size_t needed = (script->has_halves ? 0 : GREETING_LENGTH) + 2 * script->length;

    if (needed == 0)
        return random_below(random, 200);
    if (is_wrong)
        return chance(random, 50) ? needed - 1 : random_below(random, (uint32_t)needed);
    return chance(random, 80) ? needed : needed + random_below(random, 200);
}

/* Mostly few retries; many only where the image is short. */
static uint8_t choose_limit(struct random_source *random, size_t image_length)
{
    uint32_t drawn = random_below(random, 100);

    if (drawn < 15)
        return 0;
    if (drawn < 85 || image_length > 1000)
        return (uint8_t)(1 + random_below(random, drawn < 60 ? 4 : 12));
    return drawn < 90 ? 255 : (uint8_t)random_below(random, 256);
}

/* The number of a line or a dialect, or one that there is not. */
uint8_t choose_number(struct random_source *random, bool right, bool is_wrong)
{
    static const uint32_t wrong[] = {2, 3, 16, 128, 129, 254, 255};

    return (uint8_t)(is_wrong ? PICK(random, wrong) : right);
}

/* By turns two and one byte below 2^32, 2^32 itself and one byte more. */
static void make_heavy_case(struct bench_case *bench_case, struct random_source *random)
{
    struct writer *script = &bench_case->script;
    uint64_t bytes = (uint64_t)UINT32_MAX - 1 + bench_case->number / HEAVY_EVERY % 4;

    make_heavy_map(random, &bench_case->map);
    begin_script(script, &bench_case->map, true, false, true);
    bench_case->limit = write_heavy_image(script, bytes);
}

/* From 65,534 commands to 65,537, in either dialect. */
static void make_long_case(struct bench_case *bench_case, struct random_source *random, bool is_dm648)
{
    struct writer *script = &bench_case->script;

    make_good_map(random, &bench_case->map);
    for (unsigned index = 0; index < bench_case->map.count; index++)
        bench_case->map.windows[index].rights = ALL_RIGHTS;
    encode_map(&bench_case->map);
    begin_script(script, &bench_case->map, true, false, is_dm648);
    bench_case->limit = write_long_image(script, 65534 + random_below(random, 4));
}

static void write_some_script(struct writer *script, bool is_large)
{
    if (script->is_flash && is_large)
        write_large_image(script);
    else if (script->is_flash)
        write_image(script);
    else if (is_large)
        write_large_sent_script(script);
    else
        write_sent_script(script);
}

static void make_usual_case(struct bench_case *bench_case, struct random_source *random, bool is_dm648)
{
    struct writer *script = &bench_case->script;
    bool is_flash = bench_case->number % 2 != 0, is_large = random_below(random, 400) == 0;
    uint32_t wrong_percent = chance(random, 3) ? 50 : 2; /* at times several things are wrong at once */

    choose_map(random, &bench_case->map, is_large);
    begin_script(script, &bench_case->map, is_flash, bench_case->number % 4 == 2, is_dm648);
    write_some_script(script, is_large);
    choose_words(random, &bench_case->map, &bench_case->choice);
    if (chance(random, wrong_percent + 1))
        break_choice(random, &bench_case->map, &bench_case->choice);
    if (chance(random, wrong_percent))
        break_numbers_length(random, &bench_case->choice);
    if (chance(random, wrong_percent + 3))
        break_map(random, &bench_case->map);
    if (is_flash && wrong_percent == 50 && chance(random, 50))
        break_image_length(script);
    bench_case->memory_length = choose_memory_length(random, &bench_case->map, chance(random, wrong_percent));
    bench_case->room_length = choose_room_length(random, script, chance(random, wrong_percent));
    bench_case->limit = choose_limit(random, script->length);
    bench_case->line = choose_number(random, script->has_halves, chance(random, wrong_percent));
    bench_case->dialect = choose_number(random, is_dm648, chance(random, wrong_percent));
}

void make_case(struct bench_case *bench_case, uint64_t seed, uint64_t number)
{
    struct random_source random = random_from(seed, number);
    bool is_dm648 = number / 4 % 2 != 0, is_heavy = number % HEAVY_EVERY == HEAVY_EVERY - 1;

    bench_case->seed = seed;
    bench_case->number = number;
    bench_case->script.random = random_from(seed ^ 0x5343524950543A29, number);
    if (!is_heavy && number % LONG_EVERY != 1) {
        make_usual_case(bench_case, &random, is_dm648);
        return;
    }
    if (is_heavy)
        make_heavy_case(bench_case, &random);
    else
        make_long_case(bench_case, &random, is_dm648);
    choose_words(&random, &bench_case->map, &bench_case->choice);
    bench_case->memory_length = (size_t)map_sum(&bench_case->map);
    bench_case->dialect = is_dm648;
}

void fill_memory(const struct bench_case *bench_case, uint8_t *memory, size_t length)
{
    struct random_source random = random_from(bench_case->seed + 1, bench_case->number);

    random_bytes(&random, memory, length);
}

void fill_room(const struct bench_case *bench_case, uint8_t *room, size_t length)
{
    struct random_source random = random_from(bench_case->seed + 2, bench_case->number);

    random_bytes(&random, room, length);
}

void fill_numbers(const struct bench_case *bench_case, uint8_t *numbers, size_t length)
{
    struct random_source random = random_from(bench_case->seed + 3, bench_case->number);

    random_bytes(&random, numbers, length);
}

static void print_bytes(const char *name, const uint8_t *bytes, size_t length)
{
    printf("%s (%zu bytes):", name, length);
    for (size_t index = 0; index < length && index < 1024; index++)
        printf("%s%02X", index % 32 == 0 ? "\n    " : " ", bytes[index]);
    printf("%s\n", length > 1024 ? "\n    and so on" : "");
}

void print_case(const struct bench_case *bench_case)
{
    const struct map *map = &bench_case->map;
    bool is_flash = bench_case->script.is_flash;

    printf("seed %" PRIu64 ", case %" PRIu64 ", %s, %s mode\n", bench_case->seed, bench_case->number,
           bench_case->script.is_dm648 ? "DM648" : "AM17xx",
           is_flash ? "flash" : bench_case->script.has_halves ? "sent (halves)" : "sent (bytes)");
    for (unsigned index = 0; index < map->count; index++)
        printf("window 0x%08" PRIX32 ", length %" PRIu32 ", rights %" PRIu32 "\n", map->windows[index].first,
               map->windows[index].length, map->windows[index].rights);
    print_bytes("map", map->bytes, map->length);
    printf("memory of %zu bytes\n", bench_case->memory_length);
    print_bytes("chosen", bench_case->choice.bytes, bench_case->choice.length);
    printf("numbers of %zu bytes, dialect %u\n", bench_case->choice.numbers_length, bench_case->dialect);
    print_bytes(is_flash ? "image" : "fed", bench_case->script.bytes, bench_case->script.length);
    if (is_flash)
        printf("retry limit %u\n", bench_case->limit);
    else
        printf("room of %zu bytes, line %u\n", bench_case->room_length, bench_case->line);
}
