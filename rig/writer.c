#include "writer.h"

#include <string.h>

/* ---- Random numbers ---- */

static uint64_t next_state(struct random_source *random)
{
    uint64_t mixed = random->state += 0x9E3779B97F4A7C15;

    mixed = (mixed ^ mixed >> 30) * 0xBF58476D1CE4E5B9;
    mixed = (mixed ^ mixed >> 27) * 0x94D049BB133111EB;
    return mixed ^ mixed >> 31;
}

struct random_source random_from(uint64_t seed, uint64_t number)
{
    struct random_source random = {seed};

    random.state = next_state(&random) ^ number;
    random.state = next_state(&random);
    return random;
}

uint32_t random_word(struct random_source *random)
{
    return (uint32_t)(next_state(random) >> 32);
}

uint32_t random_below(struct random_source *random, uint32_t limit)
{
    return (uint32_t)((uint64_t)random_word(random) * limit >> 32);
}

bool chance(struct random_source *random, uint32_t percent)
{
    return random_below(random, 100) < percent;
}

void random_bytes(struct random_source *random, uint8_t *bytes, size_t length)
{
    while (length > 0) {
        uint64_t eight = next_state(random);
        size_t part = length < sizeof eight ? length : sizeof eight;
        memcpy(bytes, &eight, part);
        bytes += part;
        length -= part;
    }
}

uint32_t pick(struct random_source *random, const uint32_t *words, size_t count)
{
    return words[random_below(random, (uint32_t)count)];
}

/* ---- Maps ---- */

uint64_t map_sum(const struct map *map)
{
    uint64_t sum = 0;

    for (unsigned index = 0; index < map->count; index++)
        sum += map->windows[index].length;
    return sum;
}

static void encode_word(uint8_t *bytes, uint32_t word)
{
    for (unsigned index = 0; index < 4; index++)
        bytes[index] = (uint8_t)(word >> (8 * index));
}

void encode_map(struct map *map)
{
    map->length = map->count * WINDOW_BYTES;
    for (unsigned index = 0; index < map->count; index++) {
        encode_word(map->bytes + index * WINDOW_BYTES, map->windows[index].first);
        encode_word(map->bytes + index * WINDOW_BYTES + 4, map->windows[index].length);
        encode_word(map->bytes + index * WINDOW_BYTES + 8, map->windows[index].rights);
    }
}

static bool holds_with(const struct window *window, uint32_t right, uint64_t address)
{
    return (window->rights & right) != 0 && window->first <= address && address - window->first < window->length;
}

/* Goes up window by window: each takes the address to its end, if it holds it. */
uint32_t granted_bytes(const struct map *map, uint32_t right, uint32_t address)
{
    uint64_t reached = address;

    for (unsigned index = 0; index < map->count; index++)
        if (holds_with(&map->windows[index], right, reached))
            reached = (uint64_t)map->windows[index].first + map->windows[index].length;
    return (uint32_t)(reached - address);
}

/* ---- The checksum of what was written ---- */

/* The remainder after `bits` further bits, by long division of the 64-bit dividend. */
static uint32_t divide(uint32_t remainder, uint32_t value, unsigned bits)
{
    const uint64_t divisor = 0x104C11DB7;
    uint64_t kept = value & (0xFFFFFFFF >> (32 - bits));
    uint64_t dividend = (uint64_t)remainder << bits | kept;

    for (unsigned bit = 32 + bits; bit-- > 32;)
        if (dividend >> bit & 1)
            dividend ^= divisor << (bit - 32);
    return (uint32_t)dividend;
}

static void cover(struct writer *writer, uint32_t value, unsigned bits)
{
    if (!writer->checksum_on)
        return;
    writer->checksum = divide(writer->checksum, value, bits);
    for (unsigned index = 0; index < writer->mark_count; index++)
        writer->marks[index].checksum = divide(writer->marks[index].checksum, value, bits);
}

static void clear_checksum(struct writer *writer)
{
    writer->checksum = 0;
    for (unsigned index = 0; index < writer->mark_count; index++)
        writer->marks[index].checksum = 0;
}

/* ---- The totals of what was written ---- */

static struct totals sum_of(struct totals left, struct totals right)
{
    return (struct totals){left.sections + right.sections, left.bytes + right.bytes, left.commands + right.commands};
}

static void count_command(struct writer *writer, struct totals one)
{
    writer->loaded.now = sum_of(writer->loaded.now, one);
    for (unsigned index = 0; index < writer->mark_count; index++)
        writer->marks[index].since = sum_of(writer->marks[index].since, one);
}

/* What an opcode does to the totals before its command is done. A Request on the line leaves open what a retry keeps. */
static void turn_totals(struct writer *writer, uint32_t opcode)
{
    struct loaded *loaded = &writer->loaded;

    if (opcode == OPCODE_START_OVER)
        loaded->now = loaded->kept;
    if (opcode == OPCODE_ENABLE || loaded->has_requested)
        loaded->kept = loaded->now;
    loaded->has_requested = opcode == OPCODE_REQUEST && !writer->is_flash;
}

/* A Request of an image that matches, at once or when all since a mark was loaded again. */
static void match_totals(struct writer *writer, uint32_t expected, uint32_t target)
{
    struct loaded *loaded = &writer->loaded;

    for (unsigned index = 0; index < writer->mark_count && expected != writer->checksum; index++)
        if (writer->marks[index].offset == target && writer->marks[index].checksum == expected)
            loaded->now = sum_of(loaded->kept, writer->marks[index].since);
    loaded->kept = loaded->now;
}

/* ---- Scripts ---- */

void begin_script(struct writer *writer, const struct map *map, bool is_flash, bool has_halves, bool is_dm648)
{
    writer->is_dm648 = is_dm648;
    memset(&writer->loaded, 0, sizeof writer->loaded);
    writer->map = map;
    writer->is_flash = is_flash;
    writer->has_halves = has_halves;
    writer->length = 0;
    writer->first_word = 0;
    writer->checksum_on = false;
    writer->checksum = 0;
    writer->mark_count = 0;
}

void write_byte(struct writer *writer, uint8_t byte)
{
    if (writer->length < SCRIPT_LIMIT)
        writer->bytes[writer->length++] = byte;
}

void write_word(struct writer *writer, uint32_t word)
{
    for (unsigned index = 0; index < 4; index++)
        write_byte(writer, (uint8_t)(word >> (8 * index)));
}

void write_unit(struct writer *writer, uint32_t unit)
{
    write_byte(writer, (uint8_t)unit);
    if (writer->has_halves)
        write_byte(writer, (uint8_t)(unit >> 8));
}

void write_start_words(struct writer *writer, unsigned count)
{
    while (count-- > 0)
        write_unit(writer, writer->has_halves ? START_HALF : START_WORD);
    writer->first_word = writer->length;
}

void write_mark(struct writer *writer)
{
    if (writer->mark_count < MARK_LIMIT) {
        writer->marks[writer->mark_count].offset = writer->length;
        writer->marks[writer->mark_count].checksum = 0;
        writer->marks[writer->mark_count].since = (struct totals){0, 0, 0};
        writer->mark_count++;
    }
}

void write_load_data(struct writer *writer, uint32_t size)
{
    while (size > 0) {
        uint32_t word = chance(&writer->random, 5) ? tricky_word(&writer->random) : random_word(&writer->random);
        uint32_t count = size < 4 ? size : 4;
        write_word(writer, word);
        cover(writer, word, 8 * count);
        size -= count;
    }
}

static void write_opcode(struct writer *writer, uint32_t opcode)
{
    write_word(writer, opcode);
    turn_totals(writer, opcode);
}

void write_load(struct writer *writer, uint32_t address, uint32_t size)
{
    write_opcode(writer, OPCODE_LOAD);
    write_word(writer, address);
    write_word(writer, size);
    count_command(writer, (struct totals){1, size, 1});
    cover(writer, address, 32);
    cover(writer, size, 32);
    write_load_data(writer, size);
}

void write_fill(struct writer *writer, uint32_t address, uint32_t size, uint32_t type, uint32_t pattern)
{
    const uint32_t arguments[] = {address, size, type, pattern};

    write_opcode(writer, OPCODE_FILL);
    count_command(writer, (struct totals){1, size, 1});
    for (unsigned index = 0; index < 4; index++) {
        write_word(writer, arguments[index]);
        cover(writer, arguments[index], 32);
    }
}

/* A fill by words: the pattern is what the register would hold after 32 bits of zeros, so that the two cancel out. */
void write_vanishing_fill(struct writer *writer, uint32_t address, uint32_t size)
{
    uint32_t covered = divide(divide(divide(0, address, 32), size, 32), 2, 32);

    write_fill(writer, address, size, 2, divide(covered, 0, 32));
}

void write_setting(struct writer *writer, uint32_t type, uint32_t address, uint32_t data, uint32_t delay)
{
    write_opcode(writer, OPCODE_BOOT_TABLE);
    count_command(writer, (struct totals){0, 0, 1});
    write_word(writer, type);
    write_word(writer, address);
    write_word(writer, data);
    write_word(writer, delay);
}

void write_switch(struct writer *writer, uint32_t opcode)
{
    write_opcode(writer, opcode);
    if (opcode == OPCODE_ENABLE)
        writer->checksum_on = true;
    if (opcode == OPCODE_DISABLE)
        writer->checksum_on = false;
    if (opcode == OPCODE_ENABLE || opcode == OPCODE_START_OVER)
        clear_checksum(writer);
}

void write_close_with(struct writer *writer, uint32_t address, struct totals totals)
{
    write_opcode(writer, OPCODE_JUMP_AND_CLOSE);
    write_word(writer, address);
    if (!writer->is_dm648)
        return;
    write_word(writer, totals.sections);
    write_word(writer, totals.bytes);
}

void write_jump_and_close(struct writer *writer, uint32_t address)
{
    write_close_with(writer, address, writer->loaded.now);
}

void write_sent_request(struct writer *writer)
{
    write_opcode(writer, OPCODE_REQUEST);
    clear_checksum(writer);
}

void write_flash_request(struct writer *writer, uint32_t expected, uint32_t seek)
{
    write_opcode(writer, OPCODE_REQUEST);
    write_word(writer, expected);
    write_word(writer, seek);
    match_totals(writer, expected, (uint32_t)writer->length + seek);
    clear_checksum(writer);
}

void write_ping(struct writer *writer, uint32_t count)
{
    write_opcode(writer, OPCODE_PING);
    write_word(writer, count);
    while (count-- > 0)
        write_word(writer, tricky_word(&writer->random));
}

uint32_t data_width(uint32_t type)
{
    uint32_t kind = type & 0xFF, start = type >> 8 & 0xFF, stop = type >> 16 & 0xFF;

    return kind == 3 || kind == 4 ? stop - start + 1 : 32;
}

uint32_t fit_data(uint32_t type, uint32_t data)
{
    return data & 0xFFFFFFFF >> (32 - data_width(type));
}

/* Looks for a range in one window. */
static bool choose_range_in(struct writer *writer, const struct window *window, uint32_t unit, uint32_t longest,
                            uint32_t *address, uint32_t *size)
{
    uint32_t skipped = (unit - window->first % unit) % unit;
    uint32_t units, start, room;

    if (window->length < skipped + unit)
        return false;
    units = (window->length - skipped) / unit;
    start = chance(&writer->random, 25) ? 0 : random_below(&writer->random, units);
    room = units - start < longest / unit ? units - start : longest / unit;
    *address = window->first + skipped + start * unit;
    *size = unit * (chance(&writer->random, 20) ? room : random_below(&writer->random, room + 1));
    return true;
}

/* Looks for a range that begins a little before a window's end and goes on past it. */
static bool choose_range_over(struct writer *writer, const struct window *window, uint32_t right, uint32_t unit,
                              uint32_t longest, uint32_t *address, uint32_t *size)
{
    struct random_source *random = &writer->random;
    uint32_t back = 1 + random_below(random, window->length < 12 ? window->length : 12);
    uint64_t seam = (uint64_t)window->first + window->length;
    uint32_t least, room;

    *address = (uint32_t)(seam - back) & ~(unit - 1);
    if (*address < window->first)
        return false;
    least = (uint32_t)(seam - *address) / unit + 1;
    room = granted_bytes(writer->map, right, *address) / unit;
    room = room < longest / unit ? room : longest / unit;
    if (room < least)
        return false;
    *size = unit * (least + random_below(random, room - least + 1));
    return true;
}

/* Tries each window with the right, from any one on: over its end, or inside it. */
static bool try_windows(struct writer *writer, bool is_over, uint32_t right, uint32_t unit, uint32_t longest,
                        uint32_t *address, uint32_t *size)
{
    unsigned count = writer->map->count, begin = random_below(&writer->random, count);

    for (unsigned tried = 0; tried < count; tried++) {
        const struct window *window = &writer->map->windows[(begin + tried) % count];
        if ((window->rights & right) == 0)
            continue;
        if (is_over ? choose_range_over(writer, window, right, unit, longest, address, size)
                    : choose_range_in(writer, window, unit, longest, address, size))
            return true;
    }
    return false;
}

bool choose_range(struct writer *writer, uint32_t right, uint32_t unit, uint32_t longest, uint32_t *address,
                  uint32_t *size)
{
    bool is_over = chance(&writer->random, 40);

    return (is_over && try_windows(writer, true, right, unit, longest, address, size)) ||
           try_windows(writer, false, right, unit, longest, address, size);
}

uint32_t tricky_word(struct random_source *random)
{
    static const uint32_t words[] = {
        OPCODE_LOAD, OPCODE_REQUEST, OPCODE_ENABLE, OPCODE_DISABLE, OPCODE_JUMP, OPCODE_JUMP_AND_CLOSE,
        OPCODE_BOOT_TABLE, OPCODE_START_OVER, OPCODE_FILL, OPCODE_PING, OPCODE_SEQUENTIAL_READ_ENABLE,
        0x52535901, 0x52535903, 0x52535908, 0x5253590B, 0x58585858, 0x52525252, 0x00000058, 0x12345658, 0x58000000,
        0x58535853, 0x52535253, 0x00005853, 0x12345853, 0x00000000, 0x00000001, 0xFFFFFFFF, FIRST_WORD,
    };

    return chance(random, 70) ? PICK(random, words) : random_word(random);
}
