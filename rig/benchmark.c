/* Measures the proved loader and the plain one on the same work, in turns, and prints the ratio of their times.

   benchmark [HIGHEST_RATIO] ends with status 1 when a ratio is above the one given. */
#include "ais.h"
#include "plain_hex.h"
#include "plain_loader.h"

#include <inttypes.h>
#include <stdbool.h>
#include <stdio.h>
#include <stdlib.h>
#include <string.h>
#include <time.h>

enum mode { BYTES, HALVES, FLASH };
enum { MEMORY_LENGTH = 65536, SCRIPT_LIMIT = 65536, ROOM_LENGTH = 6 + 2 * SCRIPT_LIMIT };
enum { ROUNDS = 301, FILL_COUNT = 16, SHORT_COUNT = 3200, LOAD_ROOM = 1024, MOST_CHOSEN = 64 };

enum { FIRST_WORD = 0x41504954 };
enum { LOAD = 0x58535901, ENABLE = 0x58535903, JUMP_AND_CLOSE = 0x58535906 };
enum { BOOT_TABLE = 0x58535907, FILL = 0x5853590A };

static const uint32_t WINDOW[] = {0x80000000, MEMORY_LENGTH, 7};

/* One piece of work: a script to feed, an image to run, a text to read or an image to write as text. */
enum work_kind { FEED, RUN, READ_TEXT, WRITE_TEXT };

struct work {
    const char *name;
    enum work_kind kind;
    enum mode mode; /* sent by bytes or by halves, or flash */
    bool is_dm648;  /* sent only */
    unsigned chosen; /* words of memory whose bits are numbered; bytes and flash only */
    unsigned repeats; /* runs in one measurement */
    uint8_t script[SCRIPT_LIMIT];
    size_t length;
};

struct loader {
    uint64_t (*sent[FLASH])(const uint8_t *, size_t, uint8_t *, size_t, const uint8_t *, size_t, uint8_t *, size_t);
    uint64_t (*dm648)(uint8_t, const uint8_t *, size_t, uint8_t *, size_t, const uint8_t *, size_t, uint8_t *, size_t);
    uint64_t (*flash)(const uint8_t *, size_t, uint8_t *, size_t, const uint8_t *, size_t, uint8_t);
    uint64_t (*bits_sent)(uint8_t, uint8_t, const uint8_t *, size_t, const uint8_t *, size_t, uint8_t *, size_t, uint8_t *,
                          size_t, const uint8_t *, size_t, uint8_t *, size_t);
    uint64_t (*bits_flash)(uint8_t, const uint8_t *, size_t, const uint8_t *, size_t, uint8_t *, size_t, uint8_t *, size_t,
                           const uint8_t *, size_t, uint8_t);
    uint8_t (*read_text)(const uint8_t *, size_t, uint8_t *, size_t);
    uint8_t (*write_text)(const uint8_t *, size_t, uint8_t *, size_t);
    uint64_t value;
    double seconds[ROUNDS];
};

/* Both loaders are lent the same bytes, so that their place in memory is no difference between them. */
struct lent {
    uint8_t memory[MEMORY_LENGTH];
    uint8_t room[ROOM_LENGTH];
    uint8_t numbers[64 * MOST_CHOSEN];
};

static struct loader proved = {.sent = {ais_sent_session, ais_half_session},
                               .dm648 = ais_dm648_session,
                               .flash = ais_flash_run,
                               .bits_sent = ais_bits_session,
                               .bits_flash = ais_bits_run,
                               .read_text = ais_hex_read,
                               .write_text = ais_hex_write};
static struct loader plain = {.sent = {plain_sent_session, plain_half_session},
                              .dm648 = plain_dm648_session,
                              .flash = plain_flash_run,
                              .bits_sent = plain_bits_session,
                              .bits_flash = plain_bits_run,
                              .read_text = plain_hex_read,
                              .write_text = plain_hex_write};
static struct lent lent;
static uint8_t map[sizeof WINDOW];
static uint8_t chosen[4 * MOST_CHOSEN];

/* ---- Making the work ---- */

static void put_word(uint8_t *bytes, uint32_t word)
{
    for (unsigned index = 0; index < 4; index++)
        bytes[index] = (uint8_t)(word >> (8 * index));
}

static void add_word(struct work *work, uint32_t word)
{
    put_word(work->script + work->length, word);
    work->length += 4;
}

static void begin_work(struct work *work, const char *name, enum mode mode, bool checksum_on)
{
    work->name = name;
    work->kind = mode == FLASH ? RUN : FEED;
    work->mode = mode;
    work->length = 0;
    if (mode == FLASH)
        add_word(work, FIRST_WORD);
    if (mode == HALVES)
        work->script[work->length++] = 0x53;
    if (mode != FLASH)
        work->script[work->length++] = 0x58;
    if (checksum_on)
        add_word(work, ENABLE);
}

static void end_work(struct work *work)
{
    add_word(work, JUMP_AND_CLOSE);
    add_word(work, WINDOW[0]);
}

/* One long load of changing words. */
static void make_load(struct work *work, const char *name, enum mode mode, bool checksum_on)
{
    uint32_t size = SCRIPT_LIMIT - LOAD_ROOM, word = 1;

    begin_work(work, name, mode, checksum_on);
    work->repeats = checksum_on ? 1 : mode == FLASH ? 50 : 4;
    add_word(work, LOAD);
    add_word(work, WINDOW[0]);
    add_word(work, size);
    for (uint32_t done = 0; done < size; done += 4, word = word * 1664525 + 1013904223)
        add_word(work, word);
    end_work(work);
}

static void add_command(struct work *work, uint32_t opcode, const uint32_t arguments[4])
{
    add_word(work, opcode);
    for (unsigned index = 0; index < 4; index++)
        add_word(work, arguments[index]);
}

/* Short commands, each a word further: settings of a three-bit field, or fills of one word. */
static void make_short(struct work *work, const char *name, enum mode mode, uint32_t opcode, unsigned count)
{
    uint32_t address = WINDOW[0];

    begin_work(work, name, mode, false);
    work->repeats = 4 * SHORT_COUNT / count;
    for (unsigned index = 0; index < count; index++, address += 4) {
        if (opcode == FILL)
            add_command(work, FILL, (uint32_t[]){address, 4, 2, 0x01234567 * index});
        else
            add_command(work, BOOT_TABLE, (uint32_t[]){0x00060403, address, index % 8, 0});
    }
    end_work(work);
}

/* The same fills of one word on a DM648, which counts each of them. A load or a long fill is counted once, and from flash
   it is the same count, so that no other work of that dialect has a cost of its own. */
static void make_counted(struct work *work, const char *name)
{
    make_short(work, name, BYTES, FILL, SHORT_COUNT);
    work->is_dm648 = true;
    add_word(work, SHORT_COUNT);
    add_word(work, 4 * SHORT_COUNT);
}

/* Settings with words chosen for their bits to be numbered: those that the last settings set. */
static void make_numbered(struct work *work, const char *name, enum mode mode, unsigned count)
{
    make_short(work, name, mode, BOOT_TABLE, SHORT_COUNT);
    work->chosen = count;
}

/* Many fills of the whole memory. */
static void make_fills(struct work *work, const char *name, uint32_t type)
{
    begin_work(work, name, FLASH, false);
    work->repeats = 1;
    for (unsigned count = 0; count < FILL_COUNT; count++)
        add_command(work, FILL, (uint32_t[]){WINDOW[0], MEMORY_LENGTH, type, 0x01234567 * (count + 1)});
    end_work(work);
}

/* A text of changing digits in capitals, or an image of changing bytes. */
static void make_text(struct work *work, const char *name, enum work_kind kind)
{
    uint32_t word = 1;

    work->name = name;
    work->kind = kind;
    work->repeats = 20;
    for (work->length = 0; work->length < SCRIPT_LIMIT; word = word * 1664525 + 1013904223)
        work->script[work->length++] = kind == READ_TEXT ? (uint8_t)"0123456789ABCDEF"[word >> 28] : (uint8_t)(word >> 24);
}

/* ---- Measuring ---- */

static double now(void)
{
    struct timespec time;

    clock_gettime(CLOCK_MONOTONIC, &time);
    return (double)time.tv_sec + (double)time.tv_nsec * 1e-9;
}

static double measure(struct loader *loader, const struct work *work)
{
    double begin = now();

    for (unsigned count = 0; count < work->repeats; count++) {
        if (work->kind == READ_TEXT)
            loader->value = loader->read_text(work->script, work->length, lent.memory, MEMORY_LENGTH);
        else if (work->kind == WRITE_TEXT)
            loader->value = loader->write_text(work->script, work->length, lent.room, ROOM_LENGTH);
        else if (work->kind == RUN && work->chosen > 0)
            loader->value =
                loader->bits_flash(0, map, sizeof map, chosen, 4 * work->chosen, lent.memory, MEMORY_LENGTH, lent.numbers,
                                   64 * work->chosen, work->script, work->length, 0);
        else if (work->chosen > 0)
            loader->value =
                loader->bits_sent(0, 0, map, sizeof map, chosen, 4 * work->chosen, lent.memory, MEMORY_LENGTH,
                                  lent.numbers, 64 * work->chosen, work->script, work->length, lent.room, ROOM_LENGTH);
        else if (work->kind == RUN)
            loader->value =
                loader->flash(map, sizeof map, lent.memory, MEMORY_LENGTH, work->script, work->length, 0);
        else if (work->is_dm648)
            loader->value = loader->dm648(work->mode, map, sizeof map, lent.memory, MEMORY_LENGTH, work->script,
                                          work->length, lent.room, ROOM_LENGTH);
        else
            loader->value = loader->sent[work->mode](map, sizeof map, lent.memory, MEMORY_LENGTH, work->script,
                                                     work->length, lent.room, ROOM_LENGTH);
    }
    return (now() - begin) / work->repeats;
}

static int by_size(const void *left, const void *right)
{
    double difference = *(const double *)left - *(const double *)right;

    return difference < 0 ? -1 : difference > 0;
}

static double median(double *numbers)
{
    qsort(numbers, ROUNDS, sizeof *numbers, by_size);
    return numbers[ROUNDS / 2];
}

/* Runs both once from the same beginning, and stops where they differ. */
static void check_same(const struct work *work)
{
    static struct lent proved_lent;

    memset(&lent, 0, sizeof lent);
    measure(&proved, work);
    proved_lent = lent;
    memset(&lent, 0, sizeof lent);
    measure(&plain, work);
    if (proved.value == plain.value && memcmp(&proved_lent, &lent, sizeof lent) == 0)
        return;
    printf("%s: the two loaders differ\n", work->name);
    exit(2);
}

/* Measures one piece of work, the loaders by turns, each first in every other round. The ratio that it gives
   back is the median of the rounds' ratios: what else the machine does slows both halves of a round alike. */
static double measure_both(const struct work *work)
{
    static double ratios[ROUNDS];
    double ratio;

    check_same(work);
    for (unsigned round = 0; round < ROUNDS; round++) {
        if (round % 2 == 0)
            proved.seconds[round] = measure(&proved, work);
        plain.seconds[round] = measure(&plain, work);
        if (round % 2 != 0)
            proved.seconds[round] = measure(&proved, work);
        ratios[round] = proved.seconds[round] / plain.seconds[round];
    }
    ratio = median(ratios);
    printf("%-32s %12.2f %12.2f %8.2f\n", work->name, median(proved.seconds) * 1e6, median(plain.seconds) * 1e6,
           ratio);
    return ratio;
}

int main(int argument_count, char **arguments)
{
    static struct work works[23];
    double allowed = argument_count > 1 ? strtod(arguments[1], NULL) : 1e9, highest = 0;

    for (unsigned index = 0; index < 3; index++)
        put_word(map + 4 * index, WINDOW[index]);
    make_load(&works[0], "sent load, checksum off", BYTES, false);
    make_load(&works[1], "sent load, checksum on", BYTES, true);
    make_load(&works[2], "load by halves, checksum off", HALVES, false);
    make_load(&works[3], "load by halves, checksum on", HALVES, true);
    make_load(&works[4], "flash load, checksum off", FLASH, false);
    make_load(&works[5], "flash load, checksum on", FLASH, true);
    make_fills(&works[6], "16 fills of 65,536, unit 1", 0);
    make_fills(&works[7], "16 fills of 65,536, unit 2", 1);
    make_fills(&works[8], "16 fills of 65,536, unit 4", 2);
    make_short(&works[9], "3,200 sent settings", BYTES, BOOT_TABLE, SHORT_COUNT);
    make_short(&works[10], "3,200 sent fills of one word", BYTES, FILL, SHORT_COUNT);
    make_short(&works[11], "one sent setting", BYTES, BOOT_TABLE, 1);
    make_short(&works[12], "3,200 settings by halves", HALVES, BOOT_TABLE, SHORT_COUNT);
    make_short(&works[13], "3,200 flash settings", FLASH, BOOT_TABLE, SHORT_COUNT);
    make_short(&works[14], "3,200 flash fills of one word", FLASH, FILL, SHORT_COUNT);
    make_short(&works[15], "one flash setting", FLASH, BOOT_TABLE, 1);
    make_text(&works[16], "text of 65,536 digits read", READ_TEXT);
    make_text(&works[17], "65,536 bytes written as text", WRITE_TEXT);
    make_counted(&works[18], "3,200 DM648 fills of one word");
    for (unsigned index = 0; index < MOST_CHOSEN; index++)
        put_word(chosen + 4 * index, WINDOW[0] + 4 * (SHORT_COUNT - 1 - index));
    make_numbered(&works[19], "sent settings, one word chosen", BYTES, 1);
    make_numbered(&works[20], "sent settings, 64 words chosen", BYTES, MOST_CHOSEN);
    make_numbered(&works[21], "flash settings, one word chosen", FLASH, 1);
    make_numbered(&works[22], "flash settings, 64 words chosen", FLASH, MOST_CHOSEN);
    printf("%-32s %12s %12s %8s\n", "microseconds, medians", "proved", "plain", "ratio");
    for (unsigned index = 0; index < sizeof works / sizeof *works; index++) {
        double ratio = measure_both(&works[index]);
        highest = ratio > highest ? ratio : highest;
    }
    printf("highest ratio %.2f\n", highest);
    return highest <= allowed ? 0 : 1;
}
