/* Writes maps and boot scripts, command by command, with random numbers that a seed decides. */
#ifndef WRITER_H
#define WRITER_H

#include <stdbool.h>
#include <stddef.h>
#include <stdint.h>

/* ---- Random numbers ---- */

struct random_source {
    uint64_t state;
};

struct random_source random_from(uint64_t seed, uint64_t number);
uint32_t random_word(struct random_source *random);
uint32_t random_below(struct random_source *random, uint32_t limit); /* 0 to limit - 1 */
bool chance(struct random_source *random, uint32_t percent);
void random_bytes(struct random_source *random, uint8_t *bytes, size_t length);
uint32_t pick(struct random_source *random, const uint32_t *words, size_t count);

#define PICK(random, words) pick(random, words, sizeof(words) / sizeof((words)[0]))

/* ---- Maps ---- */

enum { LOAD_RIGHT = 1, SET_RIGHT = 2, ENTRY_RIGHT = 4, ALL_RIGHTS = 7 };
enum { WINDOW_BYTES = 12, WINDOWS_WRITTEN = 9, MEMORY_LIMIT = 65536 };

struct window {
    uint32_t first;
    uint32_t length;
    uint32_t rights;
};

/* The windows, and the bytes that stand for them. A bad map may have nine windows, or part of one. */
struct map {
    struct window windows[WINDOWS_WRITTEN];
    unsigned count;
    uint8_t bytes[WINDOWS_WRITTEN * WINDOW_BYTES + WINDOW_BYTES];
    size_t length;
};

uint64_t map_sum(const struct map *map);
void encode_map(struct map *map);

/* How many bytes from an address on a good map grants as one range; 0 where no window with the right holds the address. */
uint32_t granted_bytes(const struct map *map, uint32_t right, uint32_t address);

/* ---- Scripts ---- */

enum {
    OPCODE_LOAD = 0x58535901,
    OPCODE_REQUEST = 0x58535902,
    OPCODE_ENABLE = 0x58535903,
    OPCODE_DISABLE = 0x58535904,
    OPCODE_JUMP = 0x58535905, /* retired */
    OPCODE_JUMP_AND_CLOSE = 0x58535906,
    OPCODE_BOOT_TABLE = 0x58535907,
    OPCODE_START_OVER = 0x58535908,
    OPCODE_FILL = 0x5853590A,
    OPCODE_PING = 0x5853590B,
    OPCODE_SEQUENTIAL_READ_ENABLE = 0x58535963,
    FIRST_WORD = 0x41504954,
    START_WORD = 0x58,
    START_HALF = 0x5853
};

enum { SCRIPT_LIMIT = 140000, MARK_LIMIT = 32 };

/* How many sections were loaded, how many bytes they have, and how many commands have a number: sections and settings. */
struct totals {
    uint32_t sections;
    uint32_t bytes;
    uint32_t commands;
};

/* A place where a command begins, what the register would hold if it had been 0 there, and what was loaded since. */
struct mark {
    size_t offset;
    uint32_t checksum;
    struct totals since;
};

/* What a session has loaded: the totals that stand, those that a retry would leave, and whether the last opcode was a
   Request on the line, after which a retry may still come. */
struct loaded {
    struct totals now;
    struct totals kept;
    bool has_requested;
};

/* A script in the making. The checksum and the totals are what a loader has that accepts all of it. */
struct writer {
    struct random_source random;
    const struct map *map;
    bool is_flash;
    bool has_halves; /* sent by halves; a word is the same four bytes as by bytes */
    bool is_dm648;   /* Jump & Close has the totals behind its address */
    uint8_t bytes[SCRIPT_LIMIT];
    size_t length;
    size_t first_word; /* where the words begin, after the start word */
    bool checksum_on;
    uint32_t checksum;
    struct loaded loaded;
    struct mark marks[MARK_LIMIT];
    unsigned mark_count;
};

void begin_script(struct writer *writer, const struct map *map, bool is_flash, bool has_halves, bool is_dm648);
void write_byte(struct writer *writer, uint8_t byte);
void write_word(struct writer *writer, uint32_t word);
void write_unit(struct writer *writer, uint32_t unit); /* a byte, or a half, low byte first */
void write_start_words(struct writer *writer, unsigned count);
void write_mark(struct writer *writer);

/* Whole commands. Load data, pad bytes and the words of a ping are random. */
void write_load(struct writer *writer, uint32_t address, uint32_t size);
void write_load_data(struct writer *writer, uint32_t size);
void write_fill(struct writer *writer, uint32_t address, uint32_t size, uint32_t type, uint32_t pattern);
void write_vanishing_fill(struct writer *writer, uint32_t address, uint32_t size); /* leaves a checksum of 0 at 0 */
void write_setting(struct writer *writer, uint32_t type, uint32_t address, uint32_t data, uint32_t delay);
void write_switch(struct writer *writer, uint32_t opcode); /* Enable, Disable, Start-Over, Sequential Read Enable */
void write_jump_and_close(struct writer *writer, uint32_t address); /* with the totals that stand */
void write_close_with(struct writer *writer, uint32_t address, struct totals totals);
void write_sent_request(struct writer *writer);
void write_flash_request(struct writer *writer, uint32_t expected, uint32_t seek);
void write_ping(struct writer *writer, uint32_t count);

/* How many bits of data a setting has room for, by its type word: a field as many as it has, other kinds all 32. */
uint32_t data_width(uint32_t type);
uint32_t fit_data(uint32_t type, uint32_t data); /* the data, cut to that */

/* Chooses a range of whole units that windows with the right grant, at times over a seam; false where there is none. */
bool choose_range(struct writer *writer, uint32_t right, uint32_t unit, uint32_t longest, uint32_t *address,
                  uint32_t *size);

/* A word that a loader might mistake for something else. */
uint32_t tricky_word(struct random_source *random);

#endif
