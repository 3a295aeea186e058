/* Cases for the comparison: a map, a memory and a script, all decided by a seed and a number. */
#ifndef CASES_H
#define CASES_H

#include "writer.h"

enum { CHOICE_LIMIT = 64, CHOSEN_WRITTEN = 80, NUMBERS_OF_WORD = 64 };

/* Words whose bits are asked for, as little-endian addresses, and how many bytes are lent for their numbers. */
struct choice {
    uint8_t bytes[4 * CHOSEN_WRITTEN];
    size_t length;
    size_t numbers_length;
    bool is_right; /* both of these */
};

struct bench_case {
    uint64_t seed;
    uint64_t number;
    struct map map;
    size_t memory_length;
    struct writer script; /* the bytes fed, or the image */
    size_t room_length;   /* sent mode only */
    uint8_t line;         /* sent mode only: the line as a number, at times one that there is not */
    uint8_t limit;        /* flash mode only */
    uint8_t dialect;      /* where words are chosen: the dialect as a number, at times one that there is not */
    struct choice choice;
};

/* Makes the case of this seed and number: sent mode for even numbers, by bytes and by halves in turns, flash
   mode for odd ones; four numbers for the AM17xx and four for the DM648 in turns. Every 50,000th is a heavy one, which
   takes the totals of a DM648 to about 2^32, and every 7,500th a long one, which takes the numbers to about 65,535. */
void make_case(struct bench_case *bench_case, uint64_t seed, uint64_t number);

/* The parts that make_case is put together from. */
void make_good_map(struct random_source *random, struct map *map);
void make_large_map(struct random_source *random, struct map *map);
void break_map(struct random_source *random, struct map *map);
void write_good_load(struct writer *writer);
void write_good_fill(struct writer *writer);
void write_good_setting(struct writer *writer);
void write_good_jump_and_close(struct writer *writer);
void write_good_command(struct writer *writer);
void write_flawed_command(struct writer *writer);
void write_image(struct writer *writer); /* good commands and flawed ones, at times damaged */
void write_large_image(struct writer *writer);
void damage_script(struct writer *writer);

/* The length of the memory and the number of a line or a dialect, or wrong ones. */
size_t choose_memory_length(struct random_source *random, const struct map *map, bool is_wrong);
uint8_t choose_number(struct random_source *random, bool right, bool is_wrong);

/* Words of set windows, none of them twice, as many as they have and the choice may have at most. */
void choose_words(struct random_source *random, const struct map *map, struct choice *choice);
uint32_t chosen_word(const struct choice *choice, size_t index);

/* The bytes that memory, room and numbers hold before the call. */
void fill_memory(const struct bench_case *bench_case, uint8_t *memory, size_t length);
void fill_room(const struct bench_case *bench_case, uint8_t *room, size_t length);
void fill_numbers(const struct bench_case *bench_case, uint8_t *numbers, size_t length);

void print_case(const struct bench_case *bench_case);

#endif
