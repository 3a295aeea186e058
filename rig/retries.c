/* Shows through the C call that an abandoned attempt leaves no trace once what it wrote is written again.

   retries COUNT SEED [FIRST] runs COUNT cases of the seed, from case FIRST on, those of even numbers by bytes
   and those of odd numbers by halves, two for the AM17xx and two for the DM648 in turns. A case is a map, a memory
   and the bytes of a prefix, one to four attempts in a row, the commands that follow them and a continuation. They are
   fed with the attempts and without them, and memory, refusal and all replies from the last close on have to agree. In
   every other four cases words are chosen, and the numbers of their bits are read as part of the memory. So all have to
   agree where a Jump & Close comes next, by which a DM648 shows its totals: those that the case should have are
   taken, and others are 17.
   Then one bit that an attempt wrote is left out of the following commands, and memory has to differ in the
   bits left out, wherever the attempts changed them, and in no others; numbers may differ there only. And where a Request
   ends the prefix, a Start-Over alone, which is no attempt, has to leave its trace in the totals of a DM648, and in the
   numbers of either dialect. It ends with status 1 at the first failure, or (unless FIRST is given) when too little was
   met. */
#include "ais.h"
#include "cases.h"

#include <inttypes.h>
#include <stdio.h>
#include <stdlib.h>
#include <string.h>
#include <time.h>

enum { FED_LIMIT = 65536, GREETING_LENGTH = 6, COMMAND_LIMIT = 512, ATTEMPT_LIMIT = 6, LOAD_LIMIT = 40 };
enum { IN_A_ROW_LIMIT = 4 };
enum kind { LOAD, FILL, SETTING, KINDS };
enum setting { BYTE_SETTING, HALF_SETTING, WORD_SETTING, FIELD_SETTING, OTHER_FIELD_SETTING };
enum beginning { AFTER_START_WORD, AFTER_ENABLE, AFTER_REQUEST, AFTER_START_OVER, AFTER_NO_SECTION, BEGINNINGS };

/* A command that writes memory; its data is drawn when it is written down. */
struct command {
    enum kind kind;
    uint32_t address;
    uint32_t size; /* of a setting: its unit */
    uint32_t type; /* not for loads */
};

struct commands {
    struct command list[COMMAND_LIMIT];
    unsigned count;
};

struct retry_case {
    uint64_t seed;
    uint64_t number;
    struct map map;
    struct writer prefix;
    struct writer attempt; /* all attempts in a row, each with its close */
    struct writer following;
    struct writer continuation;
    struct writer closing; /* a Jump & Close with the totals of a session that never had an attempt */
    struct writer wrong_closing;
    bool has_closing; /* some window has an entry address */
    bool has_halves;
    bool is_dm648;
    bool is_watched;
    struct choice choice;
    enum beginning beginning;
    bool is_checked; /* the checksum is on when the first attempt begins */
    unsigned attempts; /* in a row */
    unsigned requests; /* in them */
    struct commands attempted;
    struct commands repeated;
    size_t memory_length;
    uint8_t memory[MEMORY_LIMIT];
    uint8_t attempt_bits[MEMORY_LIMIT]; /* a one for each bit of memory that an attempt writes */
    uint8_t following_bits[MEMORY_LIMIT];
};

struct outcome {
    uint64_t value;
    uint8_t memory[MEMORY_LIMIT];
    uint16_t numbers[CHOICE_LIMIT][32]; /* of each bit of the chosen words */
    uint8_t room[GREETING_LENGTH + 2 * FED_LIMIT];
};

struct tally {
    uint64_t beginnings[BEGINNINGS];
    uint64_t in_a_row[IN_A_ROW_LIMIT];
    uint64_t by_halves;
    uint64_t for_dm648;
    uint64_t watched;
    uint64_t numbered; /* bits of chosen words whose number was looked at */
    uint64_t checked;
    uint64_t empty;
    uint64_t with_request;
    uint64_t over_seam[KINDS]; /* commands of attempts, all of them accepted */
    uint64_t changed;          /* the attempts changed memory */
    uint64_t refused;          /* in the continuation */
    uint64_t uncovered;        /* cases with a bit left out */
    uint64_t uncovered_single; /* exactly one */
    uint64_t uncovered_seen;   /* the bit left out had been changed, and memory differs there */
    uint64_t uncovered_same;   /* the bit left out had been written as it was */
    uint64_t closed[2];        /* entered by the closing, in each dialect */
    uint64_t counted;          /* and of a DM648's, those with a section in an attempt */
    uint64_t no_attempt;       /* a Start-Over alone directly after a Request */
    uint64_t traced;           /* and of these, those that a DM648 saw */
    uint64_t traced_by_number; /* those that were seen in the numbers */
    uint64_t uncovered_number; /* cases in which a bit left out has the number of the attempt */
};

static struct outcome before, after, with, without;

/* ---- Windows and bits ---- */

static const struct window *window_of(const struct map *map, uint32_t address)
{
    for (unsigned index = 0; index < map->count; index++)
        if (address - map->windows[index].first < map->windows[index].length)
            return &map->windows[index];
    fprintf(stderr, "no window holds address 0x%08" PRIX32 "\n", address);
    exit(2);
}

static size_t offset_of(const struct map *map, uint32_t address)
{
    const struct window *window = window_of(map, address);
    size_t offset = address - window->first;

    for (const struct window *earlier = map->windows; earlier < window; earlier++)
        offset += earlier->length;
    return offset;
}

static uint32_t address_of(const struct map *map, size_t offset)
{
    const struct window *window = map->windows;

    while (offset >= window->length)
        offset -= (window++)->length;
    return window->first + (uint32_t)offset;
}

/* Whether the map grants a command's range for a right; the range may lie over seams. */
static bool is_granted(const struct map *map, uint32_t right, const struct command *command)
{
    uint32_t granted = granted_bytes(map, right, command->address);

    return granted > 0 && command->size <= granted;
}

static bool is_over_seam(const struct map *map, const struct command *command)
{
    const struct window *window = window_of(map, command->address);

    return command->size > window->length - (command->address - window->first);
}

static bool is_field(const struct command *command)
{
    return command->kind == SETTING && (command->type & 0xFF) >= FIELD_SETTING;
}

/* The bits that a command writes in the byte at this distance from its address. */
static uint8_t written_bits(const struct command *command, uint32_t distance)
{
    uint32_t start = command->type >> 8 & 0xFF, stop = command->type >> 16 & 0xFF;

    if (distance >= command->size)
        return 0;
    if (!is_field(command))
        return 0xFF;
    return (uint8_t)((0xFFFFFFFF << start & 0xFFFFFFFF >> (31 - stop)) >> (8 * distance));
}

static void collect_bits(const struct map *map, const struct commands *commands, uint8_t *bits, size_t length)
{
    memset(bits, 0, length);
    for (unsigned index = 0; index < commands->count; index++) {
        const struct command *command = &commands->list[index];
        size_t offset = offset_of(map, command->address);
        for (uint32_t distance = 0; distance < command->size; distance++)
            bits[offset + distance] |= written_bits(command, distance);
    }
}

/* ---- Commands that write memory ---- */

static void add(struct commands *commands, enum kind kind, uint32_t address, uint32_t size, uint32_t type)
{
    if (commands->count == COMMAND_LIMIT) {
        fprintf(stderr, "too many commands\n");
        exit(2);
    }
    commands->list[commands->count++] = (struct command){kind, address, size, type};
}

static void add_field(struct commands *commands, struct random_source *random, uint32_t address, uint32_t start,
                      uint32_t end)
{
    uint32_t kind = chance(random, 50) ? FIELD_SETTING : OTHER_FIELD_SETTING;

    if (start < end)
        add(commands, SETTING, address, 4, kind | start << 8 | (end - 1) << 16);
}

static void add_some_setting(struct commands *commands, struct writer *writer)
{
    struct random_source *random = &writer->random;
    uint32_t kind = random_below(random, 5), unit = kind < WORD_SETTING ? (uint32_t)1 << kind : 4;
    uint32_t start = random_below(random, 32), address, size;

    if (!choose_range(writer, SET_RIGHT, unit, unit, &address, &size))
        return;
    if (kind >= FIELD_SETTING)
        add_field(commands, random, address, start, start + 1 + random_below(random, 32 - start));
    else
        add(commands, SETTING, address, unit, kind | (random_word(random) & 0x00FFFF00));
}

/* Adds one command that the map grants. Some window has the load or the set right, so there is one. */
static void add_some_command(struct commands *commands, struct writer *writer)
{
    unsigned count = commands->count;
    uint32_t type, address, size;

    while (commands->count == count) {
        switch (random_below(&writer->random, 4)) {
        case 0:
            if (choose_range(writer, LOAD_RIGHT, 1, LOAD_LIMIT, &address, &size))
                add(commands, LOAD, address, size, 0);
            break;
        case 1:
            type = random_below(&writer->random, 3);
            if (choose_range(writer, LOAD_RIGHT, (uint32_t)1 << type, MEMORY_LIMIT, &address, &size))
                add(commands, FILL, address, size, type);
            break;
        default:
            add_some_setting(commands, writer);
            break;
        }
    }
}

static void write_command(struct writer *writer, const struct command *command)
{
    struct random_source *random = &writer->random;
    uint32_t data = chance(random, 10) ? tricky_word(random) : random_word(random);

    if (command->kind == LOAD)
        write_load(writer, command->address, command->size);
    else if (command->kind == FILL)
        write_fill(writer, command->address, command->size, command->type, data);
    else
        write_setting(writer, command->type, command->address, fit_data(command->type, data),
                      random_below(random, 1000));
}

static void write_commands(struct writer *writer, const struct commands *commands)
{
    for (unsigned index = 0; index < commands->count; index++)
        write_command(writer, &commands->list[index]);
}

/* ---- Covering what an attempt wrote ---- */

/* A load of the range, or of a little more on both sides. */
static void add_wider_load(struct commands *commands, struct random_source *random, const struct map *map,
                           const struct command *command)
{
    uint32_t ahead = command->address - window_of(map, command->address)->first;
    uint32_t behind = granted_bytes(map, LOAD_RIGHT, command->address) - command->size;
    uint32_t more = random_below(random, 5), further = random_below(random, 5);

    more = more < ahead ? more : ahead;
    further = further < behind ? further : behind;
    add(commands, LOAD, command->address - more, command->size + more + further, 0);
}

/* A range in two parts: a load and a fill, in any order. */
static void add_two_parts(struct commands *commands, struct random_source *random, const struct command *command)
{
    uint32_t first = random_below(random, command->size + 1);

    if (first < command->size)
        add(commands, LOAD, command->address + first, command->size - first, 0);
    if (first > 0)
        add(commands, FILL, command->address, first, 0);
}

/* The unit of a setting by single bytes, or its field in two. */
static void add_smaller_settings(struct commands *commands, struct random_source *random,
                                 const struct command *command)
{
    uint32_t start = command->type >> 8 & 0xFF, end = (command->type >> 16 & 0xFF) + 1;
    uint32_t middle = start + random_below(random, 32);

    if (!is_field(command)) {
        for (uint32_t distance = 0; distance < command->size; distance++)
            add(commands, SETTING, command->address + distance, 1, BYTE_SETTING);
        return;
    }
    middle = middle < end ? middle : end;
    add_field(commands, random, command->address, middle, end);
    add_field(commands, random, command->address, start, middle);
}

/* Adds commands that write all that one command wrote: the same again, or others. */
static void add_cover(struct commands *commands, struct random_source *random, const struct map *map,
                      const struct command *command)
{
    bool may_load = is_granted(map, LOAD_RIGHT, command) && command->size <= 200;
    bool may_set = is_granted(map, SET_RIGHT, command) && command->size <= 8;
    uint32_t drawn = random_below(random, 7);

    if (drawn == 0 && may_load)
        add_wider_load(commands, random, map, command);
    else if (drawn == 1 && may_load)
        add_two_parts(commands, random, command);
    else if (drawn == 2 && may_load)
        add(commands, FILL, command->address, command->size, 0);
    else if (drawn == 3 && may_set)
        add_smaller_settings(commands, random, command);
    else if (drawn == 4 && command->kind == SETTING && command->size == 4)
        add(commands, SETTING, command->address, 4, WORD_SETTING);
    else
        add(commands, command->kind, command->address, command->size, command->type);
}

static void shuffle(struct commands *commands, struct random_source *random)
{
    for (unsigned left = commands->count; left > 1; left--) {
        unsigned chosen = random_below(random, left);
        struct command kept = commands->list[chosen];
        commands->list[chosen] = commands->list[left - 1];
        commands->list[left - 1] = kept;
    }
}

/* ---- Leaving one bit out ---- */

/* The other seven bits of a byte, where fields may be set in its word. */
static void add_other_bits(struct commands *commands, struct random_source *random, const struct map *map,
                           uint32_t address, unsigned bit)
{
    uint32_t word = address & ~(uint32_t)3, lowest = 8 * (address - word);

    if (granted_bytes(map, SET_RIGHT, word) < 4)
        return;
    add_field(commands, random, word, lowest, lowest + bit);
    add_field(commands, random, word, lowest + bit + 1, lowest + 8);
}

/* What one command writes, without this bit of the byte at this address, and without more than need be. */
static void add_without_bit(struct commands *commands, struct random_source *random, const struct map *map,
                            const struct command *command, uint32_t address, unsigned bit)
{
    uint32_t distance = address - command->address, place = 8 * distance + bit;
    uint32_t start = is_field(command) ? command->type >> 8 & 0xFF : 0;
    uint32_t end = is_field(command) ? (command->type >> 16 & 0xFF) + 1 : 32;

    if ((written_bits(command, distance) >> bit & 1) == 0) {
        add(commands, command->kind, command->address, command->size, command->type);
    } else if (command->kind == SETTING && command->size == 4) {
        add_field(commands, random, command->address, start, place);
        add_field(commands, random, command->address, place + 1, end);
    } else if (command->kind == SETTING) {
        if (command->size == 2)
            add(commands, SETTING, address ^ 1, 1, BYTE_SETTING);
        add_other_bits(commands, random, map, address, bit);
    } else {
        if (distance > 0)
            add(commands, command->kind, command->address, distance, 0);
        if (distance + 1 < command->size)
            add(commands, command->kind, address + 1, command->size - distance - 1, 0);
        add_other_bits(commands, random, map, address, bit);
    }
}

/* ---- Cases ---- */

static void write_prefix_command(struct writer *writer)
{
    static const uint32_t switches[] = {OPCODE_ENABLE, OPCODE_ENABLE, OPCODE_DISABLE, OPCODE_START_OVER};
    struct commands one = {.count = 0};

    switch (random_below(&writer->random, 9)) {
    case 0:
        write_switch(writer, PICK(&writer->random, switches));
        break;
    case 1:
        write_sent_request(writer);
        break;
    case 2:
        write_ping(writer, random_below(&writer->random, 4));
        break;
    default:
        add_some_command(&one, writer);
        write_commands(writer, &one);
        break;
    }
}

/* What leaves register and totals as they are: a Ping, a Disable, or where nothing is numbered a setting. It settles a
   Request all the same. */
static void write_no_section(struct writer *writer, bool may_set)
{
    struct commands settings = {.count = 0};

    if (may_set && chance(&writer->random, 60))
        add_some_setting(&settings, writer);
    write_commands(writer, &settings);
    if (settings.count == 0 && chance(&writer->random, 50))
        write_ping(writer, random_below(&writer->random, 3));
    else if (settings.count == 0)
        write_switch(writer, OPCODE_DISABLE);
}

/* The last opcode before an attempt, or the last but for one that loads nothing. */
static void write_beginning(struct writer *writer, enum beginning beginning, bool may_set)
{
    static const uint32_t last[] = {OPCODE_ENABLE, OPCODE_REQUEST, OPCODE_START_OVER};
    uint32_t opcode = beginning == AFTER_NO_SECTION ? PICK(&writer->random, last) : last[beginning - AFTER_ENABLE];

    if (opcode == OPCODE_REQUEST)
        write_sent_request(writer);
    else
        write_switch(writer, opcode);
    if (beginning == AFTER_NO_SECTION)
        write_no_section(writer, may_set);
}

/* Ends where an attempt begins. Bytes before the start word are ignored, and it may come several times. */
static void write_prefix(struct retry_case *retry_case)
{
    struct writer *writer = &retry_case->prefix;
    struct random_source *random = &writer->random;

    for (unsigned count = chance(random, 15) ? random_below(random, 6) : 0; count > 0; count--)
        write_unit(writer, writer->has_halves ? START_HALF + 1 + random_below(random, 65535)
                                              : START_WORD + 1 + random_below(random, 255));
    write_start_words(writer, 1 + (chance(random, 20) ? random_below(random, 4) : 0));
    retry_case->beginning = random_below(random, BEGINNINGS);
    if (retry_case->beginning == AFTER_START_WORD)
        return;
    if (chance(random, 80))
        write_switch(writer, chance(random, 80) ? OPCODE_ENABLE : OPCODE_DISABLE);
    for (unsigned count = random_below(random, 6); count > 0; count--)
        write_prefix_command(writer);
    write_beginning(writer, retry_case->beginning, !retry_case->is_watched);
}

/* Commands, none or more, perhaps a Request, and a Start-Over. The first attempt may be no Start-Over alone after a
   Request; a later one comes after a Start-Over. */
static void write_attempt(struct retry_case *retry_case, bool is_first)
{
    struct writer *writer = &retry_case->attempt;
    unsigned count = chance(&writer->random, 10) ? 0 : 1 + random_below(&writer->random, ATTEMPT_LIMIT);
    bool must_ask = is_first && count == 0 && retry_case->beginning == AFTER_REQUEST;
    struct commands commands = {.count = 0};

    while (count-- > 0)
        add_some_command(&commands, writer);
    write_commands(writer, &commands);
    for (unsigned index = 0; index < commands.count; index++)
        retry_case->attempted.list[retry_case->attempted.count++] = commands.list[index];
    if (chance(&writer->random, 40) || must_ask) {
        write_sent_request(writer);
        retry_case->requests++;
    }
    write_switch(writer, OPCODE_START_OVER);
}

static void write_attempts(struct retry_case *retry_case)
{
    retry_case->attempted.count = 0;
    retry_case->attempts = 0;
    retry_case->requests = 0;
    do
        write_attempt(retry_case, retry_case->attempts++ == 0);
    while (retry_case->attempts < IN_A_ROW_LIMIT && chance(&retry_case->attempt.random, 40));
}

static void write_following(struct retry_case *retry_case)
{
    struct writer *writer = &retry_case->following;
    struct commands *repeated = &retry_case->repeated;
    unsigned more = chance(&writer->random, 40) ? random_below(&writer->random, 4) : 0;

    repeated->count = 0;
    for (unsigned index = 0; index < retry_case->attempted.count; index++)
        add_cover(repeated, &writer->random, &retry_case->map, &retry_case->attempted.list[index]);
    for (more += repeated->count == 0; more > 0; more--)
        add_some_command(repeated, writer);
    if (chance(&writer->random, 80))
        shuffle(repeated, &writer->random);
    write_commands(writer, repeated);
}

/* Any bytes. A Request comes first at times, so that the register is seen. */
static void write_continuation(struct writer *writer)
{
    struct random_source *random = &writer->random;

    if (chance(random, 50))
        write_sent_request(writer);
    for (unsigned count = random_below(random, 7); count > 0; count--) {
        if (chance(random, 6))
            write_flawed_command(writer);
        else
            write_good_command(writer);
    }
    for (unsigned count = chance(random, 10) ? random_below(random, 20) : 0; count > 0; count--)
        write_unit(writer, random_word(random));
    if (chance(random, 20))
        write_good_jump_and_close(writer);
    for (unsigned count = chance(random, 40) ? 1 + random_below(random, 3) : 0; count > 0; count--)
        damage_script(writer);
    if (writer->has_halves) /* whole halves, else the call is refused */
        writer->length -= writer->length % 2;
}

/* Jump & Close with the totals that the commands before it come to, and with one of them a little off. */
static void write_closings(struct retry_case *retry_case)
{
    struct writer *closing = &retry_case->closing, *wrong = &retry_case->wrong_closing;
    uint32_t address = 0, size;
    struct totals totals;

    retry_case->has_closing = choose_range(closing, ENTRY_RIGHT, 4, 4, &address, &size);
    write_jump_and_close(closing, address);
    totals = wrong->loaded.now;
    if (chance(&wrong->random, 50))
        totals.sections += chance(&wrong->random, 50) ? 1 : -1;
    else
        totals.bytes += chance(&wrong->random, 50) ? 1 : -1;
    write_close_with(wrong, address, totals);
}

static bool may_be_written(const struct map *map)
{
    for (unsigned index = 0; index < map->count; index++)
        if ((map->windows[index].rights & (LOAD_RIGHT | SET_RIGHT)) != 0)
            return true;
    return false;
}

/* A part goes on with what the part before it has loaded; the attempts are before none. */
static void begin_part(struct retry_case *retry_case, struct writer *writer, uint64_t part, const struct writer *earlier)
{
    writer->random = random_from(retry_case->seed ^ part << 56, retry_case->number);
    begin_script(writer, &retry_case->map, false, retry_case->has_halves, retry_case->is_dm648);
    if (earlier != NULL)
        writer->loaded = earlier->loaded;
}

static void make_retry_case(struct retry_case *retry_case, uint64_t seed, uint64_t number)
{
    struct random_source random = random_from(seed, number);
    bool is_large = random_below(&random, 400) == 0;

    retry_case->seed = seed;
    retry_case->number = number;
    retry_case->has_halves = number % 2 != 0;
    retry_case->is_dm648 = number / 2 % 2 != 0;
    do {
        if (is_large)
            make_large_map(&random, &retry_case->map);
        else
            make_good_map(&random, &retry_case->map);
    } while (!may_be_written(&retry_case->map));
    retry_case->memory_length = (size_t)map_sum(&retry_case->map);
    random_bytes(&random, retry_case->memory, retry_case->memory_length);
    retry_case->is_watched = number / 4 % 2 != 0;
    choose_words(&random, &retry_case->map, &retry_case->choice);
    begin_part(retry_case, &retry_case->prefix, 1, NULL);
    write_prefix(retry_case);
    retry_case->is_checked = retry_case->prefix.checksum_on;
    begin_part(retry_case, &retry_case->attempt, 2, NULL);
    write_attempts(retry_case);
    begin_part(retry_case, &retry_case->following, 3, &retry_case->prefix);
    write_following(retry_case);
    begin_part(retry_case, &retry_case->continuation, 4, &retry_case->following);
    write_continuation(&retry_case->continuation);
    begin_part(retry_case, &retry_case->closing, 6, &retry_case->following);
    begin_part(retry_case, &retry_case->wrong_closing, 7, &retry_case->following);
    write_closings(retry_case);
    collect_bits(&retry_case->map, &retry_case->attempted, retry_case->attempt_bits, retry_case->memory_length);
    collect_bits(&retry_case->map, &retry_case->repeated, retry_case->following_bits, retry_case->memory_length);
}

/* ---- Feeding ---- */

/* With words chosen: the call, and their numbers read from the bytes that it writes. */
static void run_watched(const struct retry_case *retry_case, struct outcome *outcome, const uint8_t *fed, size_t length)
{
    static uint8_t numbers[CHOICE_LIMIT * NUMBERS_OF_WORD];
    const struct choice *choice = &retry_case->choice;

    outcome->value = ais_bits_session(retry_case->has_halves, retry_case->is_dm648, retry_case->map.bytes,
                                      retry_case->map.length, choice->bytes, choice->length, outcome->memory,
                                      retry_case->memory_length, numbers, choice->numbers_length, fed, length,
                                      outcome->room, GREETING_LENGTH + 2 * length);
    for (size_t index = 0; index < 32 * (choice->length / 4); index++)
        outcome->numbers[index / 32][index % 32] = (uint16_t)(numbers[2 * index] | numbers[2 * index + 1] << 8);
}

static void run_session(const struct retry_case *retry_case, struct outcome *outcome, const uint8_t *fed, size_t length)
{
    const struct map *map = &retry_case->map;
    size_t memory_length = retry_case->memory_length, room_length = GREETING_LENGTH + 2 * length;

    memcpy(outcome->memory, retry_case->memory, memory_length);
    if (retry_case->is_watched)
        run_watched(retry_case, outcome, fed, length);
    else if (retry_case->is_dm648)
        outcome->value = ais_dm648_session(retry_case->has_halves, map->bytes, map->length, outcome->memory,
                                           memory_length, fed, length, outcome->room, room_length);
    else
        outcome->value = (retry_case->has_halves ? ais_half_session : ais_sent_session)(
            map->bytes, map->length, outcome->memory, memory_length, fed, length, outcome->room, room_length);
}

/* Feeds the prefix and the other parts that are given, one after another, to a new session. */
static void feed(const struct retry_case *retry_case, struct outcome *outcome, const struct writer *attempt,
                 const struct writer *following, const struct writer *continuation)
{
    const struct writer *parts[] = {&retry_case->prefix, attempt, following, continuation};
    static uint8_t fed[FED_LIMIT];
    size_t length = 0;

    for (unsigned index = 0; index < 4; index++) {
        if (parts[index] == NULL)
            continue;
        if (parts[index]->length > FED_LIMIT - length) {
            fprintf(stderr, "too many bytes to feed\n");
            exit(2);
        }
        memcpy(fed + length, parts[index]->bytes, parts[index]->length);
        length += parts[index]->length;
    }
    run_session(retry_case, outcome, fed, length);
}

static uint32_t reply_count(const struct outcome *outcome)
{
    return (uint32_t)outcome->value;
}

static uint32_t refusal_of(const struct outcome *outcome)
{
    return (uint32_t)(outcome->value >> 32);
}

/* ---- Checking ---- */

static bool expect(bool holds, const char *what)
{
    if (!holds)
        printf("not so: %s\n", what);
    return holds;
}

/* That the case is what it is meant to be: one acknowledgement for each command, and no bit uncovered. */
static bool case_is_sound(const struct retry_case *retry_case)
{
    uint32_t acknowledged = 4 * retry_case->attempted.count + 8 * retry_case->requests + 4 * retry_case->attempts;
    uint32_t following = 4 * retry_case->repeated.count;
    bool is_covered = true, is_confined = true;

    for (size_t index = 0; index < retry_case->memory_length; index++) {
        is_covered &= (retry_case->attempt_bits[index] & ~retry_case->following_bits[index]) == 0;
        is_confined &= ((before.memory[index] ^ after.memory[index]) & ~retry_case->attempt_bits[index]) == 0;
    }
    return expect(refusal_of(&before) == 0, "the prefix is accepted") &&
           expect(refusal_of(&after) == 0, "the attempts are accepted") &&
           expect(refusal_of(&with) == 0, "the following commands are accepted") &&
           expect(reply_count(&after) == reply_count(&before) + acknowledged, "the attempts are acknowledged") &&
           expect(reply_count(&with) == reply_count(&after) + following, "the following commands are acknowledged") &&
           expect(is_covered, "the following commands cover the attempts") &&
           expect(is_confined, "the attempts change only bits that they write");
}

/* Replies up to the attempts, and from the last close on, and the refusal. */
static bool same_replies(void)
{
    uint32_t earlier = reply_count(&before), closed = reply_count(&after);

    if (!expect(reply_count(&with) >= closed && reply_count(&without) >= earlier, "no reply is lost") ||
        !expect(reply_count(&with) - closed == reply_count(&without) - earlier, "as many replies after the close"))
        return false;
    return expect(memcmp(with.room, without.room, earlier) == 0, "the same replies before the attempts") &&
           expect(memcmp(with.room + closed, without.room + earlier, reply_count(&with) - closed) == 0,
                  "the same replies after the close") &&
           expect(refusal_of(&with) == refusal_of(&without), "the same refusal");
}

/* The numbers of all chosen words, with the attempt and without it, but for bits of memory where they may differ. */
static bool same_numbers(const struct retry_case *retry_case, const uint8_t *may_differ)
{
    for (size_t index = 0; retry_case->is_watched && index < 32 * (retry_case->choice.length / 4); index++) {
        size_t offset = offset_of(&retry_case->map, chosen_word(&retry_case->choice, index / 32)) + index % 32 / 8;
        if (with.numbers[index / 32][index % 32] == without.numbers[index / 32][index % 32] ||
            (may_differ != NULL && (may_differ[offset] >> index % 8 & 1) != 0))
            continue;
        printf("bit %zu of chosen word %zu: number %u, and without the attempt %u\n", index % 32, index / 32,
               with.numbers[index / 32][index % 32], without.numbers[index / 32][index % 32]);
        return false;
    }
    return true;
}

/* The number of the last command in a list that writes a bit of a word, if the first has the one given; 0 for none. */
static uint32_t number_in(const struct map *map, const struct commands *commands, uint32_t first, uint32_t word,
                          unsigned bit)
{
    size_t offset = offset_of(map, word) + bit / 8;

    for (unsigned index = commands->count; index > 0; index--) {
        const struct command *command = &commands->list[index - 1];
        size_t begin = offset_of(map, command->address);
        if (begin <= offset && (written_bits(command, (uint32_t)(offset - begin)) >> bit % 8 & 1) != 0)
            return first + index - 1;
    }
    return 0;
}

/* Each bit that the following commands wrote has the number of the last that did, counted on from the prefix. */
static bool numbers_as_expected(const struct retry_case *retry_case, const struct outcome *outcome, uint32_t first,
                                uint64_t *seen)
{
    for (size_t index = 0; retry_case->is_watched && index < 32 * (retry_case->choice.length / 4); index++) {
        uint32_t word = chosen_word(&retry_case->choice, index / 32);
        uint32_t number = number_in(&retry_case->map, &retry_case->repeated, first, word, index % 32);
        *seen += number != 0;
        if (number != 0 && outcome->numbers[index / 32][index % 32] != number)
            return expect(false, "a bit has the number of the last command that wrote it");
    }
    return true;
}

/* Memory differs in the bits that the attempt changed and the commands after it don't write, and in no others. */
static bool differs_as_expected(const struct retry_case *retry_case, const uint8_t *rewritten)
{
    for (size_t index = 0; index < retry_case->memory_length; index++) {
        uint8_t expected = (uint8_t)((before.memory[index] ^ after.memory[index]) & ~rewritten[index]);
        uint8_t found = with.memory[index] ^ without.memory[index];
        if (found != expected) {
            printf("memory byte %zu: bits %02X differ, and not %02X\n", index, found, expected);
            return false;
        }
    }
    return true;
}

static bool leaves_no_trace(const struct retry_case *retry_case, struct tally *tally)
{
    size_t length = retry_case->memory_length;

    feed(retry_case, &before, NULL, NULL, NULL);
    feed(retry_case, &after, &retry_case->attempt, NULL, NULL);
    feed(retry_case, &with, &retry_case->attempt, &retry_case->following, NULL);
    feed(retry_case, &without, NULL, &retry_case->following, NULL);
    if (!case_is_sound(retry_case) || !same_replies() || !same_numbers(retry_case, NULL) ||
        !numbers_as_expected(retry_case, &without, retry_case->prefix.loaded.now.commands + 1, &tally->numbered) ||
        !expect(memcmp(with.memory, without.memory, length) == 0, "the same memory after the following commands"))
        return false;
    feed(retry_case, &with, &retry_case->attempt, &retry_case->following, &retry_case->continuation);
    feed(retry_case, &without, NULL, &retry_case->following, &retry_case->continuation);
    tally->beginnings[retry_case->beginning]++;
    tally->by_halves += retry_case->has_halves;
    tally->for_dm648 += retry_case->is_dm648;
    tally->watched += retry_case->is_watched;
    tally->checked += retry_case->is_checked;
    tally->empty += retry_case->attempted.count == 0;
    tally->with_request += retry_case->requests > 0;
    tally->in_a_row[retry_case->attempts - 1]++;
    for (unsigned index = 0; index < retry_case->attempted.count; index++) {
        const struct command *command = &retry_case->attempted.list[index];
        tally->over_seam[command->kind] += is_over_seam(&retry_case->map, command);
    }
    tally->changed += memcmp(before.memory, after.memory, length) != 0;
    tally->refused += refusal_of(&with) != 0;
    return same_replies() && same_numbers(retry_case, NULL) &&
           expect(memcmp(with.memory, without.memory, length) == 0, "the same memory at the end");
}

/* The session ended by entering: the acknowledgement came, from a DM648 also DONE, and nothing was refused. */
static bool has_entered(const struct retry_case *retry_case, const struct outcome *outcome)
{
    const uint8_t *room = outcome->room + reply_count(outcome);

    if (refusal_of(outcome) != 0)
        return false;
    if (!retry_case->is_dm648)
        return memcmp(room - 4, "\x06\x59\x53\x52", 4) == 0;
    return memcmp(room - 8, "\x06\x59\x53\x52" "DONE", 8) == 0;
}

static bool has_section(const struct commands *commands)
{
    for (unsigned index = 0; index < commands->count; index++)
        if (commands->list[index].kind != SETTING)
            return true;
    return false;
}

/* A Jump & Close directly after what follows: with the totals that should stand it is taken, with others only by the
   AM17xx, which has none, and the attempt makes no difference. */
static bool closes_as_expected(const struct retry_case *retry_case, struct tally *tally)
{
    if (!retry_case->has_closing)
        return true;
    feed(retry_case, &with, &retry_case->attempt, &retry_case->following, &retry_case->closing);
    feed(retry_case, &without, NULL, &retry_case->following, &retry_case->closing);
    if (!same_replies() || !expect(has_entered(retry_case, &without), "the totals that should stand are taken"))
        return false;
    tally->closed[retry_case->is_dm648]++;
    tally->counted += retry_case->is_dm648 && has_section(&retry_case->attempted);
    feed(retry_case, &with, &retry_case->attempt, &retry_case->following, &retry_case->wrong_closing);
    feed(retry_case, &without, NULL, &retry_case->following, &retry_case->wrong_closing);
    return same_replies() &&
           expect(refusal_of(&without) == (retry_case->is_dm648 ? 17 : 0), "wrong totals are 17, for a DM648 only");
}

/* What is written after a Start-Over that is no attempt has the numbers from the mark before the Request on. */
static bool is_numbered_anew(const struct retry_case *retry_case, struct tally *tally)
{
    const struct loaded *loaded = &retry_case->prefix.loaded;
    uint64_t seen = 0;

    if (!numbers_as_expected(retry_case, &with, loaded->kept.commands + 1, &seen))
        return false;
    tally->traced_by_number += seen > 0 && loaded->kept.commands != loaded->now.commands;
    return true;
}

/* A Start-Over alone directly after a Request takes back what stands before that Request. A DM648 shows it where there
   is any: the totals that should stand are 17. The numbers show it in either dialect. */
static bool traces_where_it_should(struct retry_case *retry_case, struct tally *tally)
{
    static struct writer start_over;
    const struct loaded *loaded = &retry_case->prefix.loaded;
    bool is_traced = retry_case->is_dm648 && loaded->now.sections != loaded->kept.sections;

    if (!retry_case->has_closing || retry_case->beginning != AFTER_REQUEST)
        return true;
    begin_part(retry_case, &start_over, 8, NULL);
    write_switch(&start_over, OPCODE_START_OVER);
    feed(retry_case, &with, &start_over, &retry_case->following, &retry_case->closing);
    feed(retry_case, &without, NULL, &retry_case->following, &retry_case->closing);
    tally->no_attempt++;
    tally->traced += is_traced;
    return is_numbered_anew(retry_case, tally) &&
           expect(memcmp(with.memory, without.memory, retry_case->memory_length) == 0, "memory has no trace of it") &&
           expect(has_entered(retry_case, &without), "without it the totals are taken") &&
           expect(refusal_of(&with) == (is_traced ? 17 : 0), "with it they are 17 where sections were taken back");
}

/* Chooses a bit that the attempt wrote, or changed; false where there is none. */
static bool choose_bit(const struct retry_case *retry_case, struct random_source *random, size_t *offset,
                       unsigned *bit)
{
    bool is_changed = chance(random, 85);
    size_t length = retry_case->memory_length, begin = random_below(random, (uint32_t)length);

    for (size_t tried = 0; tried < length; tried++) {
        size_t index = (begin + tried) % length;
        uint8_t bits = retry_case->attempt_bits[index];
        bits &= is_changed ? before.memory[index] ^ after.memory[index] : 0xFF;
        if (bits == 0)
            continue;
        *offset = index;
        do
            *bit = random_below(random, 8);
        while ((bits >> *bit & 1) == 0);
        return true;
    }
    return false;
}

static void count_uncovered(const struct retry_case *retry_case, struct tally *tally, const uint8_t *rewritten,
                            bool is_seen)
{
    unsigned left_out = 0;

    for (size_t index = 0; index < retry_case->memory_length; index++)
        for (unsigned bits = retry_case->attempt_bits[index] & ~rewritten[index]; bits != 0; bits &= bits - 1)
            left_out++;
    tally->uncovered++;
    tally->uncovered_single += left_out == 1;
    tally->uncovered_seen += is_seen;
    tally->uncovered_same += !is_seen;
}

/* In the bits that the commands after the attempt don't write, numbers may differ, and in no others. */
static bool numbers_differ_as_expected(const struct retry_case *retry_case, const uint8_t *rewritten, struct tally *tally)
{
    static uint8_t left_out[MEMORY_LIMIT];

    for (size_t index = 0; index < retry_case->memory_length; index++)
        left_out[index] = (uint8_t)(retry_case->attempt_bits[index] & ~rewritten[index]);
    tally->uncovered_number += retry_case->is_watched && memcmp(with.numbers, without.numbers,
                                                                retry_case->choice.length / 4 * 64) != 0;
    return same_numbers(retry_case, left_out);
}

/* The same attempt, followed by commands that leave one of its bits out. */
static bool leaves_the_uncovered_bit(struct retry_case *retry_case, struct tally *tally)
{
    static struct writer following;
    static struct commands commands;
    static uint8_t rewritten[MEMORY_LIMIT];
    size_t offset;
    unsigned bit;
    bool was_changed, is_seen;

    begin_part(retry_case, &following, 5, NULL);
    if (!choose_bit(retry_case, &following.random, &offset, &bit))
        return true;
    commands.count = 0;
    for (unsigned index = 0; index < retry_case->repeated.count; index++)
        add_without_bit(&commands, &following.random, &retry_case->map, &retry_case->repeated.list[index],
                        address_of(&retry_case->map, offset), bit);
    write_commands(&following, &commands);
    collect_bits(&retry_case->map, &commands, rewritten, retry_case->memory_length);
    feed(retry_case, &with, &retry_case->attempt, &following, NULL);
    feed(retry_case, &without, NULL, &following, NULL);
    was_changed = ((before.memory[offset] ^ after.memory[offset]) >> bit & 1) != 0;
    is_seen = ((with.memory[offset] ^ without.memory[offset]) >> bit & 1) != 0;
    count_uncovered(retry_case, tally, rewritten, is_seen);
    return expect((rewritten[offset] >> bit & 1) == 0, "the bit is left out") &&
           expect(refusal_of(&with) == 0, "the commands that leave a bit out are accepted") && same_replies() &&
           expect(is_seen == was_changed, "the bit left out differs just when the attempt changed it") &&
           differs_as_expected(retry_case, rewritten) && numbers_differ_as_expected(retry_case, rewritten, tally);
}

/* ---- The whole run ---- */

static void print_tally(const struct tally *tally)
{
    static const char *const names[] = {"the start unit", "an Enable", "a Request", "a Start-Over",
                                        "one, and no section"};
    static const char *const kinds[] = {"loads", "fills", "settings"};

    for (unsigned index = 0; index < BEGINNINGS; index++)
        printf("begun after %-27s%10" PRIu64 "\n", names[index], tally->beginnings[index]);
    for (unsigned index = 0; index < IN_A_ROW_LIMIT; index++)
        printf("cases with %u in a row%18s%10" PRIu64 "\n", index + 1, "", tally->in_a_row[index]);
    printf("%-39s%10" PRIu64 "\n", "cases by halves, the others by bytes", tally->by_halves);
    printf("%-39s%10" PRIu64 "\n", "cases on a DM648, the others AM17xx", tally->for_dm648);
    printf("%-39s%10" PRIu64 "\n", "cases with words chosen", tally->watched);
    printf("%-39s%10" PRIu64 "\n", "  bits whose number is as expected", tally->numbered);
    printf("%-39s%10" PRIu64 "\n", "cases with the checksum on", tally->checked);
    printf("%-39s%10" PRIu64 "\n", "cases with no command in any attempt", tally->empty);
    printf("%-39s%10" PRIu64 "\n", "cases with a Request in an attempt", tally->with_request);
    for (unsigned kind = 0; kind < KINDS; kind++)
        printf("%-9saccepted over a seam           %10" PRIu64 "\n", kinds[kind], tally->over_seam[kind]);
    printf("%-39s%10" PRIu64 "\n", "cases whose attempts changed memory", tally->changed);
    printf("%-39s%10" PRIu64 "\n", "continuations refused", tally->refused);
    printf("%-39s%10" PRIu64 "\n", "cases with a bit left uncovered", tally->uncovered);
    printf("%-39s%10" PRIu64 "\n", "  exactly one", tally->uncovered_single);
    printf("%-39s%10" PRIu64 "\n", "  changed, and the difference seen", tally->uncovered_seen);
    printf("%-39s%10" PRIu64 "\n", "  written as it was, and no difference", tally->uncovered_same);
    printf("%-39s%10" PRIu64 "\n", "  with an attempt's number in it", tally->uncovered_number);
    printf("%-39s%10" PRIu64 "\n", "closed and entered, AM17xx", tally->closed[0]);
    printf("%-39s%10" PRIu64 "\n", "closed and entered, DM648", tally->closed[1]);
    printf("%-39s%10" PRIu64 "\n", "  with sections in an attempt", tally->counted);
    printf("%-39s%10" PRIu64 "\n", "a Start-Over alone after a Request", tally->no_attempt);
    printf("%-39s%10" PRIu64 "\n", "  and its trace seen in the totals", tally->traced);
    printf("%-39s%10" PRIu64 "\n", "  and in the numbers", tally->traced_by_number);
}

/* Every beginning, one to four attempts in a row, every kind over a seam, a difference seen in a tenth of the cases,
   totals that an attempt could have spoilt in another tenth, and traces of what is no attempt in the totals and in the
   numbers. */
static bool enough_met(const struct tally *tally, uint64_t count)
{
    bool is_met = tally->by_halves > 0 && tally->for_dm648 > 0 && tally->empty > 0 && tally->with_request > 0;

    is_met &= tally->uncovered_seen >= count / 10 && tally->closed[0] >= count / 10;
    is_met &= tally->numbered > count && tally->uncovered_number >= count / 50 && tally->traced_by_number >= count / 100;
    is_met &= tally->counted >= count / 10 && tally->traced >= count / 50 && tally->no_attempt > tally->traced;
    for (unsigned index = 0; index < BEGINNINGS; index++)
        is_met &= tally->beginnings[index] > 0;
    for (unsigned index = 0; index < IN_A_ROW_LIMIT; index++)
        is_met &= tally->in_a_row[index] >= count / 50;
    for (unsigned kind = 0; kind < KINDS; kind++)
        is_met &= tally->over_seam[kind] > 0;
    return is_met;
}

int main(int argument_count, char **arguments)
{
    static struct retry_case retry_case;
    static struct tally tally;
    uint64_t count = argument_count > 1 ? strtoull(arguments[1], NULL, 0) : 50000;
    uint64_t seed = argument_count > 2 ? strtoull(arguments[2], NULL, 0) : 1;
    uint64_t first = argument_count > 3 ? strtoull(arguments[3], NULL, 0) : 0;
    clock_t begin = clock();

    for (uint64_t number = first; number < first + count; number++) {
        make_retry_case(&retry_case, seed, number);
        if (!leaves_no_trace(&retry_case, &tally) || !closes_as_expected(&retry_case, &tally) ||
            !leaves_the_uncovered_bit(&retry_case, &tally) || !traces_where_it_should(&retry_case, &tally)) {
            printf("FAILURE: to see it again: retries 1 %" PRIu64 " %" PRIu64 "\n", seed, number);
            return 1;
        }
    }
    print_tally(&tally);
    printf("\n%" PRIu64 " cases of seed %" PRIu64 " in %.1f seconds, no failure\n", count, seed,
           (double)(clock() - begin) / CLOCKS_PER_SEC);
    if (argument_count <= 3 && !enough_met(&tally, count)) {
        printf("not enough was met\n");
        return 1;
    }
    return 0;
}
