/* A bench rig: feeds a script file to the loader in sent mode and prints what comes back.

   bench_rig [--halves] [--dm648] SCRIPT_FILE [FIRST LENGTH RIGHTS]...
   With --halves the file goes by the 16-bit line, two bytes a half, the low one first. With --dm648 it is in the
   dialect of the DM648 boards, whose Jump & Close has two totals.
   Without windows the map is one window of 4,096 bytes at 0x80000000 with all rights. Memory begins as zeros.
   The status is 0 when nothing was refused, 1 when something was, 2 when the rig could not run. */
#include "ais.h"

#include <inttypes.h>
#include <stdbool.h>
#include <stdio.h>
#include <stdlib.h>
#include <string.h>

enum { WINDOW_BYTES = 12, MEMORY_LIMIT = 65536, GREETING_LENGTH = 6 };

struct stretch {
    uint8_t *bytes;
    size_t length;
};

static void stop(const char *what)
{
    fprintf(stderr, "bench_rig: %s\n", what);
    exit(2);
}

static struct stretch make_stretch(size_t length)
{
    struct stretch stretch = {calloc(length + 1, 1), length};

    if (stretch.bytes == NULL)
        stop("no memory left");
    return stretch;
}

static struct stretch read_file(const char *name)
{
    struct stretch script = make_stretch(0);
    FILE *file = fopen(name, "rb");
    int byte;

    if (file == NULL)
        stop("can't open the script file");
    while ((byte = getc(file)) != EOF) {
        if ((script.length & (script.length - 1)) == 0)
            script.bytes = realloc(script.bytes, 2 * script.length + 1);
        if (script.bytes == NULL)
            stop("no memory left");
        script.bytes[script.length++] = (uint8_t)byte;
    }
    if (ferror(file))
        stop("can't read the script file");
    fclose(file);
    return script;
}

static uint32_t read_number(const char *text)
{
    char *rest;
    unsigned long long number = strtoull(text, &rest, 0);

    if (*text == '\0' || *text == '-' || *rest != '\0' || number > UINT32_MAX)
        stop("first, length and rights are numbers of at most 32 bits");
    return (uint32_t)number;
}

static uint32_t map_word(const struct stretch *map, size_t place)
{
    uint32_t word = 0;

    for (unsigned index = 0; index < 4; index++)
        word |= (uint32_t)map->bytes[place + index] << (8 * index);
    return word;
}

static struct stretch read_map(char **arguments, int count)
{
    static char *standard[] = {"0x80000000", "4096", "7"};
    struct stretch map;

    if (count == 0) {
        arguments = standard;
        count = 3;
    }
    if (count % 3 != 0)
        stop("a window is three numbers: first, length, rights");
    map = make_stretch((size_t)count * 4);
    for (int index = 0; index < count; index++) {
        uint32_t word = read_number(arguments[index]);
        for (int part = 0; part < 4; part++)
            map.bytes[4 * index + part] = (uint8_t)(word >> (8 * part));
    }
    return map;
}

/* Memory for all windows. A map that asks for too much is left for the loader to refuse. */
static struct stretch make_memory(const struct stretch *map)
{
    uint64_t sum = 0;

    for (size_t place = 0; place < map->length; place += WINDOW_BYTES)
        sum += map_word(map, place + 4);
    return make_stretch(sum <= MEMORY_LIMIT ? (size_t)sum : 0);
}

static const char *refusal_text(uint32_t refusal)
{
    switch (refusal) {
    case 0: return "nothing was refused";
    case 1: return "the map is not allowed";
    case 2: return "the memory is not as long as the map says";
    case 6: return "unknown opcode, or not for this mode";
    case 7: return "the range is not granted";
    case 8: return "wrong type word";
    case 9: return "address or size is not a multiple of the unit";
    case 10: return "wrong entry address";
    case 14: return "the session had already ended";
    case 15: return "a Jump, which is retired: the script is too old";
    case 16: return "the data do not fit the field";
    case 17: return "the totals differ from what was loaded";
    case 18: return "too much was loaded for the totals";
    case 19: return "too many bytes or halves, half a half, or too little room for replies";
    default: return "a refusal that sent mode does not have";
    }
}

static void print_replies(const uint8_t *replies, size_t count)
{
    printf("replies (%zu bytes):", count);
    for (size_t index = 0; index < count; index++)
        printf("%s%02X", index % 16 == 0 ? "\n  " : " ", replies[index]);
    printf("\n");
}

/* Prints the changed bytes of one window, each run of them behind its first address. */
static size_t print_changes(uint32_t first, const uint8_t *memory, size_t length)
{
    size_t changed = 0, in_line = 0;

    for (size_t index = 0; index < length; index++) {
        if (memory[index] == 0) {
            in_line = 0;
            continue;
        }
        if (in_line++ % 16 == 0)
            printf("\n  0x%08" PRIX32 ":", first + (uint32_t)index);
        printf(" %02X", memory[index]);
        changed++;
    }
    return changed;
}

static void print_memory(const struct stretch *map, const struct stretch *memory)
{
    size_t changed = 0, place = 0;

    printf("memory that changed:");
    for (size_t window = 0; window < map->length && memory->length > 0; window += WINDOW_BYTES) {
        uint32_t length = map_word(map, window + 4);
        changed += print_changes(map_word(map, window), memory->bytes + place, length);
        place += length;
    }
    printf("%s\n", changed == 0 ? " none" : "");
}

/* What stands before the file. */
struct options {
    bool has_halves;
    bool is_dm648;
    int count;
};

static struct options read_options(char **arguments, int count)
{
    struct options options = {false, false, 0};

    for (; options.count < count; options.count++) {
        if (strcmp(arguments[options.count], "--halves") == 0)
            options.has_halves = true;
        else if (strcmp(arguments[options.count], "--dm648") == 0)
            options.is_dm648 = true;
        else
            break;
    }
    return options;
}

/* Room for all replies: on either line two bytes for each byte of the script, and the greeting. */
static uint64_t run_session(const struct options *options, const struct stretch *map, struct stretch *memory,
                            const struct stretch *script, struct stretch *room)
{
    if (options->is_dm648)
        return ais_dm648_session(options->has_halves, map->bytes, map->length, memory->bytes, memory->length,
                                 script->bytes, script->length, room->bytes, room->length);
    return (options->has_halves ? ais_half_session : ais_sent_session)(map->bytes, map->length, memory->bytes,
                                                                       memory->length, script->bytes, script->length,
                                                                       room->bytes, room->length);
}

int main(int argument_count, char **arguments)
{
    struct options options = read_options(arguments + 1, argument_count - 1);
    struct stretch script, map, memory, room;
    uint64_t value;

    arguments += options.count;
    argument_count -= options.count;
    if (argument_count < 2)
        stop("give a script file, and perhaps windows: first length rights");
    script = read_file(arguments[1]);
    map = read_map(arguments + 2, argument_count - 2);
    memory = make_memory(&map);
    room = make_stretch(GREETING_LENGTH + 2 * script.length);
    value = run_session(&options, &map, &memory, &script, &room);
    print_replies(room.bytes, (uint32_t)value);
    printf("refusal: %" PRIu32 ", %s\n", (uint32_t)(value >> 32), refusal_text((uint32_t)(value >> 32)));
    print_memory(&map, &memory);
    free(script.bytes);
    free(map.bytes);
    free(memory.bytes);
    free(room.bytes);
    return value >> 32 == 0 ? 0 : 1;
}
