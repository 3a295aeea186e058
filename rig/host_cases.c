#include "host_cases.h"

#include <inttypes.h>
#include <stdio.h>
#include <stdlib.h>
#include <string.h>

enum { LARGE_EVERY = 2000, SHORT_IMAGE = 300 };

/* Mostly few, at times one of the last that are allowed. */
static uint32_t choose_tries(struct random_source *random, bool is_wrong)
{
    static const uint32_t wrong[] = {LEAST_TRIES - 1, MOST_TRIES + 1, MOST_TRIES + 2, 65536 + 1, 0x80000001, 0xFFFFFFFF};

    if (is_wrong)
        return PICK(random, wrong);
    if (chance(random, 1))
        return MOST_TRIES - (chance(random, 50) ? 0 : random_below(random, 3));
    return chance(random, 20) ? LEAST_TRIES : 2 + random_below(random, 5);
}

static uint8_t choose_limit(struct random_source *random, size_t image_length)
{
    return (uint8_t)(chance(random, 4) && image_length < SHORT_IMAGE ? MOST_RETRIES : random_below(random, 4));
}

static uint32_t choose_pings(struct random_source *random)
{
    return chance(random, 3) ? 40 : random_below(random, 6);
}

void make_host_case(struct host_case *host_case, uint64_t seed, uint64_t number, uint64_t salt)
{
    struct bench_case *bench = &host_case->bench;
    struct random_source random = random_from(seed ^ salt, number);
    bool has_halves = number % 2 != 0, is_dm648 = number / 2 % 2 != 0, is_large = random_below(&random, LARGE_EVERY) == 0;
    uint32_t wrong_percent = chance(&random, 3) ? 50 : 2; /* at times several things are wrong at once */

    bench->seed = seed;
    bench->number = number;
    bench->script.random = random_from(seed ^ salt ^ 0x484F5354494D4147, number);
    (is_large ? make_large_map : make_good_map)(&random, &bench->map);
    begin_script(&bench->script, &bench->map, true, has_halves, is_dm648);
    (is_large ? write_large_image : write_image)(&bench->script);
    if (chance(&random, wrong_percent))
        break_map(&random, &bench->map);
    bench->memory_length = choose_memory_length(&random, &bench->map, chance(&random, wrong_percent));
    bench->line = choose_number(&random, has_halves, chance(&random, wrong_percent));
    bench->dialect = choose_number(&random, is_dm648, chance(&random, wrong_percent));
    bench->limit = choose_limit(&random, bench->script.length);
    host_case->tries = choose_tries(&random, chance(&random, wrong_percent));
    host_case->pings = choose_pings(&random);
}

void print_host_case(const struct host_case *host_case)
{
    print_case(&host_case->bench);
    printf("line %u, dialect %u, %" PRIu32 " tries, %" PRIu32 " pings\n", host_case->bench.line, host_case->bench.dialect,
           host_case->tries, host_case->pings);
}

struct outcome lend_case(const struct host_case *host_case, size_t guard)
{
    const struct bench_case *bench = &host_case->bench;
    struct outcome outcome = {.map = lend_copy(bench->map.bytes, bench->map.length, guard),
                              .memory = lend(bench->memory_length, guard),
                              .image = lend_copy(bench->script.bytes, bench->script.length, guard)};

    fill_memory(bench, outcome.memory.bytes, outcome.memory.length);
    return outcome;
}

void free_outcome(struct outcome *outcome)
{
    free(outcome->map.whole);
    free(outcome->memory.whole);
    free(outcome->image.whole);
}

bool nothing_else_changed(const struct host_case *host_case, const struct outcome *outcome)
{
    const struct bench_case *bench = &host_case->bench;

    if (guards_hold(&outcome->map) && guards_hold(&outcome->memory) && guards_hold(&outcome->image) &&
        memcmp(outcome->map.bytes, bench->map.bytes, outcome->map.length) == 0 &&
        memcmp(outcome->image.bytes, bench->script.bytes, outcome->image.length) == 0)
        return true;
    printf("bytes were changed that were lent for reading, or not lent at all\n");
    return false;
}

bool same_value(const char *name, uint64_t proved, uint64_t plain)
{
    if (proved != plain)
        printf("%s differs: proved 0x%016" PRIX64 ", plain 0x%016" PRIX64 "\n", name, proved, plain);
    return proved == plain;
}

bool was_begun(const struct host_case *host_case, uint64_t value)
{
    unsigned refusal = value >> 56;

    return (refusal == 0 || refusal > 4) && refusal != BAD_CALL && host_case->tries >= LEAST_TRIES && host_case->tries <= MOST_TRIES;
}
