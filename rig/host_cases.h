/* Cases for a host: an image, a map and a memory, and what host and loader are opened with; and what a call is lent of one. */
#ifndef HOST_CASES_H
#define HOST_CASES_H

#include "cases.h"
#include "guards.h"

enum { LEAST_TRIES = 1, MOST_TRIES = 1000, MOST_RETRIES = 255 };
enum { BAD_CALL = 19, NO_ANSWER = 20 };

struct host_case {
    struct bench_case bench;
    uint32_t tries;
    uint32_t pings;
};

/* Makes the case of this seed and number, by bytes and by halves in turns, two for the AM17xx and two for the DM648. The salt tells the cases of one
   comparison from those of another. */
void make_host_case(struct host_case *host_case, uint64_t seed, uint64_t number, uint64_t salt);
void print_host_case(const struct host_case *host_case);

/* What a call was lent, and what it gave back. */
struct outcome {
    struct lent map;
    struct lent memory;
    struct lent image;
    uint64_t value;
};

struct outcome lend_case(const struct host_case *host_case, size_t guard);
void free_outcome(struct outcome *outcome);

/* Whether what was lent to be read, and the guards around everything, are as they were. */
bool nothing_else_changed(const struct host_case *host_case, const struct outcome *outcome);

/* Whether the host was opened, by the value of the exchange, so that something was sent or at least looked for. */
bool was_begun(const struct host_case *host_case, uint64_t value);

/* Whether the proved side gives the value of the plain one; says so where it does not. */
bool same_value(const char *name, uint64_t proved, uint64_t plain);

#endif
