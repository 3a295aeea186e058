/* Guards around the bytes that a call is lent, and around the calls: what is said where one brings the program down, or never comes back. */
#ifndef GUARDS_H
#define GUARDS_H

#include <stdbool.h>
#include <stddef.h>
#include <stdint.h>

enum { GUARD = 17 };

/* A copy of some bytes for one call, with guards before and after it. */
struct lent {
    uint8_t *whole;
    uint8_t *bytes;
    size_t length;
    size_t guard;
};

struct lent lend(size_t length, size_t guard);
struct lent lend_copy(const uint8_t *bytes, size_t length, size_t guard);
bool guards_hold(const struct lent *lent);

/* Whether the first bytes of the two, as many as the proved side was lent, are the same; says where they are not. */
bool same_bytes(const char *name, const struct lent *proved, const struct lent *plain);

/* Once for the whole program; then a crash, or a case that takes too long, ends it with status 1 and the number of the case. */
void guard_calls(void);
void begin_case(uint64_t seed, uint64_t number);
void end_case(void);

#endif
