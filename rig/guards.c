#include "guards.h"

#include <inttypes.h>
#include <signal.h>
#include <stdio.h>
#include <stdlib.h>
#include <string.h>
#include <unistd.h>

/* A case that takes longer has no end. The longest takes some 14 seconds of processor time under an emulator. */
enum { CASE_SECONDS = 300 };

static char crash_notice[100];

struct lent lend(size_t length, size_t guard)
{
    struct lent lent = {.length = length, .guard = guard};

    lent.whole = malloc(length + 2 * guard + (length + guard == 0));
    if (lent.whole == NULL) {
        fprintf(stderr, "no memory left\n");
        exit(2);
    }
    lent.bytes = lent.whole + guard;
    memset(lent.whole, 0xA5, guard);
    memset(lent.bytes + length, 0xA5, guard);
    return lent;
}

struct lent lend_copy(const uint8_t *bytes, size_t length, size_t guard)
{
    struct lent lent = lend(length, guard);

    memcpy(lent.bytes, bytes, length);
    return lent;
}

bool guards_hold(const struct lent *lent)
{
    for (size_t index = 0; index < lent->guard; index++)
        if (lent->whole[index] != 0xA5 || lent->bytes[lent->length + index] != 0xA5)
            return false;
    return true;
}

bool same_bytes(const char *name, const struct lent *proved, const struct lent *plain)
{
    for (size_t index = 0; index < proved->length; index++) {
        if (proved->bytes[index] != plain->bytes[index]) {
            printf("%s differs at byte %zu: proved %02X, plain %02X\n", name, index, proved->bytes[index],
                   plain->bytes[index]);
            return false;
        }
    }
    return true;
}

/* Says which case it was when a call brings the program down, or never comes back. */
static void on_crash(int signal_number)
{
    (void)signal_number;
    _exit(write(STDOUT_FILENO, crash_notice, strlen(crash_notice)) < 0 ? 2 : 1);
}

void guard_calls(void)
{
    static const int crashes[] = {SIGSEGV, SIGBUS, SIGABRT, SIGILL, SIGFPE, SIGALRM};

    for (size_t index = 0; index < sizeof crashes / sizeof crashes[0]; index++)
        signal(crashes[index], on_crash);
}

void begin_case(uint64_t seed, uint64_t number)
{
    snprintf(crash_notice, sizeof crash_notice, "CRASH, or no end: seed %" PRIu64 ", case %" PRIu64 "\n", seed, number);
    alarm(CASE_SECONDS);
}

void end_case(void)
{
    alarm(0);
}
