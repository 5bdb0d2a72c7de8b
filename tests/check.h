/* CHECK(condition) says where a condition fails; check_result() is the exit status. */
#ifndef CHECK_H
#define CHECK_H

#include <stdio.h>

static unsigned long checks_made, checks_failed;

enum { MOST_COMPLAINTS = 20 };

static inline void check(int holds, const char *condition, const char *file, int line)
{
    checks_made++;
    if (holds)
        return;
    checks_failed++;
    if (checks_failed <= MOST_COMPLAINTS)
        fprintf(stderr, "%s:%d: does not hold: %s\n", file, line, condition);
}

#define CHECK(condition) check((condition) ? 1 : 0, #condition, __FILE__, __LINE__)

static inline int check_result(const char *name)
{
    printf("%s: %lu checks, %lu failed\n", name, checks_made, checks_failed);
    return checks_failed == 0 ? 0 : 1;
}

#endif
