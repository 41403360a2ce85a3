/* check.h: a test that says what failed and goes on; passed() is what main returns. */
#ifndef CHECK_H
#define CHECK_H

#include <stdio.h>

static int checks_made, checks_failed;

#define CHECK(condition) check((condition) != 0, #condition, "", __FILE__, __LINE__)
#define CHECK_AT(condition, what) check((condition) != 0, #condition, what, __FILE__, __LINE__)

static inline void check(int holds, const char *condition, const char *what, const char *file, int line) {
    checks_made++;
    if (holds) return;
    checks_failed++;
    fprintf(stderr, "%s:%d: failed: %s %s\n", file, line, condition, what);
}

static inline int passed(const char *name) {
    printf("%s: %d checks, %d failed\n", name, checks_made, checks_failed);
    return checks_failed == 0 ? 0 : 1;
}

#endif
