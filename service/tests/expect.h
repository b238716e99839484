/* What a test program does with a value that is not the one that was wanted. */
#ifndef EXPECT_H
#define EXPECT_H
#include <stdio.h>

static int failed;

#define EXPECT(what, wanted) expect(__FILE__, __LINE__, #what, (unsigned long long)(what), (unsigned long long)(wanted))
#define HOLDS(what) EXPECT(!!(what), 1)

static void expect(const char *file, int line, const char *what, unsigned long long got, unsigned long long wanted) {
    if (got == wanted) return;
    fprintf(stderr, "%s:%d: %s: wanted %llu, got %llu\n", file, line, what, wanted, got);
    failed++;
}
#endif
