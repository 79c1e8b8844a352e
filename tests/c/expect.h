/* What a test expects: each check is counted, and each that fails is told, with what it is about and its line. */
#ifndef EXPECT_H
#define EXPECT_H

#include <stdio.h>

static long checks = 0;
static long wrong = 0;
static const char *about = "";

static void expect(int holds, const char *what, long line)
{
    checks++;
    if (!holds) {
        wrong++;
        printf("wrong: %s%s%s (%ld)\n", about, *about == 0 ? "" : ": ", what, line);
    }
}

#define EXPECT(condition) expect((condition) ? 1 : 0, #condition, (long)__LINE__)

/* The last line of a test, and its exit status. */
static int told(void)
{
    printf("%ld checks, %ld wrong\n", checks, wrong);
    return wrong == 0 ? 0 : 1;
}

#endif
