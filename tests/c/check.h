/* What the tests in C and C++ share: counted checks, and numbers that look random and are the same in every run. */
#ifndef TESTS_CHECK_H
#define TESTS_CHECK_H

#include <stdarg.h>
#include <stdint.h>
#include <stdio.h>

static unsigned passed, failed;

/* One check. The message says what should hold; it is printed only where it doesn't, and at once, since a later check
 * may end the program. */
__attribute__((format(printf, 2, 3))) static inline void check(int holds, const char *message, ...)
{
    if (holds) {
        passed++;
        return;
    }
    failed++;
    va_list values;
    va_start(values, message);
    fputs("failed: ", stdout);
    vprintf(message, values);
    putchar('\n');
    va_end(values);
    fflush(stdout);
}

/* The last line of a test, and its exit status. A test that checked nothing has failed. */
static inline int report(void)
{
    printf("%u passed, %u failed\n", passed, failed);
    return failed != 0 || passed == 0;
}

/* The next of a row of bytes (Marsaglia's xorshift). */
static inline uint8_t next_byte(void)
{
    static uint32_t x = 2463534242u;
    x ^= x << 13;
    x ^= x >> 17;
    x ^= x << 5;
    return (uint8_t)(x >> 16);
}

#endif
