/* Memory for a test to lend, between two pages that nobody may touch. It lies flush with one of them, so that a read or
 * write outside it at that end faults; up to the other page stand guard bytes, which are compared. A test lends
 * everything on both sides. This is the first header to be included, since it asks libc for mmap. */
#ifndef TESTS_LENT_H
#define TESTS_LENT_H

#define _DEFAULT_SOURCE

#include "check.h"

#include <signal.h>
#include <stddef.h>
#include <stdlib.h>
#include <string.h>
#include <sys/mman.h>
#include <unistd.h>

/* What the guards are made of, and a buffer before something is written to it. */
enum { FILL = 0xA5 };

/* The end at which the lent bytes touch a page without access. */
typedef enum side { END, START, SIDES } side;

typedef struct lent {
    uint8_t *pages; /* those that may be touched, guards and lent bytes */
    size_t mapped;  /* how many bytes they have */
    uint8_t *bytes; /* what is lent */
} lent;

/* The bytes that a test hands over or expects. */
typedef struct part {
    const void *bytes;
    size_t length;
} part;

/* What is being checked, for the message of a fault. */
static const char *volatile under_test = "no check yet";

static inline void say(const char *text)
{
    if (write(STDOUT_FILENO, text, strlen(text)) < 0)
        _exit(2);
}

static inline void fault(int signal)
{
    (void)signal;
    say("failed: a read or write outside a lent buffer, in: ");
    say(under_test);
    say("\n");
    _exit(1);
}

/* From here on a fault ends the program with a message. */
static inline void catch_faults(void)
{
    signal(SIGSEGV, fault);
    signal(SIGBUS, fault);
}

static inline size_t page_size(void)
{
    return (size_t)sysconf(_SC_PAGESIZE);
}

/* Room for that many bytes, all FILL. There is always a guard byte at the other end. */
static inline lent lend_room(side side, size_t length)
{
    size_t page = page_size();
    size_t mapped = (length / page + 1) * page;
    uint8_t *all = mmap(NULL, mapped + 2 * page, PROT_NONE, MAP_PRIVATE | MAP_ANONYMOUS, -1, 0);

    if (all == MAP_FAILED || mprotect(all + page, mapped, PROT_READ | PROT_WRITE) != 0) {
        puts("no memory for a test");
        exit(2);
    }
    memset(all + page, FILL, mapped);
    return (lent){all + page, mapped, all + page + (side == END ? mapped - length : 0)};
}

static inline lent lend(side side, part p)
{
    lent l = lend_room(side, p.length);
    memcpy(l.bytes, p.bytes, p.length);
    return l;
}

static inline void give_back(lent l)
{
    munmap(l.pages - page_size(), l.mapped + 2 * page_size());
}

/* Of the pages as they should be: the lent bytes begin with the part, and everything else is FILL. The first byte that
 * is otherwise, or null. */
static inline const uint8_t *first_wrong(lent l, part p)
{
    const uint8_t *should = p.bytes;

    for (const uint8_t *at = l.pages; at < l.pages + l.mapped; at++) {
        int within = at >= l.bytes && (size_t)(at - l.bytes) < p.length;
        if (*at != (within ? should[at - l.bytes] : FILL))
            return at;
    }
    return NULL;
}

/* The lent bytes begin with the part, what is left of them is as lend_room made it, and the guards too. */
static inline void holds(lent l, part p, const char *what, const char *name)
{
    const uint8_t *wrong = first_wrong(l, p);
    check(wrong == NULL, "%s: byte %td of %s is not as it should be", what, wrong == NULL ? 0 : wrong - l.bytes, name);
}

#endif
