/* That lent.h finds what it should: each read and write just outside a lent buffer, and none within it. */
#include "lent.h"

#include <sys/wait.h>

static const uint8_t zeros[4096];

/* In a child: reads or writes one byte, so many places from the first of the lent bytes. */
static void touch(side side, size_t length, ptrdiff_t place, int writes)
{
    lent l = lend(side, (part){zeros, length});
    volatile uint8_t *at = l.bytes + place;

    under_test = "a child";
    if (writes)
        *at = 1;
    else
        (void)*at;
    _exit(0);
}

/* The child's exit status, and what it said. */
static int touched(side side, size_t length, ptrdiff_t place, int writes, char text[100])
{
    int ends[2], status = -1;
    pid_t child = pipe(ends) == 0 ? fork() : -1;

    if (child < 0) {
        puts("no child for a test");
        exit(2);
    }
    if (child == 0) {
        dup2(ends[1], STDOUT_FILENO);
        touch(side, length, place, writes);
    }
    close(ends[1]);
    FILE *said = fdopen(ends[0], "r");
    text[fread(text, 1, 99, said)] = 0;
    fclose(said);
    waitpid(child, &status, 0);
    return WIFEXITED(status) ? WEXITSTATUS(status) : -1;
}

/* A read and a write of that byte end the child with the message of a fault. */
static void faults(side side, size_t length, ptrdiff_t place)
{
    for (int writes = 0; writes < 2; writes++) {
        char text[100];
        int status = touched(side, length, place, writes, text);
        check(status == 1 && strcmp(text, "failed: a read or write outside a lent buffer, in: a child\n") == 0,
            "byte %td of %zu lent bytes faults (side %d, writes %d): %d %s", place, length, side, writes, status, text);
    }
}

/* They end it with 0 and no message. */
static void fares(side side, size_t length, ptrdiff_t place)
{
    for (int writes = 0; writes < 2; writes++) {
        char text[100];
        int status = touched(side, length, place, writes, text);
        check(status == 0 && text[0] == 0, "byte %td of %zu lent bytes can be used (side %d, writes %d): %d %s", place,
            length, side, writes, status, text);
    }
}

static void lengths(void)
{
    static const size_t length[] = {1, 10, 131, 4095, 4096};

    for (size_t i = 0; i < sizeof length / sizeof length[0]; i++) {
        ptrdiff_t n = (ptrdiff_t)length[i];
        faults(END, length[i], n);
        faults(START, length[i], -1);
        fares(END, length[i], n - 1);
        fares(END, length[i], 0);
        fares(START, length[i], n - 1);
        fares(START, length[i], 0);
    }
    faults(END, 0, 0);
    faults(START, 0, -1);
}

/* A byte changed at that place is the first one that is wrong, and none is wrong before. */
static void found(side side, size_t length, ptrdiff_t place)
{
    part p = {zeros, length};
    lent l = lend(side, p);

    check(first_wrong(l, p) == NULL, "%zu bytes are as they were lent (side %d)", length, side);
    l.bytes[place] ^= 1;
    check(first_wrong(l, p) == l.bytes + place, "byte %td of %zu is found (side %d)", place, length, side);
    give_back(l);
}

static void guards(void)
{
    found(END, 10, -1);
    found(END, 10, 0);
    found(END, 10, 9);
    found(START, 10, 0);
    found(START, 10, 9);
    found(START, 10, 10);
    found(END, 0, -1);
    found(START, 0, 0);
    found(END, 4096, -1);
    found(START, 4096, 4096);
}

/* What is not written of a buffer is compared too. */
static void rests(void)
{
    for (side s = END; s < SIDES; s++) {
        lent l = lend_room(s, 10);
        memcpy(l.bytes, zeros, 4);
        check(first_wrong(l, (part){zeros, 4}) == NULL, "4 bytes written of 10");
        check(first_wrong(l, (part){zeros, 5}) == l.bytes + 4, "a byte that should be written is found");
        check(first_wrong(l, (part){zeros, 3}) == l.bytes + 3, "a byte that should not be written is found");
        give_back(l);
    }
}

int main(void)
{
    catch_faults();
    lengths();
    guards();
    rests();
    return report();
}
