/* 01's session on a console: the record is kept here and lent to each call. The first five requests are calls, the
 * others one queue; then every gate is asked for the rights held.
 *
 *     gcc -std=c11 -Iinclude examples/console.c crates/console/out/libconsole.a -o console
 *     ./console examples/session.plant
 */
#include "permits.h"

#include <stdio.h>
#include <stdlib.h>

static const permits_request rest[] = {
    {PERMITS_SET, 0, 0, 0, 2},             /* a level set during the task is for the next start */
    {PERMITS_GATE, 0, 1, PERMITS_DRAW, 0}, /* skid 0, tank 1 */
    {PERMITS_START, 0, 1, 0, 0},           /* refused, skid 0 runs task 0 */
    {PERMITS_STOP, 1, 0, 0, 0},            /* skid 1 runs nothing */
    {PERMITS_START, 1, 0, 0, 0},           /* refused, skid 1 may not run task 0 */
};

enum { REST = sizeof rest / sizeof rest[0] };

/* The rights held, as a gate for each of them would ask. */
static permits_request held[192];
static unsigned held_count;

/* Ends the program with the number's text where it is a refusal. */
static void must_accept(const char *what, uint8_t number)
{
    if (number != PERMITS_ACCEPTED) {
        fprintf(stderr, "%s refused with %u: %s\n", what, number, permits_text(number));
        exit(1);
    }
}

/* Reads the file into the bytes and returns its length; ends the program where that cannot be. */
static size_t read_file(const char *name, uint8_t *bytes, size_t room)
{
    FILE *file = fopen(name, "rb");
    size_t length = file == NULL ? 0 : fread(bytes, 1, room, file);

    if (file == NULL || ferror(file)) {
        perror(name);
        exit(1);
    }
    if (fgetc(file) != EOF) {
        fprintf(stderr, "%s: longer than %zu bytes\n", name, room);
        exit(1);
    }
    fclose(file);
    return length;
}

static void ask_tank(permits_monitor *m, uint8_t skid, uint8_t tank)
{
    for (uint8_t right = PERMITS_DRAW; right <= PERMITS_SAMPLE; right++)
        if (permits_gate(m, skid, tank, right) == PERMITS_ACCEPTED)
            held[held_count++] = (permits_request){PERMITS_GATE, skid, tank, right, 0};
}

static void ask_skid(permits_monitor *m, uint8_t skid)
{
    for (uint8_t tank = 0; tank < m->plant.tanks; tank++)
        ask_tank(m, skid, tank);
}

static void ask_all(permits_monitor *m)
{
    for (uint8_t skid = 0; skid < m->plant.skids; skid++)
        ask_skid(m, skid);
}

static void print_held(void)
{
    printf("held %u\n", held_count);
    for (unsigned i = 0; i < held_count; i++)
        printf("%u %u %u\n", held[i].a, held[i].b, held[i].c);
}

int main(int argc, char **argv)
{
    static uint8_t file[4096];
    static permits_monitor m;
    uint8_t answers[REST];

    if (argc != 2) {
        fputs("usage: console PLANT\n", stderr);
        return 1;
    }
    size_t length = read_file(argv[1], file, sizeof file);
    must_accept(argv[1], permits_open(&m, file, length));
    printf("1 %u\n", permits_start(&m, 0, 0));
    printf("2 %u\n", permits_set(&m, 0, 0, 0, 1));
    printf("3 %u\n", permits_set(&m, 0, 0, 1, 3));
    printf("4 %u\n", permits_start(&m, 0, 0));
    printf("5 %u\n", permits_gate(&m, 0, 0, PERMITS_DRAW));
    must_accept("the queue", permits_queue(&m, rest, REST, answers, sizeof answers));
    for (unsigned i = 0; i < REST; i++)
        printf("%u %u\n", 6 + i, answers[i]);
    ask_all(&m);
    print_held();
    return 0;
}
