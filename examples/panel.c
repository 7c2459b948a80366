/* A panel: one batch call on a file of requests, then its answers and the rights held.
 *
 *     gcc -std=c11 -Iinclude examples/panel.c crates/panel/out/libpanel.a -o panel
 *     ./panel examples/session.plant examples/session.requests
 */
#include "permits.h"

#include <stdio.h>
#include <stdlib.h>

enum { REQUESTS = 10000 };

/* Reads the file into the bytes and returns its length; ends the program where that cannot be. */
static size_t read_file(const char *name, uint8_t *bytes, size_t room)
{
    FILE *file = fopen(name, "rb");
    size_t length = file == NULL ? 0 : fread(bytes, 1, room, file);

    if (file == NULL || ferror(file)) {
        perror(name);
        exit(1);
    }
    if (fgetc(file) != EOF) {
        fprintf(stderr, "%s: longer than %zu bytes\n", name, room);
        exit(1);
    }
    fclose(file);
    return length;
}

static void print_answers(const uint8_t *answers, size_t count)
{
    for (size_t i = 0; i < count; i++)
        printf("%zu %u\n", i + 1, answers[i]);
}

/* The count, and then skid, tank and right of each right held. */
static void print_held(const uint8_t *held)
{
    printf("held %u\n", held[0]);
    for (size_t i = 0; i < held[0]; i++)
        printf("%u %u %u\n", held[3 * i + 1], held[3 * i + 2], held[3 * i + 3]);
}

int main(int argc, char **argv)
{
    static uint8_t plant[4096], requests[5 * REQUESTS], out[PERMITS_ROOM(REQUESTS)];

    if (argc != 3) {
        fputs("usage: panel PLANT REQUESTS\n", stderr);
        return 1;
    }
    size_t plant_length = read_file(argv[1], plant, sizeof plant);
    size_t requests_length = read_file(argv[2], requests, sizeof requests);
    uint8_t number = permits_batch(plant, plant_length, requests, requests_length, out, sizeof out);
    if (number != PERMITS_ACCEPTED) {
        fprintf(stderr, "refused with %u: %s\n", number, permits_text(number));
        return 1;
    }
    print_answers(out, requests_length / 5);
    print_held(out + requests_length / 5);
    return 0;
}
