/* That the shipped files of 01's session are the paper's bytes: session PLANT REQUESTS INPUT, where INPUT is the
 * program's standard input, the plant and then the requests. */
#include "check.h"
#include "plants.h"

#include <stdlib.h>

/* The bytes of the file, with one more where it is longer. */
static size_t read_file(const char *name, uint8_t *bytes, size_t room)
{
    FILE *file = fopen(name, "rb");

    if (file == NULL) {
        perror(name);
        exit(1);
    }
    size_t length = fread(bytes, 1, room, file);
    fclose(file);
    return length;
}

static void is(const char *name, const uint8_t *bytes, size_t length)
{
    uint8_t found[sizeof plant + sizeof session + 1];
    size_t n = read_file(name, found, length + 1);

    check(n == length, "%s has %zu bytes", name, length);
    check(n >= length && memcmp(found, bytes, length) == 0, "%s has 01's bytes", name);
}

int main(int argc, char **argv)
{
    uint8_t input[sizeof plant + sizeof session];

    if (argc != 4) {
        puts("usage: session PLANT REQUESTS INPUT");
        return 1;
    }
    memcpy(input, plant, sizeof plant);
    memcpy(input + sizeof plant, session, sizeof session);
    is(argv[1], plant, sizeof plant);
    is(argv[2], session, sizeof session);
    is(argv[3], input, sizeof input);
    return report();
}
