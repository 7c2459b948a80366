/* A panel to be built against the installed files: for 01's plant on standard input, the version, the tanks' place and the answers to 01's first
 * five requests. */
#include <permits.h>
#include <stdio.h>

static const uint8_t requests[] = {
    PERMITS_START, 0, 0, 0,            0, /* no level is set */
    PERMITS_SET,   0, 0, 0,            1,
    PERMITS_SET,   0, 0, 1,            3,
    PERMITS_START, 0, 0, 0,            0,
    PERMITS_GATE,  0, 0, PERMITS_DRAW, 0,
};

enum { COUNT = sizeof requests / 5 };

int main(void)
{
    uint8_t plant[4096];
    uint8_t out[PERMITS_ROOM(COUNT)];
    size_t length = fread(plant, 1, sizeof plant, stdin);
    permits_place tanks = permits_section(plant, length, PERMITS_TANKS);

    if (permits_batch(plant, length, requests, sizeof requests, out, sizeof out) != PERMITS_ACCEPTED)
        return 1;
    printf("%s, tanks at %zu, %zu bytes, answers", PERMITS_VERSION, tanks.begin, tanks.length);
    for (unsigned i = 0; i < COUNT; i++)
        printf(" %u", out[i]);
    printf("\n");
    return 0;
}
