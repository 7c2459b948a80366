/* A console to be built against the installed files: for 01's plant on standard input, the version, the count of tanks and the answers to 01's first
 * five requests, one of them by a call and the others by a queue. */
#include <permits.h>
#include <stdio.h>

static const permits_request requests[] = {
    {PERMITS_SET, 0, 0, 0, 1},
    {PERMITS_SET, 0, 0, 1, 3},
    {PERMITS_START, 0, 0, 0, 0},
    {PERMITS_GATE, 0, 0, PERMITS_DRAW, 0},
};

enum { COUNT = sizeof requests / sizeof requests[0] };

int main(void)
{
    static permits_monitor m;
    uint8_t plant[4096];
    uint8_t answers[COUNT];
    size_t length = fread(plant, 1, sizeof plant, stdin);

    if (permits_open(&m, plant, length) != PERMITS_ACCEPTED)
        return 1;
    printf("%s, %u tanks, answers %u", PERMITS_VERSION, m.plant.tanks, permits_start(&m, 0, 0));
    if (permits_queue(&m, requests, COUNT, answers, sizeof answers) != PERMITS_ACCEPTED)
        return 1;
    for (unsigned i = 0; i < COUNT; i++)
        printf(" %u", answers[i]);
    printf("\n");
    return 0;
}
