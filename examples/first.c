/* A first console: opens the plant on standard input, sets two levels, starts a task and prints the tanks it got. */
#include "permits.h"
#include <stdio.h>

static uint8_t show(const char *call, uint8_t answer)
{
    printf("%s: %u, %s\n", call, answer, permits_text(answer));
    return answer;
}

int main(void)
{
    static uint8_t file[4097]; /* one byte more than a plant may have: what is longer is then refused */
    static permits_monitor m;
    const uint8_t skid = 0, task = 0;

    size_t length = fread(file, 1, sizeof file, stdin);
    if (show("open", permits_open(&m, file, length)) != PERMITS_ACCEPTED)
        return 1;
    show("requirement 0 at level 1", permits_set(&m, skid, task, 0, 1));
    show("requirement 1 at level 3", permits_set(&m, skid, task, 1, 3));
    show("start", permits_start(&m, skid, task));
    for (unsigned group = 0; group < m.plant.groups; group++) {
        uint8_t tank = m.chosen[8 * skid + group];
        if (tank != PERMITS_NONE) {
            uint8_t answer = permits_gate(&m, skid, tank, PERMITS_DRAW);
            printf("group %u: tank %u, %s\n", group, tank, answer == PERMITS_ACCEPTED ? "may draw" : "may not draw");
        }
    }
    return 0;
}
