// The header from C++: the console's functions link and answer. A record of zeros is refused by every call.
#include "permits.h"

int main()
{
    static permits_monitor m;
    const permits_request stop = {PERMITS_STOP, 0, 0, 0, 0};
    const uint8_t file[1] = {1};
    uint8_t answer = PERMITS_ACCEPTED;

    bool refused = permits_open(&m, file, sizeof file) == PERMITS_WRONG_LENGTH;
    refused = refused && permits_set(&m, 0, 0, 0, 0) == PERMITS_MONITOR_NOT_INTACT;
    refused = refused && permits_start(&m, 0, 0) == PERMITS_MONITOR_NOT_INTACT;
    refused = refused && permits_stop(&m, 0) == PERMITS_MONITOR_NOT_INTACT;
    refused = refused && permits_gate(&m, 0, 0, PERMITS_DRAW) == PERMITS_MONITOR_NOT_INTACT;
    refused = refused && permits_queue(&m, &stop, 1, &answer, 1) == PERMITS_MONITOR_NOT_INTACT;
    return refused && answer == PERMITS_ACCEPTED ? 0 : 1;
}
