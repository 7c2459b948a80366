/* What the C tests run on, written from 01: its plant, requests and answers, the plant broken once for each number that
 * refuses a file, and a plant of which all 192 rights can be held. Answers are 01's numbers; numbers.c holds the names
 * of include/permits.h to them. */
#ifndef TESTS_PLANTS_H
#define TESTS_PLANTS_H

#include <stdint.h>
#include <string.h>

/* The plant of 01's session, byte by byte from the paper. Unmentioned bytes are zero. */
static const uint8_t plant[132] = {
    1,                          /* edition */
    2, 2, 2, 4, 2, 2, 0,        /* how many lattices, requirements, groups, tanks, tasks and skids; zero */
    24, 0, 92, 0, 96, 0,        /* where lattices, requirements and groups begin, low byte first */
    100, 0, 108, 0, 128, 0,     /* where tanks, tasks and skids begin */
    132, 0, 0, 0,               /* the file's length; zeros */
    [24] = 3, 0, 7, 0, 6, 0, 4, 0,         /* lattice 0: three levels, one above the other; their sets */
    [58] = 4, 0, 15, 0, 10, 0, 12, 0, 8, 0, /* lattice 1: a bottom, two levels side by side, a top */
    [92] = 0, 0, 1, 0,          /* requirement 0 is of lattice 0, requirement 1 of lattice 1 */
    [96] = 0, 0, 1, 0,          /* group 0 has requirement 0, group 1 requirement 1 */
    [100] = 0, 0, 0, 2,         /* tanks 0 and 1: of group 0, at levels 0 and 2 */
    [104] = 1, 1, 1, 2,         /* tanks 2 and 3: of group 1, at levels 1 and 2 */
    [108] = 3, 0, 1, 5,         /* task 0 names both requirements; draw on group 0, draw and sample on group 1 */
    [118] = 1, 0, 2, 0,         /* task 1 names requirement 0; return on group 0 */
    [128] = 3, 0, 2, 0,         /* skid 0 may run both tasks, skid 1 task 1 */
};

/* The requests of 01's session: kind and four bytes each. */
static const uint8_t session[50] = {
    1, 0, 0, 0, 0, /* start 0 0 */
    0, 0, 0, 0, 1, /* set 0 0 0 1 */
    0, 0, 0, 1, 3, /* set 0 0 1 3 */
    1, 0, 0, 0, 0, /* start 0 0 */
    3, 0, 0, 0, 0, /* gate 0 0 0 */
    0, 0, 0, 0, 2, /* set 0 0 0 2 */
    3, 0, 1, 0, 0, /* gate 0 1 0 */
    1, 0, 1, 0, 0, /* start 0 1 */
    2, 1, 0, 0, 0, /* stop 1 */
    1, 1, 0, 0, 0, /* start 1 0 */
};

/* Its ten answers, the count of rights held at its end, and skid, tank and right of each. */
static const uint8_t session_list[20] = {27, 0, 0, 0, 0, 0, 33, 26, 0, 25, 3, 0, 0, 0, 0, 2, 0, 0, 2, 2};

/* 01's plant with up to four bytes changed, and the number that refuses it. */
typedef struct broken {
    uint8_t number;
    struct { uint8_t at, value; } change[4];
    uint8_t changes;
    const char *what;
} broken;

static const broken broken_plants[] = {
    {1, {{20, 131}}, 1, "a length in the header that is not the file's"},
    {2, {{0, 2}}, 1, "edition 2"},
    {3, {{1, 0}}, 1, "no lattices"},
    {3, {{6, 9}}, 1, "nine skids"},
    {4, {{7, 1}}, 1, "byte 7 not zero"},
    {4, {{23, 1}}, 1, "byte 23 not zero"},
    {5, {{8, 23}}, 1, "a section that begins before 24"},
    {5, {{18, 129}}, 1, "a section that ends past the file"},
    {6, {{10, 91}}, 1, "two sections that share a byte"},
    {7, {{25, 1}}, 1, "byte 1 of a lattice not zero"},
    {7, {{24, 17}}, 1, "a lattice of 17 levels"},
    {8, {{26, 6}}, 1, "a level that is not at or under itself"},
    {9, {{60, 1}, {62, 2}, {64, 4}, {66, 8}}, 4, "an order of four levels without joins"},
    {10, {{93, 1}}, 1, "a zero byte of a requirement that isn't zero"},
    {10, {{103, 3}}, 1, "a tank at a level that its lattice has not"},
    {11, {{103, 0}}, 1, "two tanks of one group at one level"},
    {12, {{108, 1}}, 1, "a task with a right on a group whose requirement it doesn't name"},
};

enum { BROKEN = sizeof broken_plants / sizeof broken_plants[0] };

static inline void break_plant(const broken *b, uint8_t file[sizeof plant])
{
    memcpy(file, plant, sizeof plant);
    for (unsigned i = 0; i < b->changes; i++)
        file[b->change[i].at] = b->change[i].value;
}

/* One level, eight groups of one tank, one task with every right on every group, and eight skids that may run it. */
static const uint8_t full_plant[118] = {
    1, 1, 1, 8, 8, 1, 8, 0, /* edition and counts */
    24, 0, 58, 0, 60, 0, 76, 0, 92, 0, 102, 0, /* where the sections begin */
    118, 0, 0, 0,
    [24] = 1, 0, 1, 0, /* the lattice: its only set is 1 */
    [76] = 0, 0, 1, 0, 2, 0, 3, 0, 4, 0, 5, 0, 6, 0, 7, 0, /* tank g is of group g */
    [92] = 1, 0, 7, 7, 7, 7, 7, 7, 7, 7, /* the task */
    [102] = 1, 0, 1, 0, 1, 0, 1, 0, 1, 0, 1, 0, 1, 0, 1, 0, /* the skids */
};

#endif
