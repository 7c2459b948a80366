/* Monitors for the console's tests, field by field from 01: what opening makes of the plants in plants.h. */
#ifndef TESTS_RECORDS_H
#define TESTS_RECORDS_H

#include "permits.h"

#include <string.h>

/* The plant with every level, running task and chosen tank at 255. */
static inline permits_monitor fresh_of(permits_plant p)
{
    permits_monitor m = {.plant = p};

    memset(m.levels, 255, sizeof m.levels);
    memset(m.running, 255, sizeof m.running);
    memset(m.chosen, 255, sizeof m.chosen);
    return m;
}

/* The fresh monitor of 01's plant. Entries past the counts are zero. */
static inline permits_monitor fresh(void)
{
    return fresh_of((permits_plant){
        .lattices = 2,
        .requirements = 2,
        .groups = 2,
        .tanks = 4,
        .tasks = 2,
        .skids = 2,
        .lattice_sizes = {3, 4},
        .lattice_sets = {7, 6, 4, [16] = 15, 10, 12, 8},
        .requirement_lattice = {0, 1},
        .group_requirement = {0, 1},
        .tank_group = {0, 0, 1, 1},
        .tank_level = {0, 2, 1, 2},
        .task_requirements = {3, 1},
        .task_rights = {1, 5, [8] = 2, 0},
        .skid_tasks = {3, 2},
    });
}

/* The fresh monitor of the full plant. */
static inline permits_monitor fresh_full(void)
{
    return fresh_of((permits_plant){
        .lattices = 1,
        .requirements = 1,
        .groups = 8,
        .tanks = 8,
        .tasks = 1,
        .skids = 8,
        .lattice_sizes = {1},
        .lattice_sets = {1},
        .tank_group = {0, 1, 2, 3, 4, 5, 6, 7},
        .task_requirements = {1},
        .task_rights = {7, 7, 7, 7, 7, 7, 7, 7},
        .skid_tasks = {1, 1, 1, 1, 1, 1, 1, 1},
    });
}

#endif
