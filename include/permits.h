/* The permit monitor for a panel or a console in C (C11) or C++ (C++11): the batch call, the section call, opening,
 * the four calls and the queue.
 *
 * A panel links libpanel.a and calls permits_batch and permits_section. A console links libconsole.a, keeps a record,
 * opens it with a plant file and makes its calls on it. `make` writes the archives to the folders out of crates/panel and
 * crates/console; installed, they are libpermits-panel.a and libpermits-console.a, which pkg-config knows as
 * permits-panel and permits-console.
 *
 * Any bytes can be handed over, as a file, as requests and as a record: every input has its answer, and no function
 * reads or writes outside what it is given. What C cannot check is the caller's part: a pointer is not null, also where
 * its length is 0; behind it lie as many bytes or records as its length says; the memory that a function writes
 * overlaps nothing else that it is given; and nobody else uses that memory during the call.
 */
#ifndef PERMITS_H
#define PERMITS_H

/* An older compiler would stumble over this header line by line: it gets one message, and the rest is left out. */
#if defined(__cplusplus) && __cplusplus < 201103L
#error "permits.h needs C++11: compile with -std=c++11 or later"
#elif !defined(__cplusplus) && (!defined(__STDC_VERSION__) || __STDC_VERSION__ < 201112L)
#error "permits.h needs C11: compile with -std=c11 or later"
#else

#include <assert.h>
#include <stddef.h>
#include <stdint.h>

/* The version of this header and of the archives built with it. It stands here alone: the build reads PERMITS_VERSION
 * from this file. While the major number is 0, names and layouts may still change; the minor number rises when they do
 * or when something is added, the patch number with every other release. From 1 on, the major number rises when a
 * caller's source or stored records no longer fit, the minor number when something is added, the patch number with every
 * other release. A number that rises sets those behind it to 0. */
#define PERMITS_VERSION_MAJOR 0
#define PERMITS_VERSION_MINOR 2
#define PERMITS_VERSION_PATCH 0
#define PERMITS_VERSION "0.2.0"

#ifdef __cplusplus
extern "C" {
#endif

/* What the functions return, and what a queue and a batch write for each request. Where several conditions hold, the
 * first in the order that the function names decides, each over all of the file or all groups before the next. After a
 * refusal the record and the buffers are as they were given; a refused opening hands back a record of zeros. */
enum permits_answer {
    PERMITS_ACCEPTED = 0, /* of a gate: the skid holds the right */

    /* the plant file is refused */
    PERMITS_WRONG_LENGTH = 1,           /* under 24 or over 4,096 bytes, or bytes 20 and 21 differ from the length */
    PERMITS_WRONG_EDITION = 2,          /* the edition is not 1 */
    PERMITS_COUNT_OUT_OF_RANGE = 3,     /* a count outside its range */
    PERMITS_HEADER_BYTE_NOT_ZERO = 4,   /* byte 7, 22 or 23 not zero */
    PERMITS_SECTION_OUTSIDE = 5,        /* a section begins before 24 or ends past the file */
    PERMITS_SECTIONS_SHARE = 6,         /* two sections share a byte */
    PERMITS_LATTICE_MALFORMED = 7,      /* a lattice record breaks its layout */
    PERMITS_NOT_AN_ORDER = 8,           /* a lattice's levels are not an order */
    PERMITS_NOT_A_LATTICE = 9,          /* an order but no lattice */
    PERMITS_ENTRY_OUT_OF_RANGE = 10,    /* another record of the file: a number, level or bit out of range, or a zero
                                         * byte that isn't zero */
    PERMITS_TANKS_AT_ONE_LEVEL = 11,    /* two tanks of one group at one level */
    PERMITS_REQUIREMENT_NOT_NAMED = 12, /* a task names a right on a group whose requirement it doesn't name */

    /* a call or a queue on a monitor is refused */
    PERMITS_MONITOR_NOT_INTACT = 20, /* the record's plant breaks 3 or 7 to 12, a stored level is not in its lattice, a
                                      * running task is not one that the skid may run, or a chosen tank, where that task
                                      * has a right, is not of its group */

    /* a call is refused */
    PERMITS_NO_SUCH_SKID = 21,
    PERMITS_NO_SUCH_TASK = 22,
    PERMITS_NO_SUCH_REQUIREMENT = 23,
    PERMITS_NO_SUCH_LEVEL = 24,       /* 255 cannot be set */
    PERMITS_MAY_NOT_RUN = 25,         /* the skid may not run the task */
    PERMITS_ALREADY_RUNS = 26,        /* the skid already runs a task, be it the same */
    PERMITS_LEVEL_NOT_SET = 27,       /* some group on which the task names a right has its requirement unset for this
                                       * skid and task */
    PERMITS_NO_TANK_AT_OR_UNDER = 28, /* for such a group no tank is at or under its level */
    PERMITS_NO_SUCH_TANK = 29,
    PERMITS_NO_SUCH_RIGHT = 30,       /* right over 2 */

    /* of queues, batches and gates */
    PERMITS_BUFFER_TOO_SHORT = 31,  /* a queue: fewer answer bytes than requests; a batch of n requests: a buffer under
                                     * n + 577 bytes */
    PERMITS_NO_SUCH_KIND = 32,      /* a request of unknown kind */
    PERMITS_NOT_HELD = 33,          /* no refusal: the answer of a gate whose right the skid does not hold */
    PERMITS_REQUESTS_NOT_WHOLE = 34 /* a batch: request bytes not a multiple of 5 */
};

/* What a number says, in words for the people at a console. */
static inline const char *permits_text(unsigned number)
{
    switch (number) {
    case PERMITS_ACCEPTED: return "accepted";
    case PERMITS_WRONG_LENGTH: return "the plant file has the wrong length";
    case PERMITS_WRONG_EDITION: return "the plant file is of another edition";
    case PERMITS_COUNT_OUT_OF_RANGE: return "a count in the plant file is outside its range";
    case PERMITS_HEADER_BYTE_NOT_ZERO: return "a zero byte of the plant file's header is not zero";
    case PERMITS_SECTION_OUTSIDE: return "a section begins in the header or ends past the file";
    case PERMITS_SECTIONS_SHARE: return "two sections of the plant file share a byte";
    case PERMITS_LATTICE_MALFORMED: return "a lattice in the plant file breaks its layout";
    case PERMITS_NOT_AN_ORDER: return "the levels of a lattice are not an order";
    case PERMITS_NOT_A_LATTICE: return "an order but no lattice: two levels lack a join or a meet";
    case PERMITS_ENTRY_OUT_OF_RANGE: return "a value in the plant file is out of range";
    case PERMITS_TANKS_AT_ONE_LEVEL: return "two tanks of one group are at one level";
    case PERMITS_REQUIREMENT_NOT_NAMED: return "a task names a right but not its group's requirement";
    case PERMITS_MONITOR_NOT_INTACT: return "the monitor's record is not intact";
    case PERMITS_NO_SUCH_SKID: return "there is no such skid";
    case PERMITS_NO_SUCH_TASK: return "there is no such task";
    case PERMITS_NO_SUCH_REQUIREMENT: return "there is no such requirement";
    case PERMITS_NO_SUCH_LEVEL: return "there is no such level";
    case PERMITS_MAY_NOT_RUN: return "the skid may not run the task";
    case PERMITS_ALREADY_RUNS: return "the skid already runs a task";
    case PERMITS_LEVEL_NOT_SET: return "a level that the task needs is not set";
    case PERMITS_NO_TANK_AT_OR_UNDER: return "a group the task needs has no tank at or under its level";
    case PERMITS_NO_SUCH_TANK: return "there is no such tank";
    case PERMITS_NO_SUCH_RIGHT: return "there is no such right";
    case PERMITS_BUFFER_TOO_SHORT: return "the buffer is too short";
    case PERMITS_NO_SUCH_KIND: return "there is no such kind of request";
    case PERMITS_NOT_HELD: return "the skid does not hold the right on the tank";
    case PERMITS_REQUESTS_NOT_WHOLE: return "the request bytes do not make whole requests";
    default: return "no answer of this monitor";
    }
}

/* A request's kind. */
enum permits_kind { PERMITS_SET = 0, PERMITS_START = 1, PERMITS_STOP = 2, PERMITS_GATE = 3 };

/* The rights. */
enum permits_right { PERMITS_DRAW = 0, PERMITS_RETURN = 1, PERMITS_SAMPLE = 2 };

/* The sections of a plant file, in the header's order. */
enum permits_section_kind {
    PERMITS_LATTICES = 0,
    PERMITS_REQUIREMENTS = 1,
    PERMITS_GROUPS = 2,
    PERMITS_TANKS = 3,
    PERMITS_TASKS = 4,
    PERMITS_SKIDS = 5
};

/* In a monitor: a level that is unset, no running task, no chosen tank. */
enum { PERMITS_NONE = 255 };

/* Bytes that a batch of n requests needs as its buffer: n answers, the count, and 192 rights of three bytes. */
#define PERMITS_ROOM(n) ((n) + 577u)

/* The plant of a monitor: six counts, then an entry for each item. Entries past the counts are zero after opening. */
typedef struct permits_plant {
    uint8_t lattices;
    uint8_t requirements;
    uint8_t groups;
    uint8_t tanks;
    uint8_t tasks;
    uint8_t skids;
    uint8_t lattice_sizes[8];       /* each lattice's number of levels */
    uint16_t lattice_sets[128];     /* set i of lattice l at l * 16 + i: bit j says that level i is at or under level j */
    uint8_t requirement_lattice[8]; /* each requirement's lattice */
    uint8_t group_requirement[8];   /* each group's requirement */
    uint8_t tank_group[64];         /* each tank's group */
    uint8_t tank_level[64];         /* each tank's level */
    uint8_t task_requirements[16];  /* the requirements that each task names: bit d is requirement d */
    uint8_t task_rights[128];       /* the rights of task t on group g at t * 8 + g: bit r is right r */
    uint16_t skid_tasks[8];         /* the tasks that each skid may run: bit t is task t */
} permits_plant;

/* A monitor. A console may copy, store and compare it; the calls alone should write it. In a monitor m,
 *
 *     m.running[skid]             is the skid's running task, PERMITS_NONE for none;
 *     m.chosen[8 * skid + group]  is the skid's chosen tank of the group, PERMITS_NONE for none.
 *
 * The chosen tank counts only while the skid's task runs and names a right on that group. In a record that the calls
 * alone wrote, it is otherwise PERMITS_NONE. */
typedef struct permits_monitor {
    permits_plant plant;
    uint8_t levels[1024]; /* the level of skid s, task t and requirement d at (s * 16 + t) * 8 + d, or 255 for unset */
    uint8_t running[8];   /* each skid's running task, or 255 for none */
    uint8_t chosen[64];   /* the chosen tank of skid s and group g at s * 8 + g, or 255 */
} permits_monitor;

/* A request: its kind and four bytes in the order of the call's arguments; those that the call has no use for are
 * ignored. */
typedef struct permits_request {
    uint8_t kind;
    uint8_t a;
    uint8_t b;
    uint8_t c;
    uint8_t d;
} permits_request;

/* A part of the caller's bytes: the index of its first byte, and how many bytes it has. */
typedef struct permits_place {
    size_t begin;
    size_t length;
} permits_place;

/* The archives were compiled for these sizes and places. */
static_assert(sizeof(permits_plant) == 574, "size of a plant");
static_assert(offsetof(permits_plant, lattice_sizes) == 6, "place of lattice_sizes");
static_assert(offsetof(permits_plant, lattice_sets) == 14, "place of lattice_sets");
static_assert(offsetof(permits_plant, requirement_lattice) == 270, "place of requirement_lattice");
static_assert(offsetof(permits_plant, group_requirement) == 278, "place of group_requirement");
static_assert(offsetof(permits_plant, tank_group) == 286, "place of tank_group");
static_assert(offsetof(permits_plant, tank_level) == 350, "place of tank_level");
static_assert(offsetof(permits_plant, task_requirements) == 414, "place of task_requirements");
static_assert(offsetof(permits_plant, task_rights) == 430, "place of task_rights");
static_assert(offsetof(permits_plant, skid_tasks) == 558, "place of skid_tasks");
static_assert(sizeof(permits_monitor) == 1670, "size of a monitor");
static_assert(offsetof(permits_monitor, levels) == 574, "place of levels");
static_assert(offsetof(permits_monitor, running) == 1598, "place of running");
static_assert(offsetof(permits_monitor, chosen) == 1606, "place of chosen");
static_assert(sizeof(permits_request) == 5, "size of a request");
static_assert(sizeof(permits_place) == 16, "size of a place");
static_assert(offsetof(permits_place, length) == 8, "place of length");

/* Batch, in libpanel.a: opens the plant and makes the requests, five bytes each as in permits_request, beginning at
 * the fresh monitor. Returns 1 to 12, 34, 31 or 0, in this order. With 0 and n requests, out[i] is the answer to request i and out[n] the
 * count of rights held; from out[n + 1] on stand skid, tank and right of each of them, rising in that order. The rest
 * of out is not written. */
uint8_t permits_batch(const uint8_t *plant, size_t plant_len, const uint8_t *requests, size_t requests_len, uint8_t *out, size_t out_len);

/* Section, in libpanel.a: the part of the caller's bytes that the section of this kind fills. A file failing 1 to 6, or
 * a kind over 5, gives an empty part, at 0. A file that opening refuses with 7 to 12 has its sections. */
permits_place permits_section(const uint8_t *file, size_t file_len, size_t kind);

/* Opening: 0 and the fresh monitor in *m, or 1 to 12 and a record of zeros. What *m held before does not matter. */
uint8_t permits_open(permits_monitor *m, const uint8_t *file, size_t file_len);

/* One request of any kind on *m: the answer of its call, 20 first; 32 for an unknown kind. */
uint8_t permits_call(permits_monitor *m, permits_request r);

/* Queue: 20, 31, or 0 after the requests were made in their order, each on the record that the one before left. out[i]
 * is then the answer to request i; bytes of out beyond the answers are not written. */
uint8_t permits_queue(permits_monitor *m, const permits_request *requests, size_t count, uint8_t *out, size_t out_len);

/* Set: 20, 21 to 24 or 0. The skid need not be allowed the task. The level alone changes. */
static inline uint8_t permits_set(permits_monitor *m, uint8_t skid, uint8_t task, uint8_t requirement, uint8_t level)
{
    permits_request r = {PERMITS_SET, skid, task, requirement, level};
    return permits_call(m, r);
}

/* Start: 20, 21, 22, 25 to 28 or 0. Then the task runs, and the groups on which it names a right have their chosen
 * tanks. */
static inline uint8_t permits_start(permits_monitor *m, uint8_t skid, uint8_t task)
{
    permits_request r = {PERMITS_START, skid, task, 0, 0};
    return permits_call(m, r);
}

/* Stop: 20, 21 or 0. A skid that runs nothing is accepted too. */
static inline uint8_t permits_stop(permits_monitor *m, uint8_t skid)
{
    permits_request r = {PERMITS_STOP, skid, 0, 0, 0};
    return permits_call(m, r);
}

/* Gate: 20, 21, 29, 30, or 0 where the skid holds the right on the tank and 33 where it does not. Nothing changes. */
static inline uint8_t permits_gate(permits_monitor *m, uint8_t skid, uint8_t tank, uint8_t right)
{
    permits_request r = {PERMITS_GATE, skid, tank, right, 0};
    return permits_call(m, r);
}

#ifdef __cplusplus
}
#endif

#endif /* C11 or C++11 */

#endif
