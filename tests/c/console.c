/* The console's functions on records that no opening made, on bad files, on bad arguments, on queues that just fit and
 * just don't, and on calls whose record afterwards is made by hand. */
#include "lent.h"
#include "permits.h"
#include "plants.h"
#include "records.h"

typedef permits_monitor monitor;
typedef permits_request request;

/* The requests and answers of 01's session, as a queue has them. */
static const part calls = {session, sizeof session};
static const part answers = {session_list, 10};
static const part nothing = {"", 0};

static part record(const monitor *m)
{
    return (part){m, sizeof *m};
}

/* A request by the function of its kind. */
static uint8_t by_name(monitor *m, request r)
{
    switch (r.kind) {
    case PERMITS_SET: return permits_set(m, r.a, r.b, r.c, r.d);
    case PERMITS_START: return permits_start(m, r.a, r.b);
    case PERMITS_STOP: return permits_stop(m, r.a);
    case PERMITS_GATE: return permits_gate(m, r.a, r.b, r.c);
    default: return permits_call(m, r);
    }
}

static void call_on(side side, uint8_t (*call)(monitor *, request), const char *what, uint8_t number,
    const monitor *before, request r, const monitor *after)
{
    lent m = lend(side, record(before));

    under_test = what;
    uint8_t answer = call((monitor *)m.bytes, r);
    check(answer == number, "%s: the number is %u, and should be %u", what, answer, number);
    holds(m, record(after), what, "the record");
    give_back(m);
}

/* One call on a record returns the number and leaves that other record. */
static void call_gives(const char *what, uint8_t number, const monitor *before, request r, const monitor *after)
{
    for (side s = END; s < SIDES; s++) {
        call_on(s, permits_call, what, number, before, r, after);
        call_on(s, by_name, what, number, before, r, after);
    }
}

/* A call that changes nothing: a refused one, or a gate. */
static void call_keeps(const char *what, uint8_t number, const monitor *m, request r)
{
    call_gives(what, number, m, r, m);
}

/* An accepted call; the next one is on the record that it leaves. */
static void call_moves(const char *what, monitor *m, request r, const monitor *after)
{
    call_gives(what, 0, m, r, after);
    *m = *after;
}

static void queue_on(side side, const char *what, uint8_t number, const monitor *before, part requests, part written,
    size_t room, const monitor *after)
{
    lent m = lend(side, record(before));
    lent r = lend(side, requests);
    lent out = lend_room(side, room);

    under_test = what;
    uint8_t answer = permits_queue((monitor *)m.bytes, (const request *)r.bytes, requests.length / 5, out.bytes, room);
    check(answer == number, "%s: the number is %u, and should be %u", what, answer, number);
    holds(out, written, what, "the buffer");
    holds(m, record(after), what, "the record");
    holds(r, requests, what, "the requests");
    give_back(m);
    give_back(r);
    give_back(out);
}

/* The queue on a record returns the number and leaves that other record; the buffer of that room begins with what
 * should be written and is otherwise as it was. */
static void queue_gives(const char *what, uint8_t number, const monitor *before, part requests, part written,
    size_t room, const monitor *after)
{
    for (side s = END; s < SIDES; s++)
        queue_on(s, what, number, before, requests, written, room, after);
}

static void open_on(side side, const char *what, uint8_t number, part file, const monitor *after)
{
    lent f = lend(side, file);
    lent m = lend_room(side, sizeof(monitor));

    under_test = what;
    uint8_t answer = permits_open((monitor *)m.bytes, f.bytes, file.length);
    check(answer == number, "opening %s: the number is %u, and should be %u", what, answer, number);
    holds(m, record(after), what, "the record");
    holds(f, file, what, "the plant");
    give_back(f);
    give_back(m);
}

/* Opening, whatever the record held, returns the number and leaves that record. */
static void opening_gives(const char *what, uint8_t number, part file, const monitor *after)
{
    for (side s = END; s < SIDES; s++)
        open_on(s, what, number, file, after);
}

static void opening_refuses(const char *what, uint8_t number, part file)
{
    static const monitor zeros;
    opening_gives(what, number, file, &zeros);
}

/* Every call and the queue refuse the record with 20, whatever else is wrong, and leave it as it is. */
static void refused(const char *what, const monitor *m)
{
    for (uint8_t kind = 0; kind < 5; kind++) {
        call_keeps(what, 20, m, (request){kind, 0, 0, 0, 0});
        call_keeps(what, 20, m, (request){kind, 255, 255, 255, 255});
    }
    queue_gives(what, 20, m, calls, nothing, 10, m);
    queue_gives(what, 20, m, calls, nothing, 9, m);
    queue_gives(what, 20, m, nothing, nothing, 0, m);
}

static void fill_randomly(monitor *m)
{
    uint8_t *p = (uint8_t *)m;
    for (size_t i = 0; i < sizeof *m; i++)
        p[i] = next_byte();
}

static void random_records(void)
{
    for (unsigned i = 0; i < 200; i++) {
        monitor m;
        fill_randomly(&m);
        refused("a record of pseudo-random bytes", &m);
        memcpy(&m, (uint8_t[6]){8, 8, 8, 64, 16, 8}, 6);
        refused("a record of counts within their ranges and pseudo-random bytes", &m);
    }
}

static void broken_records(void)
{
    monitor m;

    memset(&m, 0, sizeof m);
    refused("a record of zeros", &m);
    memset(&m, 255, sizeof m);
    refused("a record of 255s", &m);
    m = fresh();
    m.levels[0] = 3;
    refused("a level that its lattice has not", &m);
    m = fresh();
    m.running[0] = 2;
    refused("a running task that the plant has not", &m);
    m = fresh();
    m.running[1] = 0;
    refused("a running task that the skid may not run", &m);
    m = fresh();
    m.running[0] = 0;
    m.chosen[0] = 0;
    m.chosen[1] = 1;
    refused("a chosen tank of another group", &m);
    m.chosen[0] = 255;
    m.chosen[1] = 2;
    refused("no chosen tank where the running task has a right", &m);
    m = fresh();
    m.plant.tank_level[1] = 0;
    refused("a plant with two tanks of one group at one level", &m);
}

static void openings(void)
{
    static uint8_t big[65536 + sizeof plant];
    monitor m = fresh(), full = fresh_full();

    opening_gives("01's plant", 0, (part){plant, sizeof plant}, &m);
    opening_gives("the full plant", 0, (part){full_plant, sizeof full_plant}, &full);
    opening_refuses("no bytes", 1, nothing);
    opening_refuses("1 byte", 1, (part){plant, 1});
    opening_refuses("23 bytes", 1, (part){plant, 23});
    opening_refuses("24 bytes", 1, (part){plant, 24});
    opening_refuses("131 bytes", 1, (part){plant, 131});
    memcpy(big, plant, sizeof plant);
    opening_refuses("65,536 + 132 bytes", 1, (part){big, sizeof big});
}

static void broken_openings(void)
{
    for (unsigned i = 0; i < BROKEN; i++) {
        uint8_t file[sizeof plant];
        break_plant(&broken_plants[i], file);
        opening_refuses(broken_plants[i].what, broken_plants[i].number, (part){file, sizeof file});
    }
}

static void arguments(void)
{
    monitor m = fresh();

    call_keeps("set, no such skid", 21, &m, (request){PERMITS_SET, 2, 2, 2, 3});
    call_keeps("set, no such task", 22, &m, (request){PERMITS_SET, 1, 2, 2, 3});
    call_keeps("set, no such requirement", 23, &m, (request){PERMITS_SET, 1, 1, 2, 3});
    call_keeps("set, no such level", 24, &m, (request){PERMITS_SET, 1, 1, 0, 3});
    call_keeps("set to 255", 24, &m, (request){PERMITS_SET, 1, 1, 1, 255});
    call_keeps("start, no such skid", 21, &m, (request){PERMITS_START, 255, 255, 0, 0});
    call_keeps("start, no such task", 22, &m, (request){PERMITS_START, 1, 2, 0, 0});
    call_keeps("start of a task that the skid may not run", 25, &m, (request){PERMITS_START, 1, 0, 0, 0});
    call_keeps("start with a level unset", 27, &m, (request){PERMITS_START, 0, 0, 0, 0});
    call_keeps("stop, no such skid", 21, &m, (request){PERMITS_STOP, 2, 0, 0, 0});
    call_keeps("gate, no such skid", 21, &m, (request){PERMITS_GATE, 2, 4, 3, 0});
    call_keeps("gate, no such tank", 29, &m, (request){PERMITS_GATE, 1, 4, 3, 0});
    call_keeps("gate, no such right", 30, &m, (request){PERMITS_GATE, 1, 3, 3, 0});
    call_keeps("gate of a right that is not held", 33, &m, (request){PERMITS_GATE, 1, 3, 2, 0});
    for (unsigned kind = 4; kind < 256; kind++)
        call_keeps("a call of unknown kind", 32, &m, (request){(uint8_t)kind, 0, 0, 0, 0});
}

/* 01's session, and a start under the level that was set meanwhile. */
static void calls_of_session(void)
{
    monitor m = fresh(), after = m;

    call_keeps("1: start 0 0", 27, &m, (request){PERMITS_START, 0, 0, 0, 0});
    after.levels[0] = 1;
    call_moves("2: set 0 0 0 1", &m, (request){PERMITS_SET, 0, 0, 0, 1}, &after);
    after.levels[1] = 3;
    call_moves("3: set 0 0 1 3", &m, (request){PERMITS_SET, 0, 0, 1, 3}, &after);
    after.running[0] = 0;
    after.chosen[0] = 0;
    after.chosen[1] = 2;
    call_moves("4: start 0 0", &m, (request){PERMITS_START, 0, 0, 0, 0}, &after);
    call_keeps("5: gate 0 0 0", 0, &m, (request){PERMITS_GATE, 0, 0, 0, 0});
    after.levels[0] = 2;
    call_moves("6: set 0 0 0 2", &m, (request){PERMITS_SET, 0, 0, 0, 2}, &after);
    call_keeps("7: gate 0 1 0", 33, &m, (request){PERMITS_GATE, 0, 1, 0, 0});
    call_keeps("8: start 0 1", 26, &m, (request){PERMITS_START, 0, 1, 0, 0});
    call_keeps("9: stop 1", 0, &m, (request){PERMITS_STOP, 1, 0, 0, 0});
    call_keeps("10: start 1 0", 25, &m, (request){PERMITS_START, 1, 0, 0, 0});
    after.running[0] = 255;
    after.chosen[0] = 255;
    after.chosen[1] = 255;
    call_moves("stop 0", &m, (request){PERMITS_STOP, 0, 0, 0, 0}, &after);
    after.running[0] = 0;
    after.chosen[0] = 1;
    after.chosen[1] = 2;
    call_moves("start 0 0 at level 2", &m, (request){PERMITS_START, 0, 0, 0, 0}, &after);
    call_keeps("gate 0 1 0, now held", 0, &m, (request){PERMITS_GATE, 0, 1, 0, 0});
}

/* The last skid, task and requirement have their own places in the record; task 1 has a right on group 0 alone. */
static void calls_of_skid_1(void)
{
    monitor m = fresh(), after = m;

    after.levels[(1 * 16 + 1) * 8 + 1] = 3;
    call_moves("set 1 1 1 3", &m, (request){PERMITS_SET, 1, 1, 1, 3}, &after);
    call_keeps("start 1 1 with requirement 0 unset", 27, &m, (request){PERMITS_START, 1, 1, 0, 0});
    after.levels[(1 * 16 + 1) * 8 + 0] = 0;
    call_moves("set 1 1 0 0", &m, (request){PERMITS_SET, 1, 1, 0, 0}, &after);
    after.running[1] = 1;
    after.chosen[8 * 1 + 0] = 0;
    call_moves("start 1 1", &m, (request){PERMITS_START, 1, 1, 0, 0}, &after);
    call_keeps("gate 1 0 1", 0, &m, (request){PERMITS_GATE, 1, 0, 1, 0});
    call_keeps("gate 1 0 0", 33, &m, (request){PERMITS_GATE, 1, 0, 0, 0});
    call_keeps("gate 0 0 1", 33, &m, (request){PERMITS_GATE, 0, 0, 1, 0});
    call_keeps("stop 0, which runs nothing", 0, &m, (request){PERMITS_STOP, 0, 0, 0, 0});
    after.running[1] = 255;
    after.chosen[8 * 1 + 0] = 255;
    call_moves("stop 1", &m, (request){PERMITS_STOP, 1, 0, 0, 0}, &after);
}

/* 01's case P9, and then an unset level of a later group, which comes before an earlier group without a tank under its
 * level: 01's plant with tank 0 at level 1. */
static void lacking(void)
{
    monitor m = fresh();

    m.levels[0] = 1;
    m.levels[1] = 0;
    call_keeps("group 1 lacks a tank", 28, &m, (request){PERMITS_START, 0, 0, 0, 0});

    m = fresh();
    m.plant.tank_level[0] = 1;
    m.levels[0] = 0;
    call_keeps("group 0 lacks a tank, group 1 has no level", 27, &m, (request){PERMITS_START, 0, 0, 0, 0});
    m.levels[1] = 3;
    call_keeps("group 0 lacks a tank", 28, &m, (request){PERMITS_START, 0, 0, 0, 0});
}

static void queues(void)
{
    monitor m = fresh(), after = m;

    after.levels[0] = 2;
    after.levels[1] = 3;
    after.running[0] = 0;
    after.chosen[0] = 0;
    after.chosen[1] = 2;
    queue_gives("no buffer", 31, &m, calls, nothing, 0, &m);
    queue_gives("one answer byte too few", 31, &m, calls, nothing, 9, &m);
    queue_gives("as many answer bytes as requests", 0, &m, calls, answers, 10, &after);
    queue_gives("answer bytes to spare", 0, &m, calls, answers, 300, &after);
    queue_gives("no requests and no buffer", 0, &after, nothing, nothing, 0, &after);
    queue_gives("no requests", 0, &after, nothing, nothing, 20, &after);
}

static void unknown_kinds(void)
{
    monitor m = fresh();
    request requests[252];
    uint8_t unknown[252];

    for (unsigned i = 0; i < 252; i++)
        requests[i] = (request){(uint8_t)(i + 4), 0, 0, 0, 0};
    memset(unknown, 32, sizeof unknown);
    queue_gives("requests of unknown kind", 0, &m, (part){requests, sizeof requests}, (part){unknown, 252}, 252, &m);
}

/* A queue of many requests gives what the calls give one by one. */
static void queue_as_calls(void)
{
    enum { MANY = 2000 };
    static request requests[MANY];
    static uint8_t given[MANY];
    monitor m = fresh(), after = m;

    for (unsigned i = 0; i < MANY; i++) {
        requests[i] = (request){next_byte() % 5, next_byte() % 3, next_byte() % 5, next_byte() % 4, next_byte() % 4};
        given[i] = permits_call(&after, requests[i]);
    }
    queue_gives("many requests", 0, &m, (part){requests, sizeof requests}, (part){given, MANY}, MANY, &after);
}

/* Each skid of the full plant gets the tank of each group. */
static void full_starts(monitor *m)
{
    for (uint8_t skid = 0; skid < 8; skid++) {
        monitor after = *m;
        after.levels[skid * 128] = 0;
        call_moves("set on the full plant", m, (request){PERMITS_SET, skid, 0, 0, 0}, &after);
        after.running[skid] = 0;
        memcpy(after.chosen + 8 * skid, (uint8_t[8]){0, 1, 2, 3, 4, 5, 6, 7}, 8);
        call_moves("start on the full plant", m, (request){PERMITS_START, skid, 0, 0, 0}, &after);
    }
}

/* All 192 rights are held. */
static void every_right(void)
{
    monitor m = fresh_full();

    full_starts(&m);
    for (unsigned i = 0; i < 192; i++) {
        request gate = {PERMITS_GATE, (uint8_t)(i / 24), (uint8_t)(i / 3 % 8), (uint8_t)(i % 3), 0};
        call_keeps("gate on the full plant", 0, &m, gate);
    }
}

int main(void)
{
    catch_faults();
    random_records();
    broken_records();
    openings();
    broken_openings();
    arguments();
    calls_of_session();
    calls_of_skid_1();
    lacking();
    queues();
    unknown_kinds();
    queue_as_calls();
    every_right();
    return report();
}
