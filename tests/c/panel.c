/* The panel's batch call on bad input, on buffers that just fit and just don't, and on 01's session; and the section
 * call. */
#include "lent.h"
#include "permits.h"
#include "plants.h"

static const part paper = {plant, sizeof plant};
static const part full = {full_plant, sizeof full_plant};
static const part calls = {session, sizeof session};
static const part list = {session_list, sizeof session_list};
static const part nothing = {"", 0};

/* The first bytes of a part. */
static part first(part p, size_t length)
{
    return (part){p.bytes, length};
}

/* A batch with everything lent on that side. */
static void batch_on(side side, const char *what, uint8_t number, part file, part requests, part written, size_t room)
{
    lent f = lend(side, file);
    lent r = lend(side, requests);
    lent out = lend_room(side, room);

    under_test = what;
    uint8_t answer = permits_batch(f.bytes, file.length, r.bytes, requests.length, out.bytes, room);
    check(answer == number, "%s: the number is %u, and should be %u", what, answer, number);
    holds(out, written, what, "the buffer");
    holds(f, file, what, "the plant");
    holds(r, requests, what, "the requests");
    give_back(f);
    give_back(r);
    give_back(out);
}

/* It returns the number, the buffer of that room begins with what should be written and is otherwise as it was, and so
 * are plant and requests. */
static void gives(const char *what, uint8_t number, part file, part requests, part written, size_t room)
{
    for (side s = END; s < SIDES; s++)
        batch_on(s, what, number, file, requests, written, room);
}

static void refuses(const char *what, uint8_t number, part file, part requests, size_t room)
{
    gives(what, number, file, requests, nothing, room);
}

static void short_plants(void)
{
    uint8_t header[24];

    refuses("no plant at all", 1, nothing, calls, 627);
    refuses("no input at all", 1, nothing, nothing, 0);
    refuses("a plant of 1 byte", 1, first(paper, 1), calls, 627);
    refuses("a plant of 23 bytes", 1, first(paper, 23), calls, 627);
    refuses("a plant of 24 bytes", 1, first(paper, 24), calls, 627);
    refuses("a plant that lacks its last byte", 1, first(paper, 131), calls, 627);

    memcpy(header, plant, sizeof header);
    header[20] = 24;
    refuses("a header alone", 5, (part){header, sizeof header}, calls, 627);
}

/* 01's plant with a gap behind it and another length in bytes 20 and 21; some of the lengths are over 65,535. */
static void long_plants(void)
{
    static uint8_t big[65536 + sizeof plant];
    part file = {big, sizeof big};

    memcpy(big, plant, sizeof plant);
    refuses("a plant of 65,536 + 132 bytes", 1, file, calls, 627);
    big[20] = 0;
    refuses("a plant of 65,536 bytes", 1, first(file, 65536), calls, 627);
    big[20] = 1;
    refuses("a plant of 65,537 bytes", 1, first(file, 65537), calls, 627);
    big[21] = 16;
    refuses("a plant of 4,097 bytes", 1, first(file, 4097), calls, 627);
    big[20] = 0;
    gives("a plant of 4,096 bytes", 0, first(file, 4096), calls, list, 627);
}

static void broken_ones(void)
{
    for (unsigned i = 0; i < BROKEN; i++) {
        uint8_t file[sizeof plant];
        const broken *b = &broken_plants[i];
        break_plant(b, file);
        refuses(b->what, b->number, (part){file, sizeof file}, calls, 627);
        refuses(b->what, b->number, (part){file, sizeof file}, first(calls, 49), 0);
    }
}

static void cut_requests(void)
{
    for (size_t n = 46; n < 50; n++)
        refuses("request bytes not a multiple of five", 34, paper, first(calls, n), 627);
    refuses("one request byte, and no buffer", 34, paper, first(calls, 1), 0);
}

static void unknown_kinds(void)
{
    const uint8_t answer_and_count[2] = {32, 0};

    for (unsigned kind = 4; kind < 256; kind++) {
        uint8_t request[5] = {(uint8_t)kind, 0, 0, 0, 0};
        gives("a request of unknown kind", 0, paper, (part){request, 5}, (part){answer_and_count, 2}, 578);
    }
}

/* For n requests n + 577 bytes are enough, and none fewer. */
static void buffers(void)
{
    const uint8_t none_held[1] = {0};

    refuses("no buffer", 31, paper, calls, 0);
    refuses("a buffer for the answers alone", 31, paper, calls, 10);
    refuses("a buffer for what would be written", 31, paper, calls, 20);
    refuses("a buffer one byte short", 31, paper, calls, 586);
    refuses("a buffer one byte short, and no requests", 31, paper, nothing, 576);
    gives("no requests", 0, paper, nothing, (part){none_held, 1}, 577);
    gives("01's session", 0, paper, calls, list, 587);
    gives("01's session, and room to spare", 0, paper, calls, list, 4096);
}

/* The 192 rights by skid, tank and right: three on each of eight tanks for each skid. */
static void write_rights(uint8_t *rights)
{
    for (unsigned i = 0; i < 192; i++) {
        rights[3 * i] = (uint8_t)(i / 24);
        rights[3 * i + 1] = (uint8_t)(i / 3 % 8);
        rights[3 * i + 2] = (uint8_t)(i % 3);
    }
}

/* All 192 rights are held, so the buffer is written to its last byte. */
static void every_right(void)
{
    uint8_t requests[80] = {0};
    uint8_t written[16 + 1 + 576] = {[16] = 192};
    part r = {requests, sizeof requests}, w = {written, sizeof written};

    for (uint8_t skid = 0; skid < 8; skid++)
        memcpy(requests + 10 * skid, (uint8_t[10]){PERMITS_SET, skid, 0, 0, 0, PERMITS_START, skid, 0, 0, 0}, 10);
    write_rights(written + 17);
    gives("every right held", 0, full, r, w, 593);
    refuses("every right held, one byte short", 31, full, r, 592);
}

static void place_on(side side, const char *what, part file, size_t kind, size_t begin, size_t length)
{
    lent f = lend(side, file);

    under_test = what;
    permits_place p = permits_section(f.bytes, file.length, kind);
    check(p.begin == begin && p.length == length, "%s, section %zu: %zu bytes from %zu, and should be %zu from %zu",
        what, kind, p.length, p.begin, length, begin);
    holds(f, file, what, "the plant");
    give_back(f);
}

/* The section of this kind, or an empty part at 0. */
static void place_is(const char *what, part file, size_t kind, size_t begin, size_t length)
{
    for (side s = END; s < SIDES; s++)
        place_on(s, what, file, kind, begin, length);
}

/* A file that only breaks 7 to 12 has its sections. */
static void broken_place(size_t kind, size_t begin, size_t length)
{
    for (unsigned i = 0; i < BROKEN; i++) {
        uint8_t file[sizeof plant];
        const broken *b = &broken_plants[i];
        int placed = b->number > 6;
        break_plant(b, file);
        place_is(b->what, (part){file, sizeof file}, kind, placed ? begin : 0, placed ? length : 0);
    }
}

static void sections(void)
{
    static const size_t begin[6] = {24, 92, 96, 100, 108, 128};
    static const size_t length[6] = {68, 4, 4, 8, 20, 4};

    for (size_t kind = 0; kind < 6; kind++) {
        place_is("01's plant", paper, kind, begin[kind], length[kind]);
        place_is("no bytes", nothing, kind, 0, 0);
        place_is("a plant that lacks its last byte", first(paper, 131), kind, 0, 0);
        broken_place(kind, begin[kind], length[kind]);
    }
}

static void other_sections(void)
{
    static const size_t others[] = {6, 7, 255, 256, 65536, SIZE_MAX - 1, SIZE_MAX};

    for (size_t i = 0; i < sizeof others / sizeof others[0]; i++)
        place_is("another kind", paper, others[i], 0, 0);
}

int main(void)
{
    catch_faults();
    short_plants();
    long_plants();
    broken_ones();
    cut_requests();
    unknown_kinds();
    buffers();
    every_right();
    sections();
    other_sections();
    return report();
}
