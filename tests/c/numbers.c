/* The header's names, texts and version: each name has 01's number, and each text says what 01 says of that number.
 * Compiled as C and as C++. */
#include "check.h"
#include "permits.h"

#include <limits.h>
#include <string.h>

/* A name of the header, 01's number for it, and words of 01 that the text of that number has and no other text. */
static const struct answer {
    const char *name;
    unsigned value;
    unsigned number;
    const char *words;
} answers[] = {
    {"ACCEPTED", PERMITS_ACCEPTED, 0, "accepted"},
    {"WRONG_LENGTH", PERMITS_WRONG_LENGTH, 1, "length"},
    {"WRONG_EDITION", PERMITS_WRONG_EDITION, 2, "edition"},
    {"COUNT_OUT_OF_RANGE", PERMITS_COUNT_OUT_OF_RANGE, 3, "a count"},
    {"HEADER_BYTE_NOT_ZERO", PERMITS_HEADER_BYTE_NOT_ZERO, 4, "not zero"},
    {"SECTION_OUTSIDE", PERMITS_SECTION_OUTSIDE, 5, "ends past the file"},
    {"SECTIONS_SHARE", PERMITS_SECTIONS_SHARE, 6, "share a byte"},
    {"LATTICE_MALFORMED", PERMITS_LATTICE_MALFORMED, 7, "breaks its layout"},
    {"NOT_AN_ORDER", PERMITS_NOT_AN_ORDER, 8, "not an order"},
    {"NOT_A_LATTICE", PERMITS_NOT_A_LATTICE, 9, "an order but no lattice"},
    {"ENTRY_OUT_OF_RANGE", PERMITS_ENTRY_OUT_OF_RANGE, 10, "out of range"},
    {"TANKS_AT_ONE_LEVEL", PERMITS_TANKS_AT_ONE_LEVEL, 11, "two tanks of one group"},
    {"REQUIREMENT_NOT_NAMED", PERMITS_REQUIREMENT_NOT_NAMED, 12, "a task names a right"},
    {"MONITOR_NOT_INTACT", PERMITS_MONITOR_NOT_INTACT, 20, "the monitor's record"},
    {"NO_SUCH_SKID", PERMITS_NO_SUCH_SKID, 21, "no such skid"},
    {"NO_SUCH_TASK", PERMITS_NO_SUCH_TASK, 22, "no such task"},
    {"NO_SUCH_REQUIREMENT", PERMITS_NO_SUCH_REQUIREMENT, 23, "no such requirement"},
    {"NO_SUCH_LEVEL", PERMITS_NO_SUCH_LEVEL, 24, "no such level"},
    {"MAY_NOT_RUN", PERMITS_MAY_NOT_RUN, 25, "the skid may not run the task"},
    {"ALREADY_RUNS", PERMITS_ALREADY_RUNS, 26, "already runs"},
    {"LEVEL_NOT_SET", PERMITS_LEVEL_NOT_SET, 27, "not set"},
    {"NO_TANK_AT_OR_UNDER", PERMITS_NO_TANK_AT_OR_UNDER, 28, "no tank at or under its level"},
    {"NO_SUCH_TANK", PERMITS_NO_SUCH_TANK, 29, "no such tank"},
    {"NO_SUCH_RIGHT", PERMITS_NO_SUCH_RIGHT, 30, "no such right"},
    {"BUFFER_TOO_SHORT", PERMITS_BUFFER_TOO_SHORT, 31, "buffer"},
    {"NO_SUCH_KIND", PERMITS_NO_SUCH_KIND, 32, "kind"},
    {"NOT_HELD", PERMITS_NOT_HELD, 33, "not hold the right"},
    {"REQUESTS_NOT_WHOLE", PERMITS_REQUESTS_NOT_WHOLE, 34, "whole requests"},
};

/* The other names, and 01's numbers for them. */
static const struct other {
    const char *name;
    unsigned long value;
    unsigned long number;
} others[] = {
    {"SET", PERMITS_SET, 0},
    {"START", PERMITS_START, 1},
    {"STOP", PERMITS_STOP, 2},
    {"GATE", PERMITS_GATE, 3},
    {"DRAW", PERMITS_DRAW, 0},
    {"RETURN", PERMITS_RETURN, 1},
    {"SAMPLE", PERMITS_SAMPLE, 2},
    {"LATTICES", PERMITS_LATTICES, 0},
    {"REQUIREMENTS", PERMITS_REQUIREMENTS, 1},
    {"GROUPS", PERMITS_GROUPS, 2},
    {"TANKS", PERMITS_TANKS, 3},
    {"TASKS", PERMITS_TASKS, 4},
    {"SKIDS", PERMITS_SKIDS, 5},
    {"NONE", PERMITS_NONE, 255},
    {"ROOM(0)", PERMITS_ROOM(0), 577},
    {"ROOM(10)", PERMITS_ROOM(10), 587},
    {"ROOM in a product, of a choice", PERMITS_ROOM(1 ? 10 : 0) * 2, 1174},
};

enum { ANSWERS = sizeof answers / sizeof answers[0], OTHERS = sizeof others / sizeof others[0] };

static int same(const char *a, const char *b)
{
    return strcmp(a, b) == 0;
}

/* How many of the texts have the words. */
static unsigned texts_with(const char *words)
{
    unsigned count = 0;
    for (unsigned i = 0; i < ANSWERS; i++)
        count += strstr(permits_text(answers[i].number), words) != NULL;
    return count;
}

/* A text fits into a line of a console and into a sentence around it. */
static void well_formed(const char *text)
{
    size_t n = strlen(text);
    check(n > 0 && n <= 60, "\"%s\" has at most 60 characters", text);
    check(strspn(text, "abcdefghijklmnopqrstuvwxyz") > 0, "\"%s\" begins with a small letter", text);
    check(strpbrk(text, ".\n0123456789") == NULL, "\"%s\" has no full stop and no number", text);
}

static void names_and_texts(void)
{
    for (unsigned i = 0; i < ANSWERS; i++) {
        const struct answer *a = &answers[i];
        const char *text = permits_text(a->number);
        check(a->value == a->number, "PERMITS_%s is %u, and should be %u", a->name, a->value, a->number);
        check(strstr(text, a->words) != NULL, "the text of %u is \"%s\", and should say \"%s\"", a->number, text,
            a->words);
        check(texts_with(a->words) == 1, "only the text of %u says \"%s\"", a->number, a->words);
        check(texts_with(text) == 1, "only %u has the text \"%s\"", a->number, text);
        well_formed(text);
    }
}

static void other_names(void)
{
    for (unsigned i = 0; i < OTHERS; i++)
        check(others[i].value == others[i].number, "PERMITS_%s is %lu, and should be %lu", others[i].name,
            others[i].value, others[i].number);
}

/* 01 has no answers from 13 to 19 nor from 35 on. */
static void no_answers(void)
{
    const char *none = "no answer of this monitor";

    for (unsigned number = 13; number <= 256; number++)
        if (number < 20 || number > 34)
            check(same(permits_text(number), none), "the text of %u is \"%s\"", number, permits_text(number));
    check(same(permits_text(UINT_MAX), none), "the text of %u is \"%s\"", UINT_MAX, permits_text(UINT_MAX));
    check(texts_with(none) == 0, "no answer has the text \"%s\"", none);
    well_formed(none);
}

static void version(void)
{
    char text[40];

    snprintf(text, sizeof text, "%d.%d.%d", PERMITS_VERSION_MAJOR, PERMITS_VERSION_MINOR, PERMITS_VERSION_PATCH);
    check(same(text, PERMITS_VERSION), "the version is %s by its numbers and %s by its text", text, PERMITS_VERSION);
}

int main(void)
{
    names_and_texts();
    other_names();
    no_answers();
    version();
    return report();
}
