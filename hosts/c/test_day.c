/* Cases of the calls on a day, whose cells are lent as a caller keeps them. Accepted, every cell is that of the day afterwards,
 * with zeros behind the count; refused, every cell is as it was. What each must answer was worked from documents 01 and 02. */
#include "testing.h"

/* The starred example where its units run already, alone, with affiliated suppliers and with the curve of unit 11: nothing is
 * added for their start. */
#define STARRED_AGAIN \
    ANSWER_HEADER "11,1,F,0,2,C,830000\r\n12,2,F,0,1,M,330000\r\n13,3,F,0,1,C,880000\r\n14,4,F,5000000,1,M,500000\r\n"

#define AFFILIATED_AGAIN \
    ANSWER_HEADER "11,1,F,0,2,C,830000\r\n12,2,F,0,1,M,330000\r\n13,3,F,0,1,C,880000\r\n14,4,F,0,1,M,500000\r\n"

#define CURVE_11_AGAIN \
    ANSWER_HEADER "11,1,F,0,2,C,720000\r\n12,2,F,0,1,M,330000\r\n13,3,F,0,1,C,880000\r\n14,4,F,5000000,1,M,500000\r\n"

/* The same where units 11 and 12 run, and where unit 12 runs on cost; the others start. */
#define STARRED_11_AND_12_RUN \
    ANSWER_HEADER "11,1,F,0,2,C,830000\r\n12,2,F,0,1,M,330000\r\n13,3,F,0,1,C,890000\r\n14,4,F,5000000,1,M,500000\r\n"
#define STARRED_12_ON_COST \
    ANSWER_HEADER "11,1,F,0,2,C,1030000\r\n12,2,F,0,2,C,330000\r\n13,3,F,0,1,C,890000\r\n14,4,F,5000000,1,M,500000\r\n"

/* Unit 12 without a C schedule; and unit 100, whose supplier alone can't meet the need. */
#define MARKET_ONLY {HOUR_5, SUPPLY "12,2,1000,3000,-5000\r\n", SCHEDULES "12,1,M,5,100,3300,0,0,1\r\n"}
#define UNIT_100 \
    {HOUR_5, SUPPLY "100,1,1000,3000,5000\r\n", \
     SCHEDULES "100,1,M,5,100,4000,50000,20000,1\r\n100,2,C,5,100,3000,50000,20000,1\r\n"}
#define UNIT_100_ANSWER ANSWER_HEADER "100,1,U,0,2,C,1030000\r\n"

/* Room just for an answer without rows. */
#define HEADER_ROOM (sizeof ANSWER_HEADER - 1)

/* A study on a day, and the day afterwards. */
struct day_study {
    const char *day;
    const char *after;
    struct study study;
};

static const struct day_study day_studies[] = {
    {"-", STARRED_DAY, {"a fresh day", CAPPING_LONGEST_ANSWER, STARRED_ANSWER, {0, 0, 0}, STARRED}},
    {STARRED_DAY, STARRED_DAY, {"the same hour again", sizeof STARRED_AGAIN - 1, STARRED_AGAIN, {0, 0, 0}, STARRED}},
    {"n;3:C:7,12:C:2,9999:M:99", "5;3:C:7,11:C:2,12:C:2,13:C:1,14:M:1,9999:M:99",
     {"units of other files, before and behind", ENOUGH, STARRED_12_ON_COST, {0, 0, 0}, STARRED}},
    {"3;12:M:1,14:C:2", "5;12:M:1,14:C:2", {"no units", HEADER_ROOM, ANSWER_HEADER, {0, 0, 0}, NO_UNITS}},
    {STARRED_DAY, STARRED_DAY, {"a buffer one short", sizeof STARRED_AGAIN - 2, "", {10, 0, 0}, STARRED}},
    {"3;12:M:1", "3;12:M:1", {"no room at all", 0, "", {10, 0, 0}, NO_UNITS}},
    {"6;12:M:1", "6;12:M:1", {"an earlier hour", ENOUGH, "", {20, 0, 0}, STARRED}},
    {"5;12:C:2", "5;12:C:2", {"unit 12 on cost without a C schedule", ENOUGH, "", {21, 3, 12}, MARKET_ONLY}},
    {"24;", "24;", {"hour 24", ENOUGH, "", {24, 0, 0}, STARRED}},
    {"5;12:M:1,11:M:1", "5;12:M:1,11:M:1", {"units that don't rise", ENOUGH, "", {24, 0, 0}, STARRED}},
    {"n;12:M:100", "n;12:M:100", {"schedule 100", ENOUGH, "", {24, 0, 0}, STARRED}},
    {"5;12:M:1,10000:M:1", "5;12:M:1,10000:M:1", {"an ill-formed day before an empty constraint", 0, "", {24, 0, 0}, {"", "", ""}}},
    {"5;12:M:1", "5;12:M:1", {"an empty constraint", ENOUGH, "", {2, 1, 0}, {"", "", ""}}},
};

/* The same with what is beside the files. */
struct day_study_beside {
    struct beside beside;
    struct day_study day_study;
};

static const struct day_study_beside day_studies_beside[] = {
    {{"", PARENTS "1,2\r\n"}, {"-", STARRED_DAY, {"affiliated suppliers", ENOUGH, AFFILIATED_ANSWER, {0, 0, 0}, STARRED}}},
    {{"", PARENTS "4,900\r\n1,900\r\n"},
     {STARRED_DAY, STARRED_DAY, {"affiliated suppliers whose units run", ENOUGH, AFFILIATED_AGAIN, {0, 0, 0}, STARRED}}},
    {{"", PARENTS}, {STARRED_DAY, STARRED_DAY, {"parents without rows", ENOUGH, STARRED_AGAIN, {0, 0, 0}, STARRED}}},
    {{"", PARENTS "1,2\r\n1,2\r\n"}, {"3;12:M:1", "3;12:M:1", {"a parent named twice", ENOUGH, "", {35, 5, 2}, STARRED}}},
    {{"", PARENTS "1,2\r\n2,3\r\n3,2\r\n"}, {"3;12:M:1", "3;12:M:1", {"a ring", ENOUGH, "", {36, 5, 2}, STARRED}}},
    {{"", PARENTS "1,1\r\n"}, {"6;12:M:1", "6;12:M:1", {"a ring before an earlier hour", ENOUGH, "", {36, 5, 1}, STARRED}}},
    {{"", PARENTS "1,1\r\n"}, {"24;", "24;", {"an ill-formed day before a ring", ENOUGH, "", {24, 0, 0}, STARRED}}},
    {{CURVE_11, ""}, {"-", STARRED_DAY, {"a curve of unit 11", ENOUGH, CURVE_11_ANSWER, {0, 0, 0}, STARRED}}},
    {{CURVE_11, ""}, {STARRED_DAY, STARRED_DAY, {"a curve of a unit that runs", ENOUGH, CURVE_11_AGAIN, {0, 0, 0}, STARRED}}},
    {{CURVES, ""}, {STARRED_DAY, STARRED_DAY, {"curves without rows", ENOUGH, STARRED_AGAIN, {0, 0, 0}, STARRED}}},
    {{CURVES "11,3,5,100,1\r\n", ""}, {"3;12:M:1", "3;12:M:1", {"a stray point", ENOUGH, "", {32, 4, 1}, STARRED}}},
    {{CURVES "11,2,5,100,1\r\n11,2,5,100,2\r\n", ""},
     {"3;12:M:1", "3;12:M:1", {"a point that doesn't rise", ENOUGH, "", {33, 4, 2}, STARRED}}},
    {{CURVES "11,2,5,99,1\r\n", ""},
     {"6;12:M:1", "6;12:M:1", {"a low curve before an earlier hour", ENOUGH, "", {34, 4, 1}, STARRED}}},
    {{CURVES "11,2,5,99,1\r\n", ""}, {"24;", "24;", {"an ill-formed day before a low curve", ENOUGH, "", {24, 0, 0}, STARRED}}},
};

/* A release: the unit, and the number of the refusal, 0 where it is accepted. */
struct release {
    const char *name;
    uint64_t unit, number;
};

/* A release from a day, and the day afterwards. */
struct day_release {
    const char *day;
    const char *after;
    struct release release;
};

static const struct day_release day_releases[] = {
    {"5;11:M:1,12:C:2,13:C:1", "5;12:C:2,13:C:1", {"the first unit", 11, 0}},
    {"5;11:M:1,12:C:2,13:C:1", "5;11:M:1,13:C:1", {"a unit in the middle", 12, 0}},
    {"5;11:M:1,12:C:2,13:C:1", "5;11:M:1,12:C:2", {"the last unit", 13, 0}},
    {"23;11:M:1", "23;", {"the only unit", 11, 0}},
    {"n;11:M:1", "-", {"the only unit of a day without an hour", 11, 0}},
    {"5;11:M:1,12:C:2,13:C:1", "5;11:M:1,12:C:2,13:C:1", {"a unit that isn't running", 14, 23}},
    {"-", "-", {"a fresh day", 11, 23}},
    {"5;11:M:1", "5;11:M:1", {"unit 0", 0, 23}},
    {"5;11:M:1", "5;11:M:1", {"the largest number", UINT64_MAX, 23}},
    {"24;11:M:1", "24;11:M:1", {"hour 24", 11, 24}},
    {"5;11:M:1,11:C:2", "5;11:M:1,11:C:2", {"a unit twice", 11, 24}},
    {"5;0:M:1", "5;0:M:1", {"unit 0 running", 0, 24}},
};

/* A release of cells that no words are, or that stand where no words put them, and the cells afterwards if it is accepted. */
struct raw_release {
    uint64_t cells[CAPPING_DAY_CELLS];
    uint64_t after[CAPPING_DAY_CELLS];
    struct release release;
};

static const struct raw_release raw_releases[] = {
    {{1, 5, 2, 11, 'M', 1, 12, 'C', 2, 13, 'C', 1}, {1, 5, 1, 11, 'M', 1}, {"a unit before one behind the count", 12, 0}},
    {{1, 5, 2, 11, 'M', 1, 12, 'C', 2, 13, 'C', 1}, {0}, {"a unit behind the count", 13, 23}},
    {{1, 5, 1, 11, 'M', 1, 11, 'C', 0, 3, 'M', 100}, {1, 5, 0}, {"ill-formed units behind the count", 11, 0}},
    {{1, 5, 0, 11, 'M', 1, 11, 'C', 0}, {0}, {"all units behind the count", 11, 23}},
    {{1, 5, 4, 11, 'M', 1, 12, 'C', 2, 13, 'C', 1, 0, 'M', 0}, {0}, {"a place that is counted without a unit", 11, 24}},
    {{1, 5, 4, 11, 'M', 1, 12, 'C', 2, 13, 'C', 1}, {0}, {"a place that is counted with zeros", 11, 24}},
    {{UINT64_MAX, 5, 2, 11, 'M', 1, 12, 'C', 2}, {1, 5, 1, 12, 'C', 2}, {"an hour by another sign than 1", 11, 0}},
    {{0, 99, 2, 11, 'M', 1, 12, 'C', 2}, {0, 0, 1, 11, 'M', 1}, {"a number in the cell of no hour", 12, 0}},
    {{1, 5, 2, 11, 'm', 1, 12, 'C', 2}, {0}, {"kind m", 12, 24}},
    {{1, 5, 2, 11, 'M', 1, 12, 256 + 'C', 2}, {0}, {"a kind that is a letter in its lowest byte", 11, 24}},
    {{1, 5, 1, 11, 0, 1}, {0}, {"no kind", 11, 24}},
    {{1, 5, 1, 11, 'M', 1, 12, 0, 2}, {1, 5, 0}, {"no kind behind the count", 11, 0}},
};

/* A study on such cells. */
struct raw_study {
    uint64_t cells[CAPPING_DAY_CELLS];
    uint64_t after[CAPPING_DAY_CELLS];
    struct study study;
};

static const struct raw_study raw_studies[] = {
    {{7, 5, 1, 12, 'M', 1, 13, 'C', 1, 3, 66, 100}, {1, 5, 1, 12, 'M', 1},
     {"cells behind the count", HEADER_ROOM, ANSWER_HEADER, {0, 0, 0}, NO_UNITS}},
    {{0, 99, 0, 12, 'M', 1}, {1, 5, 0}, {"cells of no hour and of no units", HEADER_ROOM, ANSWER_HEADER, {0, 0, 0}, NO_UNITS}},
    {{7, 5, 1, 12, 'M', 1, 13, 'C', 1, 3, 66, 100}, {0},
     {"cells behind the count, refused", HEADER_ROOM - 1, "", {10, 0, 0}, NO_UNITS}},
    {{7, 6, 0, 12, 'M', 1}, {0}, {"an earlier hour by another sign than 1", HEADER_ROOM, "", {20, 0, 0}, NO_UNITS}},
    {{1, 5, 1, 12, 'c', 1}, {0}, {"kind c", HEADER_ROOM, "", {24, 0, 0}, NO_UNITS}},
};

/* Units 1 to 64 on M schedule 1 at hour 5, whatever their count. */
static void full_day(uint64_t *day, uint64_t count) {
    capping_day_fresh(day);
    capping_day_set_hour(day, 5);
    for (uint64_t unit = 1; unit <= CAPPING_DAY_UNITS; unit++)
        capping_day_add(day, unit, 'M', 1);
    day[CAPPING_CELL_COUNT] = count;
}

/* Studies with what is beside the files on a copy of the given cells; afterwards they are those, or as they were where it is
 * refused. */
static void study_with(struct beside beside, const uint64_t *given, const uint64_t *after, const struct study *s) {
    uint64_t *day = copy_of(given, DAY_BYTES);
    expect_study_with(beside, s, day);
    require(s->name, "other cells", memcmp(day, s->report[0] == 0 ? after : given, DAY_BYTES) == 0);
    free(day);
}

/* The same with nothing beside the files. */
static void study_on(const uint64_t *given, const uint64_t *after, const struct study *s) {
    study_with((struct beside)NONE, given, after, s);
}

/* Releases from a copy of the given cells; afterwards they are those, or as they were where the release is refused. */
static void release_from(const uint64_t *given, const uint64_t *after, const struct release *r) {
    uint64_t *day = copy_of(given, DAY_BYTES), *report = untouched(3 * sizeof *report);
    require(r->name, "another answer", capping_day_release(day, r->unit, report) == r->number);
    require(r->name, "another report", report[0] == r->number && report[1] == 0 && report[2] == 0);
    require(r->name, "other cells", memcmp(day, r->number == 0 ? after : given, DAY_BYTES) == 0);
    free(report);
    free(day);
}

static void expect_day_study(struct beside beside, const struct day_study *d) {
    uint64_t given[CAPPING_DAY_CELLS], after[CAPPING_DAY_CELLS];
    read_day(given, d->day);
    read_day(after, d->after);
    study_with(beside, given, after, &d->study);
}

static void expect_day_release(const struct day_release *d) {
    uint64_t given[CAPPING_DAY_CELLS], after[CAPPING_DAY_CELLS];
    read_day(given, d->day);
    read_day(after, d->after);
    release_from(given, after, &d->release);
}

/* 22 and its edge: those of the day and of the files count once, and a unit in the place behind the count isn't running. */
static void expect_crowds(void) {
    static const struct study one_more = {"a 65th unit", ENOUGH, "", {22, 0, 0}, UNIT_100};
    static const struct study last = {"a 64th unit", ENOUGH, UNIT_100_ANSWER, {0, 0, 0}, UNIT_100};
    static const struct study no_room = {"a 64th unit without room", 0, "", {10, 0, 0}, UNIT_100};
    static const struct release behind = {"unit 64 behind the count", 64, 23};
    uint64_t given[CAPPING_DAY_CELLS], after[CAPPING_DAY_CELLS];
    full_day(given, 64);
    study_on(given, NULL, &one_more);
    full_day(given, 63);
    full_day(after, 63);
    capping_day_add(after, 100, 'C', 2);
    study_on(given, after, &last);
    study_on(given, NULL, &no_room);
    release_from(given, NULL, &behind);
}

/* Units 13 and 14 of the files stand behind the count: they start, and what stood behind them is gone. */
static void expect_units_behind(void) {
    static const struct study starred = {"units of the files behind the count", ENOUGH, STARRED_11_AND_12_RUN, {0, 0, 0}, STARRED};
    uint64_t given[CAPPING_DAY_CELLS], after[CAPPING_DAY_CELLS];
    full_day(given, 12);
    read_day(after, "5;1:M:1,2:M:1,3:M:1,4:M:1,5:M:1,6:M:1,7:M:1,8:M:1,9:M:1,10:M:1,11:C:2,12:M:1,13:C:1,14:M:1");
    study_on(given, after, &starred);
}

/* 24: more units than there are places for. */
static void expect_counts(void) {
    static const uint64_t counts[] = {65, UINT64_C(1) << 32, UINT64_MAX};
    static const struct study study = {"a study of too high a count", ENOUGH, "", {24, 0, 0}, STARRED};
    static const struct release release = {"a release of too high a count", 1, 24};
    for (size_t i = 0; i < sizeof counts / sizeof *counts; i++) {
        uint64_t given[CAPPING_DAY_CELLS];
        full_day(given, counts[i]);
        study_on(given, NULL, &study);
        release_from(given, NULL, &release);
    }
}

static void require_cells(const char *when, const uint64_t *day, const uint64_t *cells) {
    require(when, "other cells", memcmp(day, cells, DAY_BYTES) == 0);
}

/* A day as a caller has it, from fresh to fresh, with its cells as capping.h lays them. */
static void expect_worked_day(void) {
    static const uint64_t fresh[CAPPING_DAY_CELLS] = {0};
    static const uint64_t studied[CAPPING_DAY_CELLS] = {1, 5, 4, 11, 'C', 2, 12, 'M', 1, 13, 'C', 1, 14, 'M', 1};
    static const uint64_t released[CAPPING_DAY_CELLS] = {1, 5, 3, 11, 'C', 2, 13, 'C', 1, 14, 'M', 1};
    static const struct study first = {"the day's first study", ENOUGH, STARRED_ANSWER, {0, 0, 0}, STARRED};
    static const struct study again = {"a later study of the day", ENOUGH, STARRED_AGAIN, {0, 0, 0}, STARRED};
    uint64_t *day = untouched(DAY_BYTES), *report = untouched(3 * sizeof *report);
    capping_day_fresh(day);
    require_cells("fresh", day, fresh);
    expect_study(&first, day);
    require_cells("after the first study", day, studied);
    expect_study(&again, day);
    require_cells("after the second study", day, studied);
    require("the release", "refused", capping_day_release(day, 12, report) == 0);
    require_cells("after the release", day, released);
    require("the release again", "not refused", capping_day_release(day, 12, report) == 23);
    require_cells("after the release again", day, released);
    expect_study(&again, day);
    require_cells("after the last study", day, studied);
    capping_day_fresh(day);
    require_cells("fresh again", day, fresh);
    free(report);
    free(day);
}

int main(void) {
    for (size_t i = 0; i < sizeof day_studies / sizeof *day_studies; i++)
        expect_day_study((struct beside)NONE, &day_studies[i]);
    for (size_t i = 0; i < sizeof day_studies_beside / sizeof *day_studies_beside; i++)
        expect_day_study(day_studies_beside[i].beside, &day_studies_beside[i].day_study);
    for (size_t i = 0; i < sizeof day_releases / sizeof *day_releases; i++)
        expect_day_release(&day_releases[i]);
    for (size_t i = 0; i < sizeof raw_releases / sizeof *raw_releases; i++)
        release_from(raw_releases[i].cells, raw_releases[i].after, &raw_releases[i].release);
    for (size_t i = 0; i < sizeof raw_studies / sizeof *raw_studies; i++)
        study_on(raw_studies[i].cells, raw_studies[i].after, &raw_studies[i].study);
    expect_crowds();
    expect_units_behind();
    expect_counts();
    expect_worked_day();
    return failures == 0 ? 0 : 1;
}
