/* Cases of the exported call that looks at the choice for one unit. Whatever it answers, no cell of the day changes, and where it
 * is refused no cell of the row; and each is held beside the study that it looks ahead at. What each must answer was worked from
 * documents 01 and 02. */
#include "testing.h"

#define ROW_BYTES (CAPPING_ROW_CELLS * sizeof(uint64_t))
#define UNTOUCHED_ROW {UNTOUCHED, UNTOUCHED, UNTOUCHED, UNTOUCHED, UNTOUCHED, UNTOUCHED, UNTOUCHED}

/* The refusal that no study has. */
#define UNIT_NOT_IN_SUPPLY 31

/* A line of an answer file: five numbers of 20 digits, two letters, the commas, two CR LF and the 0 at the end. */
#define LINE_ROOM 120

/* The starred rows of the answer, as cells, and unit 14's where suppliers are affiliated. */
#define ROW_11 {11, 1, 'F', 0, 2, 'C', 1030000}
#define ROW_12 {12, 2, 'F', 0, 1, 'M', 330000}
#define ROW_13 {13, 3, 'F', 0, 1, 'C', 890000}
#define ROW_14 {14, 4, 'F', 5000000, 1, 'M', 500000}
#define AFFILIATED_14 {14, 4, 'F', 0, 1, 'M', 500000}

/* The starred supply in another order, with unit 11's in two rows. */
#define SHUFFLED \
    {HOUR_5, SUPPLY "14,4,2000,2000,200\r\n13,3,1000,4000,5000\r\n11,1,400,3000,5000\r\n12,2,1000,3000,-5000\r\n" \
                    "11,1,600,3000,5000\r\n", STARRED_SCHEDULES}

/* Other needs: one that is below what is left for unit 14, and one above all that is eligible. */
#define RELIEF_499 {CONSTRAINT "5,499,300\r\n", STARRED_SUPPLY, STARRED_SCHEDULES}
#define RELIEF_1501 {CONSTRAINT "5,1501,300\r\n", STARRED_SUPPLY, STARRED_SCHEDULES}

/* Fields as large as they may be: 100000 tenths of a MW at 370000, with no-load and startup ten times each. */
#define LARGEST \
    {CONSTRAINT "23,1000000,10000\r\n", SUPPLY "9999,999,100000,370000,-10000\r\n", \
     SCHEDULES "9999,99,C,23,100000,370000,100000000,100000000,24\r\n"}

#define NO_14_ON_COST {HOUR_5, STARRED_SUPPLY, UNIT_14_MARKET_ONLY}
#define UNIT_15_IN_SCHEDULES {HOUR_5, STARRED_SUPPLY, STARRED_SCHEDULES "15,1,C,5,1,1,1,1,1\r\n"}
#define NO_FILES {"", "", ""}

/* A preview: what is beside the files, the unit, what is stored or else untouched, and what is reported. */
struct preview {
    const char *name;
    struct beside beside;
    uint64_t unit;
    uint64_t row[CAPPING_ROW_CELLS];
    uint64_t report[3];
    struct files files;
};

/* A preview on a day in words. */
struct day_preview {
    const char *day;
    struct preview preview;
};

static const struct day_preview accepted[] = {
    {"-", {"the starred unit 11", NONE, 11, ROW_11, {0, 0, 0}, STARRED}},
    {"-", {"the starred unit 12", NONE, 12, ROW_12, {0, 0, 0}, STARRED}},
    {"-", {"the starred unit 13", NONE, 13, ROW_13, {0, 0, 0}, STARRED}},
    {"-", {"the starred unit 14", NONE, 14, ROW_14, {0, 0, 0}, STARRED}},
    {"-", {"unit 11 of shuffled supply", NONE, 11, ROW_11, {0, 0, 0}, SHUFFLED}},
    {"-", {"unit 14 of shuffled supply", NONE, 14, ROW_14, {0, 0, 0}, SHUFFLED}},
    {"4;3:C:7,9999:M:99", {"units of other files run", NONE, 12, ROW_12, {0, 0, 0}, STARRED}},
    {STARRED_DAY, {"unit 11 runs", NONE, 11, {11, 1, 'F', 0, 2, 'C', 830000}, {0, 0, 0}, STARRED}},
    {STARRED_DAY, {"unit 13 runs", NONE, 13, {13, 3, 'F', 0, 1, 'C', 880000}, {0, 0, 0}, STARRED}},
    {"n;14:M:1", {"unit 14 runs on the market", NONE, 14, ROW_14, {0, 0, 0}, STARRED}},
    {"n;14:C:2", {"unit 14 runs on cost", NONE, 14, {14, 4, 'F', 5000000, 2, 'C', 220000}, {0, 0, 0}, STARRED}},
    {"5;12:C:2", {"unit 12 runs on cost", NONE, 12, {12, 2, 'F', 0, 2, 'C', 330000}, {0, 0, 0}, STARRED}},
    {"5;12:C:2", {"another unit runs on cost", NONE, 14, ROW_14, {0, 0, 0}, STARRED}},
    {"-", {"unit 14 with affiliated suppliers", {"", PARENTS "1,2\r\n"}, 14, AFFILIATED_14, {0, 0, 0}, STARRED}},
    {"-", {"unit 11 with affiliated suppliers", {"", PARENTS "1,2\r\n"}, 11, ROW_11, {0, 0, 0}, STARRED}},
    {"-", {"the supplier as it is filed", {"", PARENTS "4,900\r\n1,900\r\n"}, 14, AFFILIATED_14, {0, 0, 0}, STARRED}},
    {"-", {"unit 11 with a curve", {CURVE_11, ""}, 11, {11, 1, 'F', 0, 2, 'C', 920000}, {0, 0, 0}, STARRED}},
    {"-", {"another unit than the curve's", {CURVE_11, ""}, 14, ROW_14, {0, 0, 0}, STARRED}},
    {STARRED_DAY, {"unit 11 runs, with a curve", {CURVE_11, ""}, 11, {11, 1, 'F', 0, 2, 'C', 720000}, {0, 0, 0}, STARRED}},
    {"-", {"a curve and affiliated suppliers", {CURVE_11, PARENTS "1,2\r\n"}, 14, AFFILIATED_14, {0, 0, 0}, STARRED}},
    {"-", {"unit 14 passes", NONE, 14, {14, 4, 'P', 5000000, 1, 'M', 500000}, {0, 0, 0}, RELIEF_499}},
    {"-", {"unit 14 can't be tested", NONE, 14, {14, 4, 'U', 0, 1, 'M', 500000}, {0, 0, 0}, RELIEF_1501}},
    {"-", {"unit 11 can't be tested", NONE, 11, {11, 1, 'U', 0, 2, 'C', 1030000}, {0, 0, 0}, RELIEF_1501}},
    {"23;", {"the largest fields", NONE, 9999, {9999, 999, 'U', 0, 99, 'C', 39000000000}, {0, 0, 0}, LARGEST}},
};

static const struct day_preview refused[] = {
    {"-", {"unit 15", NONE, 15, UNTOUCHED_ROW, {31, 0, 0}, STARRED}},
    {"-", {"unit 10", NONE, 10, UNTOUCHED_ROW, {31, 0, 0}, STARRED}},
    {"-", {"unit 0", NONE, 0, UNTOUCHED_ROW, {31, 0, 0}, STARRED}},
    {"-", {"the largest number", NONE, UINT64_MAX, UNTOUCHED_ROW, {31, 0, 0}, STARRED}},
    {"-", {"a unit in the lowest bits", NONE, (UINT64_C(1) << 32) + 14, UNTOUCHED_ROW, {31, 0, 0}, STARRED}},
    {"5;3:C:7,14:M:1", {"a unit that only runs", NONE, 3, UNTOUCHED_ROW, {31, 0, 0}, STARRED}},
    {STARRED_DAY, {"no units in supply", NONE, 11, UNTOUCHED_ROW, {31, 0, 0}, NO_UNITS}},
    {"6;", {"an earlier hour", NONE, 14, UNTOUCHED_ROW, {20, 0, 0}, STARRED}},
    {"6;", {"an earlier hour before unit 15", NONE, 15, UNTOUCHED_ROW, {20, 0, 0}, STARRED}},
    {"5;14:C:2", {"unit 14 on cost, looking at 11", NONE, 11, UNTOUCHED_ROW, {21, 3, 14}, NO_14_ON_COST}},
    {"5;14:C:2", {"unit 14 on cost, looking at 14", NONE, 14, UNTOUCHED_ROW, {21, 3, 14}, NO_14_ON_COST}},
    {"5;14:C:2", {"unit 14 on cost, looking at 15", NONE, 15, UNTOUCHED_ROW, {21, 3, 14}, NO_14_ON_COST}},
    {"24;", {"hour 24 of the day", NONE, 14, UNTOUCHED_ROW, {24, 0, 0}, STARRED}},
    {"5;12:M:1,11:M:1", {"units that don't rise before unit 15", NONE, 15, UNTOUCHED_ROW, {24, 0, 0}, STARRED}},
    {"5;14:M:100", {"schedule 100 before an empty constraint", NONE, 15, UNTOUCHED_ROW, {24, 0, 0}, NO_FILES}},
    {"5;14:M:1", {"an empty constraint", NONE, 14, UNTOUCHED_ROW, {2, 1, 0}, NO_FILES}},
    {"6;", {"a schedule of unit 15", NONE, 15, UNTOUCHED_ROW, {7, 3, 8}, UNIT_15_IN_SCHEDULES}},
    {"6;", {"a stray point", {CURVES "11,3,5,100,1\r\n", ""}, 15, UNTOUCHED_ROW, {32, 4, 1}, STARRED}},
    {"6;", {"a point twice", {CURVE_11 "11,2,5,100,2000\r\n", ""}, 15, UNTOUCHED_ROW, {33, 4, 3}, STARRED}},
    {"6;", {"a low curve of another unit", {CURVES "11,2,5,99,1\r\n", ""}, 14, UNTOUCHED_ROW, {34, 4, 1}, STARRED}},
    {"6;", {"a parent named twice", {"", PARENTS "1,2\r\n1,2\r\n"}, 15, UNTOUCHED_ROW, {35, 5, 2}, STARRED}},
    {"6;", {"a ring", {"", PARENTS "1,2\r\n2,3\r\n3,2\r\n"}, 15, UNTOUCHED_ROW, {36, 5, 2}, STARRED}},
};

/* A preview on cells that no words are, or that words can't tell from others. */
struct raw_preview {
    uint64_t cells[CAPPING_DAY_CELLS];
    struct preview preview;
};

static const struct raw_preview raw_previews[] = {
    {{1, 5, 1, 14, 'c', 2}, {"kind c before unit 15", NONE, 15, UNTOUCHED_ROW, {24, 0, 0}, STARRED}},
    {{1, 5, 1, 14, 256 + 'C', 2}, {"a kind that is a letter in its lowest byte", NONE, 14, UNTOUCHED_ROW, {24, 0, 0}, STARRED}},
    {{1, 5, 2, 14, 'C', 2}, {"a place that is counted with zeros", NONE, 15, UNTOUCHED_ROW, {24, 0, 0}, STARRED}},
    {{1, 5, 65, 14, 'C', 2}, {"a count of 65 before unit 15", NONE, 15, UNTOUCHED_ROW, {24, 0, 0}, STARRED}},
    {{1, 5, UINT64_MAX, 14, 'C', 2}, {"the largest count", NONE, 14, UNTOUCHED_ROW, {24, 0, 0}, STARRED}},
    {{1, UINT64_MAX}, {"the largest hour", NONE, 14, UNTOUCHED_ROW, {24, 0, 0}, STARRED}},
};

/* Looks at one unit on a copy of the given cells. */
static void preview_on(const uint64_t *given, const struct preview *p) {
    struct lent files = lend_with(p->beside, &p->files);
    uint64_t *day = copy_of(given, DAY_BYTES), *row = untouched(ROW_BYTES), *report = untouched(REPORT_BYTES);
    require(p->name, "another answer", capping_preview(day, LENT_ALL(files), p->unit, row, report) == p->report[0]);
    require(p->name, "another row", memcmp(row, p->row, ROW_BYTES) == 0);
    require(p->name, "another report", memcmp(report, p->report, REPORT_BYTES) == 0);
    require(p->name, "a cell of the day changed", memcmp(day, given, DAY_BYTES) == 0);
    free(report);
    free(row);
    free(day);
    take_back(files);
}

/* Writes a row as it stands in an answer file, behind the end of another line. */
static void write_line(char line[LINE_ROOM], const uint64_t *row) {
    snprintf(line, LINE_ROOM, "\r\n%" PRIu64 ",%" PRIu64 ",%c,%" PRIu64 ",%" PRIu64 ",%c,%" PRIu64 "\r\n", row[CAPPING_ROW_UNIT],
             row[CAPPING_ROW_SUPPLIER], (char)row[CAPPING_ROW_VERDICT], row[CAPPING_ROW_LEFT], row[CAPPING_ROW_SCHEDULE],
             (char)row[CAPPING_ROW_KIND], row[CAPPING_ROW_COST]);
}

/* Studies on a copy of the given cells, with a buffer long enough: it writes the row that was previewed, or reports the same
 * refusal. Where that is 31 it is accepted, and writes no such row. */
static void study_on(const uint64_t *given, const struct preview *p) {
    static const uint64_t nothing[3] = {0, 0, 0};
    struct lent files = lend_with(p->beside, &p->files);
    uint64_t *day = copy_of(given, DAY_BYTES), report[3];
    char answer[CAPPING_LONGEST_ANSWER + 1], line[LINE_ROOM];
    uint64_t count = capping_day_study(day, LENT_ALL(files), (uint8_t *)answer, CAPPING_LONGEST_ANSWER, report);
    answer[count] = 0;
    write_line(line, p->row);
    require(p->name, "another row than the study's", (strstr(answer, line) != NULL) == (p->report[0] == 0));
    require(p->name, "another report than the study's",
            memcmp(report, p->report[0] == UNIT_NOT_IN_SUPPLY ? nothing : p->report, REPORT_BYTES) == 0);
    free(day);
    take_back(files);
}

static void expect_preview(const uint64_t *given, const struct preview *p) {
    preview_on(given, p);
    study_on(given, p);
}

/* The same day in other cells: unit 14 on cost in every place behind the count, a number for the hour where there is none, and
 * another sign than 1 where there is one. */
static void add_rubbish(uint64_t *day) {
    static const uint64_t on_cost[CAPPING_CELLS_OF_UNIT] = {14, 'C', 2};
    for (uint64_t i = capping_day_count(day); i < CAPPING_DAY_UNITS; i++)
        memcpy(day + CAPPING_CELL_UNITS + i * CAPPING_CELLS_OF_UNIT, on_cost, sizeof on_cost);
    day[capping_day_has_hour(day) ? CAPPING_CELL_HAS_HOUR : CAPPING_CELL_HOUR] = 99;
}

static void expect_day_preview(const struct day_preview *d) {
    uint64_t given[CAPPING_DAY_CELLS];
    read_day(given, d->day);
    expect_preview(given, &d->preview);
    add_rubbish(given);
    expect_preview(given, &d->preview);
}

/* 22 and its edge, with units that the starred files don't have. */
static void expect_crowds(void) {
    static const struct preview last = {"a 64th unit", NONE, 11, ROW_11, {0, 0, 0}, STARRED};
    static const struct preview last_unknown = {"a 64th unit, looking at 15", NONE, 15, UNTOUCHED_ROW, {31, 0, 0}, STARRED};
    static const struct preview one_more = {"a 65th unit", NONE, 11, UNTOUCHED_ROW, {22, 0, 0}, STARRED};
    static const struct preview one_more_unknown = {"a 65th unit, looking at 15", NONE, 15, UNTOUCHED_ROW, {22, 0, 0}, STARRED};
    uint64_t given[CAPPING_DAY_CELLS];
    capping_day_fresh(given);
    for (uint64_t unit = 101; unit <= 160; unit++)
        capping_day_add(given, unit, 'M', 1);
    expect_preview(given, &last);
    expect_preview(given, &last_unknown);
    capping_day_add(given, 161, 'M', 1);
    expect_preview(given, &one_more);
    expect_preview(given, &one_more_unknown);
}

/* A schedules file of units from 1 to so many, each of which has one C schedule. */
static const char *schedules_of(unsigned units) {
    static char text[4096];
    size_t at = (size_t)snprintf(text, sizeof text, "%s", SCHEDULES);
    for (unsigned unit = 1; unit <= units; unit++)
        at += (size_t)snprintf(text + at, sizeof text - at, "%u,1,C,5,100,3000,50000,20000,1\r\n", unit);
    return text;
}

/* As many units as there may be, each of 5000000, two of each of 32 suppliers: 29 suppliers are left, more than the need. However
 * long the answer file would be, 10 is never told. */
static void expect_most_units(void) {
    uint64_t given[CAPPING_DAY_CELLS];
    struct files most = {HOUR_5, supply_of(64, 64, 32), schedules_of(64)};
    struct preview first = {"the first of 64 units", NONE, 1, {1, 1, 'P', 290000000, 1, 'C', 1030000}, {0, 0, 0}, most};
    struct preview last = {"the last of 64 units", NONE, 64, {64, 32, 'P', 290000000, 1, 'C', 1030000}, {0, 0, 0}, most};
    struct preview none = {"none of 64 units", NONE, 65, UNTOUCHED_ROW, {31, 0, 0}, most};
    capping_day_fresh(given);
    expect_preview(given, &first);
    expect_preview(given, &last);
    expect_preview(given, &none);
}

int main(void) {
    for (size_t i = 0; i < sizeof accepted / sizeof *accepted; i++)
        expect_day_preview(&accepted[i]);
    for (size_t i = 0; i < sizeof refused / sizeof *refused; i++)
        expect_day_preview(&refused[i]);
    for (size_t i = 0; i < sizeof raw_previews / sizeof *raw_previews; i++)
        expect_preview(raw_previews[i].cells, &raw_previews[i].preview);
    expect_crowds();
    expect_most_units();
    return failures == 0 ? 0 : 1;
}
