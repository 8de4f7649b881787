/* Cases of the functions that tell what stands in a day and that make one, and of a day in words. What each must answer is what
 * the headers say and, for the words, what replay reads. */
#include "capping_words.h"
#include "testing.h"

/* The most units that replay reads. */
#define MANY 1000

/* Days that are written as they are read, ill-formed ones too. */
static const char *const days[] = {
    "-", "0;", "23;", "5;11:M:1", "n;11:C:99", "5;11:C:2,12:M:1", "24;12:M:1,11:M:0",
    "18446744073709551615;18446744073709551615:C:18446744073709551615",
};

/* What isn't in the form. */
static const char *const no_days[] = {
    "", "n", "5", ";", "--", "- ", "n-", "nn;", "-;", "05;", "00;", "+5;", "-5;", " 5;", "5; ", "5;;", "18446744073709551616;",
    "5;11", "5;11:M", "5;11:M:", "5;11:M:1,", "5;,11:M:1", "5;11:M:1,,12:M:1", "5;11:M:1;12:M:1", "5;11:m:1", "5;11:X:1",
    "5;11:MC:1", "5;11;M:1", "5;11:M;1", "5;11::1", "5;:M:1", "5;011:M:1", "5;11:M:01", "5;11:M:1 ", "5;18446744073709551616:M:1",
    "5;11:M:18446744073709551616", "5;11:M:99999999999999999999999999",
};

/* Two days in cells, and whether they are equal. */
struct pair {
    const char *name;
    int equal;
    uint64_t a[CAPPING_DAY_CELLS], b[CAPPING_DAY_CELLS];
};

static const struct pair pairs[] = {
    {"the same cells", 1, {1, 5, 2, 11, 'M', 1, 12, 'C', 2}, {1, 5, 2, 11, 'M', 1, 12, 'C', 2}},
    {"an hour by another sign than 1", 1, {1, 5, 1, 11, 'M', 1}, {7, 5, 1, 11, 'M', 1}},
    {"a unit behind the count", 1, {1, 5, 1, 11, 'M', 1, 12, 'C', 2}, {1, 5, 1, 11, 'M', 1}},
    {"a number in the cell of no hour", 1, {0, 99}, {0}},
    {"no hour and hour 0", 0, {0}, {1}},
    {"another hour", 0, {1, 5}, {1, 6}},
    {"one unit more", 0, {1, 5, 2, 11, 'M', 1, 12, 'C', 2}, {1, 5, 1, 11, 'M', 1, 12, 'C', 2}},
    {"one place more, of zeros", 0, {1, 5, 1}, {1, 5}},
    {"another unit", 0, {1, 5, 1, 11, 'M', 1}, {1, 5, 1, 12, 'M', 1}},
    {"another kind", 0, {1, 5, 1, 11, 'M', 1}, {1, 5, 1, 11, 'C', 1}},
    {"another schedule", 0, {1, 5, 1, 11, 'M', 1}, {1, 5, 1, 11, 'M', 2}},
};

/* Cells that no words are. */
static const uint64_t wordless[][CAPPING_DAY_CELLS] = {
    {1, 5, 65},
    {1, 5, UINT64_MAX},
    {1, 5, 1, 11, 0, 1},
    {1, 5, 2, 11, 'M', 1, 12, 'm', 1},
    {1, 5, 1, 11, 256 + 'M', 1},
};

static void expect_words(const char *words) {
    uint64_t *day = untouched(DAY_BYTES);
    char *written = untouched(CAPPING_DAY_WORDS);
    require(words, "not read", capping_day_read(day, words));
    require(words, "not written", capping_day_write(day, written));
    require(words, "written otherwise", strcmp(words, written) == 0);
    free(written);
    free(day);
}

static void expect_no_words(const char *words) {
    uint64_t *day = untouched(DAY_BYTES), *before = untouched(DAY_BYTES);
    require(words, "read", !capping_day_read(day, words));
    require(words, "a cell changed", memcmp(day, before, DAY_BYTES) == 0);
    free(before);
    free(day);
}

static void expect_cells(const char *words, const uint64_t cells[CAPPING_DAY_CELLS]) {
    uint64_t *day = untouched(DAY_BYTES);
    require(words, "not read", capping_day_read(day, words));
    require(words, "other cells", memcmp(day, cells, DAY_BYTES) == 0);
    free(day);
}

static void expect_pair(const struct pair *p) {
    uint64_t *a = copy_of(p->a, DAY_BYTES), *b = copy_of(p->b, DAY_BYTES);
    require(p->name, "equal or not", capping_day_equal(a, b) == p->equal && capping_day_equal(b, a) == p->equal);
    free(b);
    free(a);
}

/* What stands where, and nothing behind the count. */
static void expect_what_stands(void) {
    static const uint64_t cells[CAPPING_DAY_CELLS] = {7, 5, 2, 11, 'C', 2, 12, 'M', 1, 13, 'C', 3};
    static const uint64_t places[] = {2, CAPPING_DAY_UNITS, UINT64_MAX};
    uint64_t *day = copy_of(cells, DAY_BYTES);
    require("a day", "hour", capping_day_has_hour(day) && capping_day_hour(day) == 5);
    require("a day", "count", capping_day_count(day) == 2);
    require("a day", "units", capping_day_unit(day, 0) == 11 && capping_day_unit(day, 1) == 12);
    require("a day", "kinds", capping_day_kind(day, 0) == 'C' && capping_day_kind(day, 1) == 'M');
    require("a day", "schedules", capping_day_schedule(day, 0) == 2 && capping_day_schedule(day, 1) == 1);
    day[CAPPING_CELL_HAS_HOUR] = 0;
    require("a day", "no hour", !capping_day_has_hour(day) && capping_day_hour(day) == 0);
    for (size_t i = 0; i < sizeof places / sizeof *places; i++)
        require("a day", "a unit where none is", capping_day_unit(day, places[i]) == 0 && capping_day_kind(day, places[i]) == 0 &&
                                                     capping_day_schedule(day, places[i]) == 0);
    day[CAPPING_CELL_COUNT] = UINT64_MAX;
    require("a day of too high a count", "third unit", capping_day_unit(day, 2) == 13);
    require("a day of too high a count", "a unit past the last place", capping_day_unit(day, CAPPING_DAY_UNITS) == 0);
    free(day);
}

/* Units are added up to the last place; more are counted, and the count never comes round to 0. Such a day has no words. */
static void expect_added(void) {
    uint64_t *day = untouched(DAY_BYTES);
    char *written = untouched(CAPPING_DAY_WORDS);
    capping_day_fresh(day);
    for (uint64_t unit = 1; unit <= CAPPING_DAY_UNITS + 1; unit++)
        capping_day_add(day, unit, 'C', 7);
    require("65 units", "another count", capping_day_count(day) == CAPPING_DAY_UNITS + 1);
    require("65 units", "another last unit", capping_day_unit(day, CAPPING_DAY_UNITS - 1) == CAPPING_DAY_UNITS);
    require("65 units", "written", !capping_day_write(day, written));
    day[CAPPING_CELL_COUNT] = UINT64_MAX;
    capping_day_add(day, 66, 'C', 7);
    require("65 units", "a count that came round", capping_day_count(day) == UINT64_MAX);
    free(written);
    free(day);
}

/* The longest words fill their buffer, and are those of the same day. */
static void expect_longest(void) {
    uint64_t *day = untouched(DAY_BYTES), *again = untouched(DAY_BYTES);
    char *written = untouched(CAPPING_DAY_WORDS);
    capping_day_fresh(day);
    capping_day_set_hour(day, UINT64_MAX);
    for (int i = 0; i < CAPPING_DAY_UNITS; i++)
        capping_day_add(day, UINT64_MAX, 'M', UINT64_MAX);
    require("the longest words", "not written", capping_day_write(day, written));
    require("the longest words", "another length", strlen(written) == CAPPING_DAY_WORDS - 1);
    require("the longest words", "another day", capping_day_read(again, written) && capping_day_equal(day, again));
    free(written);
    free(again);
    free(day);
}

/* Of many units the places are filled and all are counted; one more is not in the form. */
static void expect_many(void) {
    static char words[16 * (MANY + 1)];
    uint64_t day[CAPPING_DAY_CELLS];
    size_t at = (size_t)snprintf(words, sizeof words, "5;1:M:1");
    for (int unit = 2; unit <= MANY; unit++)
        at += (size_t)snprintf(words + at, sizeof words - at, ",%d:M:1", unit);
    require("many units", "not read", capping_day_read(day, words));
    require("many units", "another count", capping_day_count(day) == MANY);
    require("many units", "another last unit", capping_day_unit(day, CAPPING_DAY_UNITS - 1) == CAPPING_DAY_UNITS);
    snprintf(words + at, sizeof words - at, ",%d:M:1", MANY + 1);
    expect_no_words(words);
}

int main(void) {
    static const uint64_t two_units[CAPPING_DAY_CELLS] = {1, 5, 2, 11, 'C', 2, 12, 'M', 1};
    static const uint64_t no_hour[CAPPING_DAY_CELLS] = {0, 0, 1, 11, 'M', 1};
    static const uint64_t fresh[CAPPING_DAY_CELLS] = {0};
    char written[CAPPING_DAY_WORDS];
    for (size_t i = 0; i < sizeof days / sizeof *days; i++)
        expect_words(days[i]);
    for (size_t i = 0; i < sizeof no_days / sizeof *no_days; i++)
        expect_no_words(no_days[i]);
    for (size_t i = 0; i < sizeof pairs / sizeof *pairs; i++)
        expect_pair(&pairs[i]);
    for (size_t i = 0; i < sizeof wordless / sizeof *wordless; i++)
        require("cells that no words are", "written", !capping_day_write(wordless[i], written));
    expect_cells("5;11:C:2,12:M:1", two_units);
    expect_cells("n;11:M:1", no_hour);
    expect_cells("n;", fresh);
    expect_cells("-", fresh);
    expect_what_stands();
    expect_added();
    expect_longest();
    expect_many();
    return failures == 0 ? 0 : 1;
}
