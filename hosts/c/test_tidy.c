/* Cases of the exported call that hands a file back tidy, one for each number at least that it can give. What each must answer was
 * worked from documents 01 and 02. */
#include "testing.h"

/* Room for any tidy file here but the longest. */
#define ENOUGH_TIDY 400

/* The starred files with some fields quoted, and without the last CR LF. */
#define QUOTED_CONSTRAINT "hour,\"relief\",cutoff\r\n\"5\",1000,\"300\""
#define QUOTED_SUPPLY \
    "\"unit\",supplier,mw,cost,\"dfax\"\r\n\"11\",\"1\",\"1000\",\"3000\",\"5000\"\r\n12,2,1000,3000,\"-5000\"\r\n" \
    "13,\"3\",1000,4000,5000\r\n14,4,2000,2000,200"

/* Rows of a unit, or of a schedule, that others stand between; two of them are equal. No supply has the units of the schedules. */
#define SCATTERED_SUPPLY SUPPLY "12,2,9,0,-1\r\n11,1,5,7,0\r\n12,2,9,0,-1\r\n11,1,4,7,0\r\n"
#define SCATTERED_SCHEDULES SCHEDULES "9,2,C,23,0,0,0,0,24\r\n7,1,M,0,1,2,3,4,1\r\n9,2,C,1,5,6,7,0,24\r\n"

/* A file to tidy: which it is, how long a buffer is lent, what is written or else what is reported. */
struct tidying {
    const char *name;
    uint64_t file;
    size_t room;
    const char *bytes;
    const char *tidy;
    uint64_t report[3];
};

static const struct tidying accepted[] = {
    {"a tidy constraint", CAPPING_CONSTRAINT, ENOUGH_TIDY, HOUR_5, HOUR_5, {0, 0, 0}},
    {"a quoted constraint", CAPPING_CONSTRAINT, ENOUGH_TIDY, QUOTED_CONSTRAINT, HOUR_5, {0, 0, 0}},
    {"a tidy supply", CAPPING_SUPPLY, ENOUGH_TIDY, STARRED_SUPPLY, STARRED_SUPPLY, {0, 0, 0}},
    {"a quoted supply", CAPPING_SUPPLY, ENOUGH_TIDY, QUOTED_SUPPLY, STARRED_SUPPLY, {0, 0, 0}},
    {"tidy schedules", CAPPING_SCHEDULES, ENOUGH_TIDY, STARRED_SCHEDULES, STARRED_SCHEDULES, {0, 0, 0}},
    {"supply rows in their order", CAPPING_SUPPLY, ENOUGH_TIDY, SCATTERED_SUPPLY, SCATTERED_SUPPLY, {0, 0, 0}},
    {"schedules of any units", CAPPING_SCHEDULES, ENOUGH_TIDY, SCATTERED_SCHEDULES, SCATTERED_SCHEDULES, {0, 0, 0}},
    {"no supply rows, a buffer that just fits", CAPPING_SUPPLY, 28, "unit,supplier,mw,cost,dfax", SUPPLY, {0, 0, 0}},
    {"a constraint, a buffer that just fits", CAPPING_CONSTRAINT, 32, QUOTED_CONSTRAINT, HOUR_5, {0, 0, 0}},
};

static const struct tidying refused[] = {
    {"no supply rows, a buffer one short", CAPPING_SUPPLY, 27, SUPPLY, "", {30, 0, 0}},
    {"a constraint, a buffer one short", CAPPING_CONSTRAINT, 31, HOUR_5, "", {30, 0, 0}},
    {"a buffer short by the last CR LF alone", CAPPING_SUPPLY, sizeof STARRED_SUPPLY - 3, STARRED_SUPPLY, "", {30, 0, 0}},
    {"no room at all", CAPPING_SCHEDULES, 0, SCHEDULES, "", {30, 0, 0}},
    {"LF alone in the constraint", CAPPING_CONSTRAINT, ENOUGH_TIDY, CONSTRAINT "5,1000,300\n", "", {1, 1, 0}},
    {"a tab in supply", CAPPING_SUPPLY, ENOUGH_TIDY, STARRED_SUPPLY "\t", "", {1, 2, 0}},
    {"an open quote in schedules", CAPPING_SCHEDULES, ENOUGH_TIDY, STARRED_SCHEDULES "\"", "", {1, 3, 0}},
    {"no bytes of a constraint", CAPPING_CONSTRAINT, 0, "", "", {2, 1, 0}},
    {"no bytes of a supply", CAPPING_SUPPLY, 0, "", "", {2, 2, 0}},
    {"no bytes of schedules", CAPPING_SCHEDULES, 0, "", "", {2, 3, 0}},
    {"schedules for a supply", CAPPING_SUPPLY, ENOUGH_TIDY, STARRED_SCHEDULES, "", {2, 2, 0}},
    {"a blank line behind the rows", CAPPING_SUPPLY, ENOUGH_TIDY, STARRED_SUPPLY "\r\n", "", {2, 2, 5}},
    {"hour 24", CAPPING_CONSTRAINT, ENOUGH_TIDY, CONSTRAINT "24,1000,300\r\n", "", {3, 1, 1}},
    {"dfax -0", CAPPING_SUPPLY, ENOUGH_TIDY, STARRED_SUPPLY "15,5,1,0,-0\r\n", "", {3, 2, 5}},
    {"kind m", CAPPING_SCHEDULES, ENOUGH_TIDY, SCHEDULES "12,2,m,5,100,3000,0,0,1\r\n", "", {3, 3, 1}},
    {"no constraint row", CAPPING_CONSTRAINT, ENOUGH_TIDY, CONSTRAINT, "", {4, 1, 0}},
    {"two constraint rows, the first of them out of range", CAPPING_CONSTRAINT, ENOUGH_TIDY,
     CONSTRAINT "24,1000,300\r\n5,1000,300\r\n", "", {4, 1, 0}},
    {"a unit's dfax differs in its sign", CAPPING_SUPPLY, 0, STARRED_SUPPLY "11,1,1000,3000,-5000\r\n", "", {6, 2, 5}},
    {"a schedule's hour repeated", CAPPING_SCHEDULES, 0, STARRED_SCHEDULES "14,2,C,5,9,9,9,0,1\r\n", "", {6, 3, 8}},
    {"a second M schedule of a unit in no supply", CAPPING_SCHEDULES, ENOUGH_TIDY,
     SCATTERED_SCHEDULES "7,3,M,0,1,2,3,4,1\r\n", "", {6, 3, 4}},
    {"file 0", 0, ENOUGH_TIDY, HOUR_5, "", {2, 0, 0}},
    {"file 4, curves", 4, ENOUGH_TIDY, CURVE_11, "", {2, 0, 0}},
    {"file 5, parents", 5, ENOUGH_TIDY, PARENTS "1,2\r\n", "", {2, 0, 0}},
    {"the file with the highest number", UINT64_MAX, ENOUGH_TIDY, "\t", "", {2, 0, 0}},
};

static void expect_tidy(const struct tidying *t) {
    size_t bytes_len = strlen(t->bytes);
    uint8_t *bytes = copy_of(t->bytes, bytes_len);
    struct room room = lend_room(t->room);
    uint64_t count = capping_tidy(t->file, bytes, bytes_len, ROOM(room));
    expect_written(t->name, room, count, t->tidy, t->report);
    free(bytes);
}

/* Limits of a supply file alone. */
static void expect_limits(void) {
    struct tidying crowd = {"64 units and 32 suppliers", CAPPING_SUPPLY, 16384, supply_of(256, 64, 32), "", {0, 0, 0}};
    crowd.tidy = crowd.bytes;
    expect_tidy(&crowd);
    expect_tidy(&(struct tidying){"257 supply rows", CAPPING_SUPPLY, 0, supply_of(257, 65, 33), "", {4, 2, 0}});
    expect_tidy(&(struct tidying){"a 65th unit", CAPPING_SUPPLY, 0, supply_of(66, 65, 1), "", {5, 2, 65}});
    expect_tidy(&(struct tidying){"a 33rd supplier", CAPPING_SUPPLY, 0, supply_of(34, 64, 33), "", {5, 2, 33}});
}

/* Writes a file of so many rows, each of which has every field as long as it may be. */
static const char *longest_supply(unsigned rows) {
    static char text[2 * CAPPING_LONGEST_TIDY_SUPPLY];
    size_t at = (size_t)snprintf(text, sizeof text, "%s", SUPPLY);
    for (unsigned row = 0; row < rows; row++)
        at += (size_t)snprintf(text + at, sizeof text - at, "%u,%u,100000,370000,-10000\r\n", 9999 - row % 64, 999 - row % 32);
    return text;
}

static const char *longest_schedules(unsigned rows) {
    static char text[2 * CAPPING_LONGEST_TIDY_SCHEDULES];
    size_t at = (size_t)snprintf(text, sizeof text, "%s", SCHEDULES);
    for (unsigned row = 0; row < rows; row++)
        at += (size_t)snprintf(text + at, sizeof text - at, "%u,99,M,%u,100000,370000,100000000,100000000,24\r\n",
                               9999 - row / 14, 10 + row % 14);
    return text;
}

/* A tidy file that just fills so many bytes is written there, and refused where there is one less. */
static void expect_longest(const char *name, uint64_t file, const char *text, size_t longest) {
    require(name, "another length", strlen(text) == longest);
    require(name, "another longest", capping_longest_tidy(file) == longest);
    expect_tidy(&(struct tidying){name, file, longest, text, text, {0, 0, 0}});
    expect_tidy(&(struct tidying){name, file, longest - 1, text, "", {30, 0, 0}});
}

int main(void) {
    for (size_t i = 0; i < sizeof accepted / sizeof *accepted; i++)
        expect_tidy(&accepted[i]);
    for (size_t i = 0; i < sizeof refused / sizeof *refused; i++)
        expect_tidy(&refused[i]);
    expect_limits();
    expect_longest("the longest constraint", CAPPING_CONSTRAINT, CONSTRAINT "23,1000000,10000\r\n",
                   CAPPING_LONGEST_TIDY_CONSTRAINT);
    expect_longest("the longest supply", CAPPING_SUPPLY, longest_supply(256), CAPPING_LONGEST_TIDY_SUPPLY);
    expect_longest("the longest schedules", CAPPING_SCHEDULES, longest_schedules(1024), CAPPING_LONGEST_TIDY_SCHEDULES);
    expect_tidy(&(struct tidying){"1025 schedule rows", CAPPING_SCHEDULES, 0, longest_schedules(1025), "", {4, 3, 0}});
    require("no such file", "a longest", capping_longest_tidy(0) == 0 && capping_longest_tidy(4) == 0 && capping_longest_tidy(5) == 0);
    return failures == 0 ? 0 : 1;
}
