/* Cases of the exported check, study and test, one for each number at least that a call can give. What each must answer was
 * worked from documents 01 and 02. */
#include "testing.h"

/* Files that keep every rule. */
#define TWO_UNITS SUPPLY "11,1,1000,3000,5000\r\n12,2,1000,3000,-5000\r\n"
#define ROW_OF_11 "11,1,M,5,100,4000,50000,20000,1\r\n"
#define ROW_OF_12 "12,1,C,5,100,3000,0,0,1\r\n"
#define BOTH_UNITS SCHEDULES ROW_OF_11 ROW_OF_12

struct example {
    const char *name;
    uint64_t number;
    struct files files;
};

static const struct example examples[] = {
    {"all rules kept", 0, {HOUR_5, TWO_UNITS, BOTH_UNITS}},
    {"no rows of supply and schedules", 0, NO_UNITS},
    {"fields quoted, last record without CR LF", 0, {CONSTRAINT "\"5\",1000,300", TWO_UNITS, BOTH_UNITS}},
    {"LF alone in the constraint", 1, {CONSTRAINT "5,1000,300\n", TWO_UNITS, BOTH_UNITS}},
    {"open quote in supply", 1, {HOUR_5, TWO_UNITS "\"13", BOTH_UNITS}},
    {"tab in schedules", 1, {HOUR_5, TWO_UNITS, BOTH_UNITS "\t"}},
    {"empty constraint", 2, {"", TWO_UNITS, BOTH_UNITS}},
    {"another header in supply", 2, {HOUR_5, "Unit,supplier,mw,cost,dfax\r\n", BOTH_UNITS}},
    {"ten fields in schedules", 2, {HOUR_5, TWO_UNITS, BOTH_UNITS "12,2,C,5,100,3000,0,0,1,1\r\n"}},
    {"hour 24", 3, {CONSTRAINT "24,1000,300\r\n", TWO_UNITS, BOTH_UNITS}},
    {"dfax -0", 3, {HOUR_5, TWO_UNITS "13,3,1,0,-0\r\n", BOTH_UNITS}},
    {"kind m", 3, {HOUR_5, TWO_UNITS, BOTH_UNITS "12,2,m,5,100,3000,0,0,1\r\n"}},
    {"no constraint row", 4, {CONSTRAINT, TWO_UNITS, BOTH_UNITS}},
    {"two constraint rows", 4, {HOUR_5 "5,1000,300\r\n", TWO_UNITS, BOTH_UNITS}},
    {"dfax of one unit differs in its sign", 6, {HOUR_5, TWO_UNITS "11,1,1000,3000,-5000\r\n", BOTH_UNITS}},
    {"a schedule's hour repeated", 6, {HOUR_5, TWO_UNITS, BOTH_UNITS ROW_OF_11}},
    {"a second M schedule", 6, {HOUR_5, TWO_UNITS, BOTH_UNITS "11,2,M,5,100,4000,50000,20000,1\r\n"}},
    {"schedule of a unit not in supply", 7, {HOUR_5, TWO_UNITS, BOTH_UNITS "13,1,C,5,100,3000,0,0,1\r\n"}},
    {"unit without a schedule", 8, {HOUR_5, TWO_UNITS, SCHEDULES ROW_OF_11}},
    {"run of two hours with a row for one", 9, {HOUR_5, TWO_UNITS, BOTH_UNITS "12,2,C,5,100,3000,0,0,2\r\n"}},
    {"no row for the study hour", 9, {HOUR_5, TWO_UNITS, SCHEDULES ROW_OF_11 "12,1,C,6,100,3000,0,0,1\r\n"}},
};

static const struct study studies[] = {
    {"the starred example", CAPPING_LONGEST_ANSWER, STARRED_ANSWER, {0, 0, 0}, STARRED},
    {"a buffer that just fits", sizeof STARRED_ANSWER - 1, STARRED_ANSWER, {0, 0, 0}, STARRED},
    {"a buffer one short", sizeof STARRED_ANSWER - 2, "", {10, 0, 0}, STARRED},
    {"no room at all", 0, "", {10, 0, 0}, STARRED},
    {"no units", sizeof ANSWER_HEADER - 1, ANSWER_HEADER, {0, 0, 0}, NO_UNITS},
    {"empty constraint", 0, "", {2, 1, 0}, {"", TWO_UNITS, BOTH_UNITS}},
    {"text behind a closing quote", 99, "", {1, 2, 0}, {HOUR_5, TWO_UNITS "\"13\"3", BOTH_UNITS}},
    {"ten fields in the third schedule row", 99, "", {2, 3, 3}, {HOUR_5, TWO_UNITS, BOTH_UNITS "12,2,C,5,100,3000,0,0,1,1\r\n"}},
    {"dfax -0 in the third supply row", 99, "", {3, 2, 3}, {HOUR_5, TWO_UNITS "13,3,1,0,-0\r\n", BOTH_UNITS}},
    {"two constraint rows", 99, "", {4, 1, 0}, {HOUR_5 "5,1000,300\r\n", TWO_UNITS, BOTH_UNITS}},
    {"a unit's other supplier", 99, "", {6, 2, 3}, {HOUR_5, TWO_UNITS "11,2,1000,3000,5000\r\n", BOTH_UNITS}},
    {"a unit not in supply", 99, "", {7, 3, 3}, {HOUR_5, TWO_UNITS, BOTH_UNITS "13,1,C,5,100,3000,0,0,1\r\n"}},
    {"unit 12 without a schedule", 99, "", {8, 3, 12}, {HOUR_5, TWO_UNITS, SCHEDULES ROW_OF_11}},
    {"unit 12 without its second hour", 99, "", {9, 3, 12}, {HOUR_5, TWO_UNITS, BOTH_UNITS "12,2,C,5,100,3000,0,0,2\r\n"}},
};

/* Files that are refused with 7 and with 8. */
#define UNIT_15_ASTRAY {HOUR_5, STARRED_SUPPLY, STARRED_SCHEDULES "15,1,C,5,100,3000,0,0,1\r\n"}
#define NO_SCHEDULES {HOUR_5, STARRED_SUPPLY, SCHEDULES}

static const struct study_beside parents_studies[] = {
    {{"", ""}, {"parents of no bytes", ENOUGH, STARRED_ANSWER, {0, 0, 0}, STARRED}},
    {{"", PARENTS}, {"parents without rows", ENOUGH, STARRED_ANSWER, {0, 0, 0}, STARRED}},
    {{"", PARENTS "5,6\r\n"}, {"parents of no supplier that has supply", ENOUGH, STARRED_ANSWER, {0, 0, 0}, STARRED}},
    {{"", PARENTS "1,2\r\n"}, {"a supplier and its parent", ENOUGH, AFFILIATED_ANSWER, {0, 0, 0}, STARRED}},
    {{"", PARENTS "\"1\",2"}, {"parents quoted, without the last CR LF", ENOUGH, AFFILIATED_ANSWER, {0, 0, 0}, STARRED}},
    {{"", PARENTS "4,900\r\n1,900\r\n"}, {"a parent that isn't in supply", ENOUGH, AFFILIATED_ANSWER, {0, 0, 0}, STARRED}},
    {{"", PARENTS "1,5\r\n5,6\r\n2,6\r\n"}, {"a chain of two steps", ENOUGH, AFFILIATED_ANSWER, {0, 0, 0}, STARRED}},
    {{"", PARENTS "1,2\r\n"}, {"parents and a buffer one short", sizeof AFFILIATED_ANSWER - 2, "", {10, 0, 0}, STARRED}},
    {{"", PARENTS "1,2\n"}, {"LF alone in parents", ENOUGH, "", {1, 5, 0}, STARRED}},
    {{"", "\r\n"}, {"a blank line for parents", ENOUGH, "", {2, 5, 0}, STARRED}},
    {{"", PARENTS "1,2\r\n3\r\n"}, {"one field in the second row of parents", ENOUGH, "", {2, 5, 2}, STARRED}},
    {{"", PARENTS "1,2\r\n3,1000\r\n"}, {"parent 1000", ENOUGH, "", {3, 5, 2}, STARRED}},
    {{"", PARENTS "0,1\r\n"}, {"supplier 0", ENOUGH, "", {3, 5, 1}, STARRED}},
    {{"", PARENTS "1,2\r\n1,3\r\n"}, {"two parents", ENOUGH, "", {35, 5, 2}, STARRED}},
    {{"", PARENTS "1,2\r\n1,2\r\n"}, {"a parent named twice", ENOUGH, "", {35, 5, 2}, STARRED}},
    {{"", PARENTS "1,2\r\n2,3\r\n3,2\r\n"}, {"a chain that leads into a ring", ENOUGH, "", {36, 5, 2}, STARRED}},
    {{"", PARENTS "1,1\r\n"}, {"a supplier that names itself", ENOUGH, "", {36, 5, 1}, STARRED}},
    {{"", PARENTS "1,1\r\n2,3\r\n2,4\r\n"}, {"two parents behind a ring", ENOUGH, "", {35, 5, 3}, STARRED}},
    {{"", PARENTS "1,2\n"}, {"a stray unit before parents", ENOUGH, "", {7, 3, 8}, UNIT_15_ASTRAY}},
    {{"", PARENTS "1,1\r\n"}, {"a ring before a unit without a schedule", ENOUGH, "", {36, 5, 1}, NO_SCHEDULES}},
};

static const struct one_test tests[] = {
    {"the last of four at need 2", {4, 3, 2, 1}, 4, 3, 2, CAPPING_P, 2},
    {"the last of four at need 3", {4, 3, 2, 1}, 4, 3, 3, CAPPING_F, 2},
    {"no two others exist", {5, 5}, 2, 0, 1, CAPPING_F, 0},
    {"need 0", {5}, 1, 0, 0, CAPPING_P, 0},
    {"the largest need", {MOST_AMOUNT, MOST_AMOUNT, MOST_AMOUNT, MOST_AMOUNT}, 4, 1, UINT64_MAX, CAPPING_F, MOST_AMOUNT},
    {"32 amounts of 0", {0}, 32, 31, 1, CAPPING_F, 0},
    {"33 amounts", {0}, 33, 0, 1, CAPPING_TEST_REFUSED, UNTOUCHED},
    {"an amount above 10^12", {1, MOST_AMOUNT + 1}, 2, 0, 1, CAPPING_TEST_REFUSED, UNTOUCHED},
    {"a place past the last", {4, 3, 2, 1}, 4, 4, 1, CAPPING_TEST_REFUSED, UNTOUCHED},
    {"a place of 2^63", {4, 3, 2, 1}, 4, UINT64_C(1) << 63, 1, CAPPING_TEST_REFUSED, UNTOUCHED},
    {"no amounts", {0}, 0, 0, 1, CAPPING_TEST_REFUSED, UNTOUCHED},
};

static void expect_check(const char *name, uint64_t number, struct files texts) {
    struct lent files = lend(&texts);
    require(name, "another number", capping_check(LENT(files)) == number);
    take_back(files);
}

static void expect_test(const struct one_test *t) {
    uint64_t *amounts = copy_of(t->amounts, t->count * sizeof *amounts), *left = untouched(sizeof *left);
    require(t->name, "another verdict", capping_test(amounts, t->count, t->place, t->need, left) == t->verdict);
    require(t->name, "another left", *left == t->left);
    free(left);
    free(amounts);
}

/* Neither curves nor parents, as a caller writes it. */
static void expect_nothing_beside(void) {
    const struct files texts = STARRED;
    struct lent files = lend(&texts);
    uint8_t answer[ENOUGH];
    uint64_t report[3];
    uint64_t count = capping_study(LENT(files), CAPPING_NO_CURVES, CAPPING_NO_PARENTS, answer, sizeof answer, report);
    require("nothing beside", "another answer", count == sizeof STARRED_ANSWER - 1 && memcmp(answer, STARRED_ANSWER, count) == 0);
    take_back(files);
}

/* As many parents as there may be, and one more. */
static void expect_chains(void) {
    static const struct study most = {"64 parents", ENOUGH, AFFILIATED_ANSWER, {0, 0, 0}, STARRED};
    static const struct study too_many = {"65 parents", ENOUGH, "", {4, 5, 0}, STARRED};
    char chain[CHAIN_ROOM];
    write_chain(chain, MOST_PARENTS);
    expect_study_with((struct beside){"", chain}, &most, NULL);
    write_chain(chain, MOST_PARENTS + 1);
    expect_study_with((struct beside){"", chain}, &too_many, NULL);
}

int main(void) {
    for (size_t i = 0; i < sizeof examples / sizeof *examples; i++)
        expect_check(examples[i].name, examples[i].number, examples[i].files);
    expect_check("257 supply rows", 4, (struct files){HOUR_5, supply_of(257, 64, 32), BOTH_UNITS});
    expect_check("a 65th unit", 5, (struct files){HOUR_5, supply_of(65, 65, 1), BOTH_UNITS});
    expect_check("a 33rd supplier", 5, (struct files){HOUR_5, supply_of(33, 33, 33), BOTH_UNITS});
    expect_check("64 units and 32 suppliers, of which one has a schedule", 8,
                 (struct files){HOUR_5, supply_of(256, 64, 32), SCHEDULES "1,1,C,5,100,3000,0,0,1\r\n"});
    for (size_t i = 0; i < sizeof studies / sizeof *studies; i++)
        expect_study(&studies[i], NULL);
    for (size_t i = 0; i < sizeof parents_studies / sizeof *parents_studies; i++)
        expect_study_with(parents_studies[i].beside, &parents_studies[i].study, NULL);
    expect_nothing_beside();
    expect_chains();
    for (size_t i = 0; i < sizeof tests / sizeof *tests; i++)
        expect_test(&tests[i]);
    return failures == 0 ? 0 : 1;
}
