/* Cases of the test that is fed one amount a call, each held beside the test of the whole list. What each must answer was worked
 * from documents 01 and 02. */
#include "testing.h"

#define FED_BYTES (CAPPING_FED_CELLS * sizeof(uint64_t))
#define TOO_LARGE (MOST_AMOUNT + 1)

/* How many amounts a test takes. */
#define MOST_AMOUNTS 32

static const struct one_test lists[] = {
    {"the last of four at need 2", {4, 3, 2, 1}, 4, 3, 2, CAPPING_P, 2},
    {"the last of four at need 3", {4, 3, 2, 1}, 4, 3, 3, CAPPING_F, 2},
    {"no two others exist", {5, 5}, 2, 0, 1, CAPPING_F, 0},
    {"no other exists", {5}, 1, 0, 1, CAPPING_F, 0},
    {"need 0", {5}, 1, 0, 0, CAPPING_P, 0},
    {"others 9, 5, 1", {7, 9, 5, 1}, 4, 0, 1, CAPPING_P, 1},
    {"others 5, 9, 1", {7, 5, 9, 1}, 4, 0, 1, CAPPING_P, 1},
    {"others 9, 1, 5", {7, 9, 1, 5}, 4, 0, 1, CAPPING_P, 1},
    {"others 1, 9, 5", {7, 1, 9, 5}, 4, 0, 1, CAPPING_P, 1},
    {"others 5, 1, 9", {7, 5, 1, 9}, 4, 0, 2, CAPPING_F, 1},
    {"others 1, 5, 9", {7, 1, 5, 9}, 4, 0, 2, CAPPING_F, 1},
    {"the own amount behind the largest", {9, 7, 5, 1}, 4, 1, 1, CAPPING_P, 1},
    {"the own amount behind all", {9, 1, 5, 7}, 4, 3, 2, CAPPING_F, 1},
    {"the own amount is the largest, and first", {9, 4, 3, 2}, 4, 0, 2, CAPPING_P, 2},
    {"the own amount is the largest, and last", {4, 3, 2, 9}, 4, 3, 3, CAPPING_F, 2},
    {"all are alike", {5, 5, 5, 5}, 4, 2, 5, CAPPING_P, 5},
    {"all are alike, one more is needed", {5, 5, 5, 5}, 4, 2, 6, CAPPING_F, 5},
    {"the largest need", {MOST_AMOUNT, MOST_AMOUNT, MOST_AMOUNT, MOST_AMOUNT}, 4, 1, UINT64_MAX, CAPPING_F, MOST_AMOUNT},
    {"an own amount of 10^12", {1, MOST_AMOUNT}, 2, 1, 0, CAPPING_P, 0},
    {"an own amount above 10^12", {1, TOO_LARGE}, 2, 1, 0, CAPPING_TEST_REFUSED, UNTOUCHED},
    {"another's amount above 10^12", {1, TOO_LARGE}, 2, 0, 0, CAPPING_TEST_REFUSED, UNTOUCHED},
    {"no amounts", {0}, 0, 0, 0, CAPPING_TEST_REFUSED, UNTOUCHED},
    {"two amounts and place 3", {4, 3}, 2, 3, 0, CAPPING_TEST_REFUSED, UNTOUCHED},
    {"a place past the last", {4, 3, 2, 1}, 4, 4, 0, CAPPING_TEST_REFUSED, UNTOUCHED},
    {"place 256", {4, 3, 2, 1}, 4, 256, 0, CAPPING_TEST_REFUSED, UNTOUCHED},
    {"place 2^32", {4, 3, 2, 1}, 4, UINT64_C(1) << 32, 0, CAPPING_TEST_REFUSED, UNTOUCHED},
    {"place 2^63", {4, 3, 2, 1}, 4, UINT64_C(1) << 63, 0, CAPPING_TEST_REFUSED, UNTOUCHED},
    {"the highest place", {4, 3, 2, 1}, 4, UINT64_MAX, 0, CAPPING_TEST_REFUSED, UNTOUCHED},
};

/* A list of one amount, then of another over and over. */
struct run {
    const char *name;
    uint64_t first, repeated;
    size_t times;
    uint64_t place, need, verdict, left;
};

static const struct run runs[] = {
    {"32 amounts of 10^12", MOST_AMOUNT, MOST_AMOUNT, 31, 31, 29 * MOST_AMOUNT, CAPPING_P, 29 * MOST_AMOUNT},
    {"32 amounts of 10^12, one more is needed", MOST_AMOUNT, MOST_AMOUNT, 31, 0, 29 * MOST_AMOUNT + 1, CAPPING_F, 29 * MOST_AMOUNT},
    {"31 amounts and place 31", 1, 1, 30, 31, 0, CAPPING_TEST_REFUSED, UNTOUCHED},
    {"33 amounts", 1, 1, 32, 0, 0, CAPPING_TEST_REFUSED, UNTOUCHED},
    {"33 amounts and place 32", 1, 1, 32, 32, 0, CAPPING_TEST_REFUSED, UNTOUCHED},
    {"33 amounts of 0", 0, 0, 32, 0, 0, CAPPING_TEST_REFUSED, UNTOUCHED},
    {"257 amounts", 1, 1, 256, 0, 0, CAPPING_TEST_REFUSED, UNTOUCHED},
    {"1,000 amounts", 1, 1, 999, 0, 0, CAPPING_TEST_REFUSED, UNTOUCHED},
    {"65,537 amounts", 1, 1, 65536, 0, 0, CAPPING_TEST_REFUSED, UNTOUCHED},
    {"1,000 amounts and the highest place", 1, 1, 999, UINT64_MAX, 0, CAPPING_TEST_REFUSED, UNTOUCHED},
    {"10^12 + 1, then many good ones", TOO_LARGE, 1, 31, 5, 0, CAPPING_TEST_REFUSED, UNTOUCHED},
    {"10^12 + 1, then far too many", TOO_LARGE, 1, 300, 5, 0, CAPPING_TEST_REFUSED, UNTOUCHED},
    {"2^64 - 1 twice", UINT64_MAX, UINT64_MAX, 1, 0, 0, CAPPING_TEST_REFUSED, UNTOUCHED},
    {"2^64 - 1 over and over", UINT64_MAX, UINT64_MAX, 31, 0, 0, CAPPING_TEST_REFUSED, UNTOUCHED},
    {"2^64 - 1 for the others", 1, UINT64_MAX, 4, 0, 0, CAPPING_TEST_REFUSED, UNTOUCHED},
    {"2^63 twice, whose sum would be 0", 0, UINT64_C(1) << 63, 2, 0, 1, CAPPING_TEST_REFUSED, UNTOUCHED},
};

/* An amount that is fed, and what is answered and left then. */
struct stage {
    uint64_t amount, verdict, left;
};

static const struct stage last_of_four[] = {
    {4, CAPPING_TEST_REFUSED, UNTOUCHED},
    {3, CAPPING_TEST_REFUSED, UNTOUCHED},
    {2, CAPPING_TEST_REFUSED, UNTOUCHED},
    {1, CAPPING_P, 2},
    {5, CAPPING_P, 5},
    {TOO_LARGE, CAPPING_TEST_REFUSED, UNTOUCHED},
    {1, CAPPING_TEST_REFUSED, UNTOUCHED},
};

static const struct stage second_of_six[] = {
    {6, CAPPING_TEST_REFUSED, UNTOUCHED},
    {2, CAPPING_F, 0},
    {5, CAPPING_F, 0},
    {3, CAPPING_F, 3},
    {1, CAPPING_P, 4},
    {9, CAPPING_P, 9},
};

/* Asks for this answer; no cell changes. */
static void expect_asked(const char *name, const uint64_t *fed, uint64_t verdict, uint64_t left) {
    uint64_t *before = copy_of(fed, FED_BYTES), *stored = untouched(sizeof *stored);
    require(name, "another verdict", capping_fed_ask(fed, stored) == verdict);
    require(name, "another left", *stored == left);
    require(name, "asking changed a cell", memcmp(fed, before, FED_BYTES) == 0);
    free(stored);
    free(before);
}

/* Feeds amounts to a test that is begun in these cells, whatever stands there, and asks it twice. The amounts are given beside the
 * case, since there may be more than it has room for. */
static void expect_fed(const struct one_test *t, const uint64_t *amounts, uint64_t *fed) {
    capping_fed_begin(fed, t->place, t->need);
    for (size_t i = 0; i < t->count; i++)
        capping_fed_feed(fed, amounts[i]);
    expect_asked(t->name, fed, t->verdict, t->left);
    expect_asked(t->name, fed, t->verdict, t->left);
}

/* Requires one answer of the test that is fed and of the test of the whole list. */
static void expect_answer(const struct one_test *t, const uint64_t *amounts) {
    uint64_t *fed = untouched(FED_BYTES), *left = untouched(sizeof *left);
    expect_fed(t, amounts, fed);
    require(t->name, "another verdict on the list", capping_test(amounts, t->count, t->place, t->need, left) == t->verdict);
    require(t->name, "another left of the list", *left == t->left);
    free(left);
    free(fed);
}

static void expect_list(const struct one_test *t) {
    uint64_t *amounts = copy_of(t->amounts, t->count * sizeof *amounts);
    expect_answer(t, amounts);
    free(amounts);
}

static void expect_run(const struct run *r) {
    struct one_test whole = {r->name, {0}, r->times + 1, r->place, r->need, r->verdict, r->left};
    uint64_t *amounts = untouched(whole.count * sizeof *amounts);
    for (size_t i = 0; i < whole.count; i++)
        amounts[i] = i == 0 ? r->first : r->repeated;
    expect_answer(&whole, amounts);
    free(amounts);
}

/* Asks at once, and then behind each amount. */
static void expect_stages(const char *name, uint64_t place, uint64_t need, const struct stage *stages, size_t count) {
    uint64_t *fed = untouched(FED_BYTES);
    capping_fed_begin(fed, place, need);
    expect_asked(name, fed, CAPPING_TEST_REFUSED, UNTOUCHED);
    for (size_t i = 0; i < count; i++) {
        capping_fed_feed(fed, stages[i].amount);
        expect_asked(name, fed, stages[i].verdict, stages[i].left);
    }
    free(fed);
}

/* Amounts of 1, asked behind each: all but the own and two others are left, until there are too many. */
static void expect_each_count(void) {
    uint64_t *fed = untouched(FED_BYTES);
    const uint64_t need = MOST_AMOUNTS - 3;
    capping_fed_begin(fed, 0, need);
    for (uint64_t count = 1; count <= 300; count++) {
        uint64_t left = count > 3 ? count - 3 : 0;
        capping_fed_feed(fed, 1);
        if (count <= MOST_AMOUNTS) expect_asked("amounts of 1", fed, left < need ? CAPPING_F : CAPPING_P, left);
        else expect_asked("too many amounts of 1", fed, CAPPING_TEST_REFUSED, UNTOUCHED);
    }
    free(fed);
}

/* Cells in which no test was begun: it is open what they answer, but it is an answer. A test that is begun there starts anew. */
static void expect_any_cells(const char *name, const uint64_t *cells) {
    static const uint64_t amounts[] = {0, 1, MOST_AMOUNT, TOO_LARGE, UINT64_MAX, UINT64_MAX};
    uint64_t *fed = copy_of(cells, FED_BYTES), left;
    for (size_t i = 0; i < sizeof amounts / sizeof *amounts; i++) {
        uint64_t answer = capping_fed_ask(fed, &left);
        require(name, "no such answer", answer == CAPPING_P || answer == CAPPING_F || answer == CAPPING_TEST_REFUSED);
        capping_fed_feed(fed, amounts[i]);
    }
    expect_fed(&lists[0], lists[0].amounts, fed);
    free(fed);
}

/* Every six of these numbers. */
static void expect_edges_in_cells(void) {
    static const uint64_t edges[] = {0, 1, MOST_AMOUNTS, MOST_AMOUNT, UINT64_MAX};
    const size_t edge_count = sizeof edges / sizeof *edges;
    size_t ways = 1;
    for (size_t cell = 0; cell < CAPPING_FED_CELLS; cell++)
        ways *= edge_count;
    for (size_t way = 0; way < ways; way++) {
        uint64_t cells[CAPPING_FED_CELLS];
        size_t rest = way;
        for (size_t cell = 0; cell < CAPPING_FED_CELLS; cell++, rest /= edge_count)
            cells[cell] = edges[rest % edge_count];
        expect_any_cells("edges in cells", cells);
    }
}

/* The next of a row of numbers that look random (Marsaglia's xorshift, with one of his triples of shifts). */
static uint64_t next_random(uint64_t *last) {
    *last ^= *last << 13;
    *last ^= *last >> 7;
    *last ^= *last << 17;
    return *last;
}

static void expect_random_cells(void) {
    uint64_t random = 1;
    for (int round = 0; round < 1000; round++) {
        uint64_t cells[CAPPING_FED_CELLS];
        for (size_t cell = 0; cell < CAPPING_FED_CELLS; cell++)
            cells[cell] = next_random(&random) >> next_random(&random) % 64;
        expect_any_cells("random cells", cells);
    }
}

/* Cells of tests that were refused, one with too many amounts and one with too large a one, are begun again. */
static void expect_new_start(void) {
    static const struct one_test after[] = {
        {"a new start behind 33 amounts", {4, 3, 2, 1}, 4, 3, 2, CAPPING_P, 2},
        {"a new start behind a large amount", {5, 5}, 2, 0, 1, CAPPING_F, 0},
        {"a new start with no amount", {0}, 0, 0, 0, CAPPING_TEST_REFUSED, UNTOUCHED},
    };
    uint64_t *fed = untouched(FED_BYTES);
    capping_fed_begin(fed, 0, 0);
    for (int count = 0; count <= MOST_AMOUNTS; count++)
        capping_fed_feed(fed, 1);
    expect_fed(&after[0], after[0].amounts, fed);
    capping_fed_feed(fed, TOO_LARGE);
    expect_fed(&after[1], after[1].amounts, fed);
    expect_fed(&after[2], after[2].amounts, fed);
    free(fed);
}

int main(void) {
    for (size_t i = 0; i < sizeof lists / sizeof *lists; i++)
        expect_list(&lists[i]);
    for (size_t i = 0; i < sizeof runs / sizeof *runs; i++)
        expect_run(&runs[i]);
    expect_stages("the last of four", 3, 2, last_of_four, sizeof last_of_four / sizeof *last_of_four);
    expect_stages("the second of six", 1, 4, second_of_six, sizeof second_of_six / sizeof *second_of_six);
    expect_each_count();
    expect_new_start();
    expect_edges_in_cells();
    expect_random_cells();
    return failures == 0 ? 0 : 1;
}
