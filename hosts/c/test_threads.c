/* Threads that call at the same time, each on a day and a fed test of its own but for previews, which are all on one day, and a fed
 * test that all ask, with no more stack for a call than capping.h says. A tool that watches threads sees what they share, however
 * they happen to run. */
#include "testing.h"

#include <pthread.h>

#define THREADS 4
#define ROUNDS 500

/* What capping.h says of a call with curves, and some for the thread itself. */
#define CALL_STACK (328 * 1024)
#define OWN_STACK (16 * 1024)

/* A thread with a day of its own, on which a unit runs that the others don't have. */
struct worker {
    pthread_t thread;
    uint64_t unit;
    int wrong;
};

/* Held until every thread is there, so that they begin together. */
static pthread_mutex_t start = PTHREAD_MUTEX_INITIALIZER;

/* The longest chain of parents; written before the threads begin. */
static char chain[CHAIN_ROOM];

/* The starred answer with this chain and with the curve of unit 11. */
#define BESIDE_ANSWER \
    ANSWER_HEADER "11,1,F,0,2,C,920000\r\n12,2,F,0,1,M,330000\r\n13,3,F,0,1,C,890000\r\n14,4,F,0,1,M,500000\r\n"

/* The day that all threads preview on; made before they begin. */
static uint64_t shared_day[CAPPING_DAY_CELLS];

/* The test that all threads ask, fed 5 and 5; made before they begin. */
static uint64_t shared_fed[CAPPING_FED_CELLS];

/* Tidies the starred schedules, which are tidy. Answers how much went wrong. */
static int tidy_once(struct lent files) {
    uint8_t tidy[sizeof STARRED_SCHEDULES];
    uint64_t report[3];
    size_t length = files.schedules_len;
    int wrong = 0;
    wrong += capping_tidy(CAPPING_SCHEDULES, files.schedules, length, tidy, sizeof tidy, report) != length;
    wrong += memcmp(tidy, STARRED_SCHEDULES, length) != 0;
    return wrong;
}

/* Previews unit 14 on the day that all share. Answers how much went wrong. */
static int preview_once(struct lent files) {
    static const uint64_t expected[CAPPING_ROW_CELLS] = {14, 4, 'F', 0, 1, 'M', 500000};
    uint64_t row[CAPPING_ROW_CELLS], report[3];
    int wrong = 0;
    wrong += capping_preview(shared_day, LENT_ALL(files), 14, row, report) != 0;
    wrong += memcmp(row, expected, sizeof expected) != 0;
    return wrong;
}

/* Feeds a test of its own with 4, 3, 2, 1, and asks it and the one that all share. Answers how much went wrong. */
static int feed_once(void) {
    uint64_t fed[CAPPING_FED_CELLS], left;
    int wrong = 0;
    capping_fed_begin(fed, 3, 2);
    for (uint64_t amount = 4; amount > 0; amount--)
        capping_fed_feed(fed, amount);
    wrong += capping_fed_ask(fed, &left) != CAPPING_P || left != 2;
    wrong += capping_fed_ask(shared_fed, &left) != CAPPING_F || left != 0;
    return wrong;
}

/* Studies on a day with the worker's unit, and releases that unit. Answers how much went wrong. */
static int work_once(uint64_t unit, struct lent files) {
    uint64_t day[CAPPING_DAY_CELLS], studied[CAPPING_DAY_CELLS], report[3];
    uint8_t answer[CAPPING_LONGEST_ANSWER];
    size_t length = sizeof BESIDE_ANSWER - 1;
    int wrong = 0;
    capping_day_fresh(day);
    capping_day_add(day, unit, 'M', 1);
    wrong += capping_day_study(day, LENT_ALL(files), answer, sizeof answer, report) != length;
    wrong += memcmp(answer, BESIDE_ANSWER, length) != 0;
    wrong += !capping_day_read(studied, STARRED_DAY);
    wrong += capping_day_release(day, unit + 1, report) != 23;
    wrong += capping_day_equal(day, studied);
    wrong += capping_day_release(day, unit, report) != 0;
    wrong += !capping_day_equal(day, studied);
    return wrong;
}

static void *work(void *given) {
    struct worker *w = given;
    const struct files texts = STARRED;
    struct lent files = lend_with((struct beside){CURVE_11, chain}, &texts);
    pthread_mutex_lock(&start);
    pthread_mutex_unlock(&start);
    for (int round = 0; round < ROUNDS; round++)
        w->wrong += work_once(w->unit, files) + preview_once(files) + tidy_once(files) + feed_once();
    take_back(files);
    return NULL;
}

int main(void) {
    struct worker workers[THREADS] = {{0}};
    pthread_attr_t small;
    require("threads", "no small stack",
            pthread_attr_init(&small) == 0 && pthread_attr_setstacksize(&small, CALL_STACK + OWN_STACK) == 0);
    write_chain(chain, MOST_PARENTS);
    read_day(shared_day, STARRED_DAY);
    capping_fed_begin(shared_fed, 0, 1);
    capping_fed_feed(shared_fed, 5);
    capping_fed_feed(shared_fed, 5);
    pthread_mutex_lock(&start);
    for (int i = 0; i < THREADS; i++) {
        workers[i].unit = 101 + (uint64_t)i;
        if (pthread_create(&workers[i].thread, &small, work, &workers[i]) != 0) {
            fputs("no thread\n", stderr);
            exit(1);
        }
    }
    pthread_mutex_unlock(&start);
    for (int i = 0; i < THREADS; i++) {
        pthread_join(workers[i].thread, NULL);
        require("threads", "a wrong day, row, tidy file or test", workers[i].wrong == 0);
    }
    pthread_attr_destroy(&small);
    return failures == 0 ? 0 : 1;
}
