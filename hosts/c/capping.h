/* The offer capping engine as C programs call it. Link with crates/capping/out/libcapping.a, which `rt lib` writes in
 * crates/capping, for x86-64 Linux. C++ programs may include this too.
 *
 * Holds for each call: a run of bytes or amounts is a pointer, then how many there are, and no pointer may be NULL, not even
 * with length 0. Everything belongs to the caller: what is const is only read, what isn't is written during the call, and
 * nothing is kept or freed. What is written may overlap nothing else that is lent to the same call. There is no state but the
 * days and the fed tests that callers keep, so threads may call at the same time, on a day or a fed test each. A call takes up to
 * 136 KiB of stack, and one with curves up to 328 KiB.
 *
 * A curves or a parents file of length 0 is none; each other file of length 0 is one record with one blank field.
 * docs/REFUSALS.md says what each number means and how to mend it. */
#ifndef CAPPING_H
#define CAPPING_H

#include <stddef.h>
#include <stdint.h>

#ifdef __cplusplus
extern "C" {
#endif

/* A buffer of so many bytes holds the longest answer file. */
#define CAPPING_LONGEST_ANSWER 2799

/* The files that can be handed back tidy, and how many bytes hold the longest tidy file of each. */
#define CAPPING_CONSTRAINT 1
#define CAPPING_SUPPLY 2
#define CAPPING_SCHEDULES 3
#define CAPPING_LONGEST_TIDY_CONSTRAINT 38
#define CAPPING_LONGEST_TIDY_SUPPLY 7964
#define CAPPING_LONGEST_TIDY_SCHEDULES 52284

/* What to pass for curves or parents and the length where there is no such file: no bytes, behind a pointer that isn't NULL. */
#define CAPPING_NO_CURVES (const uint8_t *)"", 0
#define CAPPING_NO_PARENTS (const uint8_t *)"", 0

/* What capping_test and capping_fed_ask answer. */
#define CAPPING_P 0
#define CAPPING_F 1
#define CAPPING_TEST_REFUSED 11

/* So many numbers are a test that is fed. */
#define CAPPING_FED_CELLS 6

/* So many cells are a day, and so many units run at most. The cells grow when days learn more: a caller who goes through this
 * constant and the functions below then compiles again and rewrites nothing. */
#define CAPPING_DAY_CELLS 195
#define CAPPING_DAY_UNITS 64

/* Checks three files of a study, each as its bytes; curves and parents play no part.
 *
 * Answers 0 if no rule is broken, else the number of the first refusal, 1 to 9, that a study of these three alone gives. */
uint64_t capping_check(const uint8_t *constraint, size_t constraint_len,
                       const uint8_t *supply, size_t supply_len,
                       const uint8_t *schedules, size_t schedules_len);

/* Studies the files on a fresh day, and writes the answer file from the start of the buffer. Curves have the points of offer
 * curves, whose price at ecomin stands in place of the price in schedules; CAPPING_NO_CURVES stands for none. Parents name
 * affiliated suppliers, which are tested as one; CAPPING_NO_PARENTS stands for none.
 *
 * Answers how many bytes it wrote; the rest of the buffer stays. Where the study is refused it answers 0, and no byte of
 * the buffer has changed. The report is then number, file (1 constraint, 2 supply, 3 schedules, 4 curves, 5 parents, 0 none)
 * and place; it is 0, 0, 0 where the study is accepted. A buffer shorter than the answer is refused with 10. */
uint64_t capping_study(const uint8_t *constraint, size_t constraint_len,
                       const uint8_t *supply, size_t supply_len,
                       const uint8_t *schedules, size_t schedules_len,
                       const uint8_t *curves, size_t curves_len,
                       const uint8_t *parents, size_t parents_len,
                       uint8_t *answer, size_t answer_len,
                       uint64_t report[3]);

/* Reads one file alone, CAPPING_CONSTRAINT, CAPPING_SUPPLY or CAPPING_SCHEDULES, and hands it back tidy, as the engine understood
 * it: unquoted, CR LF after each record, the header, then the rows in their order. It is written from the start of the buffer.
 *
 * Answers how many bytes it wrote; the rest of the buffer stays. Where the file is refused it answers 0, and no byte of the buffer
 * has changed. The report is then number, file and place, the first of 1 to 6 that the file alone gives: what units the other
 * files have plays no part. It is 0, 0, 0 where the file is accepted. A buffer shorter than the tidy file is refused with 30, and
 * any other number of a file with 2, 0, 0. */
uint64_t capping_tidy(uint64_t file, const uint8_t *bytes, size_t bytes_len,
                      uint8_t *tidy, size_t tidy_len,
                      uint64_t report[3]);

/* How many bytes the longest tidy file has, as the constants above: a buffer of so many is never refused with 30. 0 for any other
 * number of a file. */
uint64_t capping_longest_tidy(uint64_t file);

/* Tests one supplier: amounts, one per supplier, the place of the one tested (from 0), and the need.
 *
 * Answers CAPPING_P or CAPPING_F and stores what is left without the supplier and its two largest others. With more than 32
 * amounts, an amount above 10^12 or no such place it answers CAPPING_TEST_REFUSED, and `left` stays as it was. */
uint64_t capping_test(const uint64_t *amounts, size_t amounts_len, uint64_t place, uint64_t need, uint64_t *left);

/* The same test fed one amount a call, for suppliers' totals that come as a stream. The caller keeps its cells, CAPPING_FED_CELLS
 * plain numbers however many totals come, and lends them to each call; they may be copied and stored, and what each stands for is
 * the engine's own business. It is begun, fed, and asked; asking doesn't end it.
 *
 * Cells that no test was begun in may be lent too, and no harm is done; what is answered of them is left open. */

/* Makes the cells those of a test with no amount yet, whatever stood there. The place is that of the supplier tested, from 0, and
 * may be any number: whether an amount has come for it is looked at when the test is asked. */
void capping_fed_begin(uint64_t fed[CAPPING_FED_CELLS], uint64_t place, uint64_t need);

/* Gives the test one amount more. Nothing is refused here: a 33rd amount, or one above 10^12, is remembered whatever comes behind
 * it, and told when the test is asked. */
void capping_fed_feed(uint64_t fed[CAPPING_FED_CELLS], uint64_t amount);

/* Answers what capping_test answers on the list of the amounts fed so far, and stores what is left; with CAPPING_TEST_REFUSED
 * `left` stays as it was. So a test that is asked before the amount of its place has come is refused, and answers later. No cell
 * changes: it can be asked in between and fed on, and threads may ask one test at the same time, while none feeds it. */
uint64_t capping_fed_ask(const uint64_t fed[CAPPING_FED_CELLS], uint64_t *left);

/* A day holds the hour of its last accepted study and the units that run. The caller keeps its cells and lends them to each
 * call, which leaves there the day afterwards; a call that is refused leaves every cell as it was. Any cells whatever are a
 * day: on one that is ill-formed (docs/REFUSALS.md, 24) the calls are refused, and the functions answer what stands there. */

/* Makes the day fresh: no hour, and no unit runs. */
void capping_day_fresh(uint64_t day[CAPPING_DAY_CELLS]);

/* Studies the files on the day, as capping_study does on a fresh one: the same answers, buffer and report. Accepted, the
 * day's hour is the study's, and each of its units runs on the schedule chosen; the others run as they did. */
uint64_t capping_day_study(uint64_t day[CAPPING_DAY_CELLS],
                           const uint8_t *constraint, size_t constraint_len,
                           const uint8_t *supply, size_t supply_len,
                           const uint8_t *schedules, size_t schedules_len,
                           const uint8_t *curves, size_t curves_len,
                           const uint8_t *parents, size_t parents_len,
                           uint8_t *answer, size_t answer_len,
                           uint64_t report[3]);

/* A row of the answer file as cells, and where in them what stands: the verdict is 'U', 'P' or 'F', the kind 'M' or 'C', each as
 * its letter's number. */
enum {
    CAPPING_ROW_UNIT,
    CAPPING_ROW_SUPPLIER,
    CAPPING_ROW_VERDICT,
    CAPPING_ROW_LEFT,
    CAPPING_ROW_SCHEDULE,
    CAPPING_ROW_KIND,
    CAPPING_ROW_COST,
    CAPPING_ROW_CELLS
};

/* Looks before committing: stores the row that a study of the files on the day would write for one unit. No cell of the day
 * changes, so threads may preview on one day at the same time, while none moves it on.
 *
 * Answers 0, or the number of the refusal, and no cell of the row has then changed. The report is 0, 0, 0, or what that study
 * reports with a buffer long enough, so never 10. Where the study is accepted, a unit that isn't in supply is refused with 31. */
uint64_t capping_preview(const uint64_t day[CAPPING_DAY_CELLS],
                         const uint8_t *constraint, size_t constraint_len,
                         const uint8_t *supply, size_t supply_len,
                         const uint8_t *schedules, size_t schedules_len,
                         const uint8_t *curves, size_t curves_len,
                         const uint8_t *parents, size_t parents_len,
                         uint64_t unit,
                         uint64_t row[CAPPING_ROW_CELLS],
                         uint64_t report[3]);

/* Takes a running unit out of the day, and changes nothing else.
 *
 * Answers 0, or the number of the refusal; the report is 0, 0, 0, or that number, 0 and 0. */
uint64_t capping_day_release(uint64_t day[CAPPING_DAY_CELLS], uint64_t unit, uint64_t report[3]);

/* Where in the cells what stands, for the functions below alone: three cells, then three for each unit. */
enum {
    CAPPING_CELL_HAS_HOUR,
    CAPPING_CELL_HOUR,
    CAPPING_CELL_COUNT,
    CAPPING_CELL_UNITS,
    CAPPING_CELLS_OF_UNIT = 3
};

/* Whether the day has an hour, which one (0 where it has none), and how many units run (in an ill-formed day any number). */
static inline int capping_day_has_hour(const uint64_t *day) {
    return day[CAPPING_CELL_HAS_HOUR] != 0;
}

static inline uint64_t capping_day_hour(const uint64_t *day) {
    return capping_day_has_hour(day) ? day[CAPPING_CELL_HOUR] : 0;
}

static inline uint64_t capping_day_count(const uint64_t *day) {
    return day[CAPPING_CELL_COUNT];
}

static inline uint64_t capping_day_cell(const uint64_t *day, uint64_t i, size_t which) {
    if (i >= CAPPING_DAY_UNITS || i >= capping_day_count(day))
        return 0;
    return day[CAPPING_CELL_UNITS + i * CAPPING_CELLS_OF_UNIT + which];
}

/* Number, kind ('M' or 'C') and schedule of the i-th running unit, from 0, by rising number; 0 where there is no such unit. */
static inline uint64_t capping_day_unit(const uint64_t *day, uint64_t i) {
    return capping_day_cell(day, i, 0);
}

static inline char capping_day_kind(const uint64_t *day, uint64_t i) {
    uint64_t kind = capping_day_cell(day, i, 1);
    return (char)(kind == 'M' || kind == 'C' ? kind : 0);
}

static inline uint64_t capping_day_schedule(const uint64_t *day, uint64_t i) {
    return capping_day_cell(day, i, 2);
}

/* Whether two days have the same hour, or none, and the same units running on the same schedules. */
static inline int capping_day_equal(const uint64_t *a, const uint64_t *b) {
    uint64_t i;
    int equal = capping_day_has_hour(a) == capping_day_has_hour(b) && capping_day_hour(a) == capping_day_hour(b) &&
                capping_day_count(a) == capping_day_count(b);
    for (i = 0; i < CAPPING_DAY_UNITS; i++)
        equal = equal && capping_day_unit(a, i) == capping_day_unit(b, i) && capping_day_kind(a, i) == capping_day_kind(b, i) &&
                capping_day_schedule(a, i) == capping_day_schedule(b, i);
    return equal;
}

/* To make a day that was written down: a fresh one, then its hour, where it has one, and its units, one after the other by
 * rising number. What isn't so makes it ill-formed. A unit too many is counted and not kept. */
static inline void capping_day_set_hour(uint64_t *day, uint64_t hour) {
    day[CAPPING_CELL_HAS_HOUR] = 1;
    day[CAPPING_CELL_HOUR] = hour;
}

static inline void capping_day_add(uint64_t *day, uint64_t unit, char kind, uint64_t schedule) {
    uint64_t count = capping_day_count(day);
    if (count < CAPPING_DAY_UNITS) {
        uint64_t *cells = day + CAPPING_CELL_UNITS + count * CAPPING_CELLS_OF_UNIT;
        cells[0] = unit;
        cells[1] = (unsigned char)kind;
        cells[2] = schedule;
    }
    if (count < UINT64_MAX)
        day[CAPPING_CELL_COUNT] = count + 1;
}

#ifdef __cplusplus
}
#endif

#endif
