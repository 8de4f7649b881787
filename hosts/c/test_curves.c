/* Cases of studies with offer curves, one for each number at least that a curves file can give. What each must answer was worked
 * from documents 01 and 02. */
#include "testing.h"

/* The starred files with another ecomin of unit 11's C schedule. */
#define STARRED_AT(ecomin) \
    {HOUR_5, STARRED_SUPPLY, \
     SCHEDULES "11,1,M,5,100,4000,50000,20000,1\r\n11,2,C,5," ecomin ",3000,50000,20000,1\r\n" \
               "12,1,M,5,100,3300,0,0,1\r\n13,1,C,5,200,4000,0,1000,1\r\n14,1,M,5,100,5000,0,0,1\r\n"}

/* The starred files with an hour of unit 11's C schedule outside its run. */
#define STARRED_HOUR_6 {HOUR_5, STARRED_SUPPLY, STARRED_SCHEDULES "11,2,C,6,100,3000,50000,20000,1\r\n"}

/* Files that are refused with 7, with 8 and with 9 where no curve is refused. */
#define UNIT_15_ASTRAY {HOUR_5, STARRED_SUPPLY, STARRED_SCHEDULES "15,1,C,5,100,3000,0,0,1\r\n"}
#define UNIT_11_ALONE {HOUR_5, STARRED_SUPPLY, SCHEDULES "11,2,C,5,100,3000,50000,20000,1\r\n"}
#define HOUR_6_LACKING {HOUR_5, STARRED_SUPPLY, STARRED_SCHEDULES "11,3,C,5,100,3000,50000,20000,2\r\n"}

/* Ten points of unit 11's C schedule, of which the last has ecomin. */
#define TEN_POINTS \
    CURVES "11,2,5,10,200\r\n11,2,5,20,400\r\n11,2,5,30,600\r\n11,2,5,40,800\r\n11,2,5,50,1000\r\n" \
           "11,2,5,60,1200\r\n11,2,5,70,1400\r\n11,2,5,80,1600\r\n11,2,5,90,1800\r\n11,2,5,100,2000\r\n"

/* Points of two curves in turn, and the answer: unit 14 stays on its market-based schedule, whose price isn't capped. */
#define INTERLEAVED CURVES "11,2,5,50,1000\r\n14,1,5,10,4000\r\n11,2,5,100,2000\r\n14,1,5,100,6000\r\n"
#define INTERLEAVED_ANSWER \
    ANSWER_HEADER "11,1,F,0,2,C,920000\r\n12,2,F,0,1,M,330000\r\n13,3,F,0,1,C,890000\r\n14,4,F,5000000,1,M,600000\r\n"

/* The answer where the C schedule costs 1690000, and where the market-based one costs 900000. */
#define MARKET_ANSWER ANSWER_WITH_11("11,1,F,0,1,M,1100000")
#define MARKET_CURVE_ANSWER ANSWER_WITH_11("11,1,F,0,1,M,900000")

/* Both beside the files. */
#define BOTH_ANSWER \
    ANSWER_HEADER "11,1,F,0,2,C,920000\r\n12,2,F,0,1,M,330000\r\n13,3,F,0,1,C,890000\r\n14,4,F,0,1,M,500000\r\n"

static const struct study_beside accepted[] = {
    {{"", ""}, {"curves of no bytes", ENOUGH, STARRED_ANSWER, {0, 0, 0}, STARRED}},
    {{CURVES, ""}, {"curves without rows", ENOUGH, STARRED_ANSWER, {0, 0, 0}, STARRED}},
    {{CURVE_11, ""}, {"a curve of unit 11", ENOUGH, CURVE_11_ANSWER, {0, 0, 0}, STARRED}},
    {{CURVES "11,2,\"5\",100,2000", ""}, {"a point quoted, without the last CR LF", ENOUGH, CURVE_11_ANSWER, {0, 0, 0}, STARRED}},
    {{CURVES "11,2,5,0,0\r\n11,2,5,100,2000\r\n", ""}, {"a point of zeros", ENOUGH, CURVE_11_ANSWER, {0, 0, 0}, STARRED}},
    {{CURVES "11,2,5,99,1000\r\n11,2,5,101,2000\r\n", ""}, {"points around ecomin", ENOUGH, CURVE_11_ANSWER, {0, 0, 0}, STARRED}},
    {{CURVES "11,2,5,100,2000\r\n11,2,5,200,9000\r\n", ""}, {"a point past ecomin", ENOUGH, CURVE_11_ANSWER, {0, 0, 0}, STARRED}},
    {{TEN_POINTS, ""}, {"ten points", ENOUGH, CURVE_11_ANSWER, {0, 0, 0}, STARRED}},
    {{INTERLEAVED, ""}, {"points of two curves in turn", ENOUGH, INTERLEAVED_ANSWER, {0, 0, 0}, STARRED}},
    {{CURVES "11,2,5,100,9000\r\n", ""}, {"a curve above the column", ENOUGH, MARKET_ANSWER, {0, 0, 0}, STARRED}},
    {{CURVES "11,1,5,100,2000\r\n", ""}, {"a market-based curve", ENOUGH, MARKET_CURVE_ANSWER, {0, 0, 0}, STARRED}},
    {{CURVES "11,2,6,100,1\r\n", ""}, {"a curve of another hour", ENOUGH, STARRED_ANSWER, {0, 0, 0}, STARRED_HOUR_6}},
    {{CURVE_11, ""}, {"ecomin 0", ENOUGH, ANSWER_WITH_11("11,1,F,0,2,C,700000"), {0, 0, 0}, STARRED_AT("0")}},
    {{CURVE_11, ""}, {"ecomin 50", ENOUGH, ANSWER_WITH_11("11,1,F,0,2,C,755000"), {0, 0, 0}, STARRED_AT("50")}},
    {{CURVE_11, ""}, {"ecomin 51", ENOUGH, ANSWER_WITH_11("11,1,F,0,2,C,812200"), {0, 0, 0}, STARRED_AT("51")}},
    {{CURVE_11, PARENTS "1,2\r\n"}, {"curves and parents", ENOUGH, BOTH_ANSWER, {0, 0, 0}, STARRED}},
    {{CURVE_11, ""}, {"a buffer that just fits", sizeof CURVE_11_ANSWER - 1, CURVE_11_ANSWER, {0, 0, 0}, STARRED}},
};

static const struct study_beside refused[] = {
    {{CURVE_11, ""}, {"a buffer one short", sizeof CURVE_11_ANSWER - 2, "", {10, 0, 0}, STARRED}},
    {{CURVES "11,2,5,100,2000\n", ""}, {"LF alone", ENOUGH, "", {1, 4, 0}, STARRED}},
    {{"\r\n", ""}, {"a blank line", ENOUGH, "", {2, 4, 0}, STARRED}},
    {{"unit,schedule,hour,price,mw\r\n", ""}, {"another header", ENOUGH, "", {2, 4, 0}, STARRED}},
    {{CURVE_11 "11,2,5,200\r\n", ""}, {"four fields in the third row", ENOUGH, "", {2, 4, 3}, STARRED}},
    {{CURVE_11 "0,2,5,200,3000\r\n", ""}, {"unit 0", ENOUGH, "", {3, 4, 3}, STARRED}},
    {{CURVES "11,100,5,100,2000\r\n", ""}, {"schedule 100", ENOUGH, "", {3, 4, 1}, STARRED}},
    {{CURVES "11,2,24,100,2000\r\n", ""}, {"hour 24", ENOUGH, "", {3, 4, 1}, STARRED}},
    {{CURVES "11,2,5,100001,2000\r\n", ""}, {"mw 100001", ENOUGH, "", {3, 4, 1}, STARRED}},
    {{CURVES "11,2,5,100,370001\r\n", ""}, {"price 370001", ENOUGH, "", {3, 4, 1}, STARRED}},
    {{CURVES "15,1,5,100,2000\r\n", ""}, {"a point of unit 15", ENOUGH, "", {32, 4, 1}, STARRED}},
    {{CURVES "11,3,5,100,2000\r\n", ""}, {"a point of schedule 3", ENOUGH, "", {32, 4, 1}, STARRED}},
    {{CURVE_11 "11,2,6,100,2000\r\n", ""}, {"a point of hour 6", ENOUGH, "", {32, 4, 3}, STARRED}},
    {{CURVE_11 "11,2,5,100,2000\r\n11,3,5,100,2000\r\n", ""},
     {"a stray point behind a repeated one", ENOUGH, "", {32, 4, 4}, STARRED}},
    {{CURVES "11,2,5,100,1000\r\n11,2,5,100,2000\r\n", ""}, {"the same mw", ENOUGH, "", {33, 4, 2}, STARRED}},
    {{CURVES "11,2,5,50,2000\r\n11,2,5,100,2000\r\n", ""}, {"the same price", ENOUGH, "", {33, 4, 2}, STARRED}},
    {{CURVES "11,2,5,100,1000\r\n11,2,5,50,2000\r\n", ""}, {"mw that falls", ENOUGH, "", {33, 4, 2}, STARRED}},
    {{CURVES "11,2,5,50,2000\r\n11,2,5,100,1000\r\n", ""}, {"a price that falls", ENOUGH, "", {33, 4, 2}, STARRED}},
    {{INTERLEAVED "11,2,5,100,9000\r\n", ""}, {"the same mw two records on", ENOUGH, "", {33, 4, 5}, STARRED}},
    {{TEN_POINTS "11,2,5,110,2200\r\n", ""}, {"an eleventh point", ENOUGH, "", {33, 4, 11}, STARRED}},
    {{CURVES "12,2,5,10,1\r\n11,2,5,100,1\r\n11,2,5,100,2\r\n", ""},
     {"the same mw behind a low curve", ENOUGH, "", {33, 4, 3}, STARRED}},
    {{CURVES "11,2,5,50,1000\r\n11,2,5,99,2000\r\n", ""}, {"a curve up to 99", ENOUGH, "", {34, 4, 2}, STARRED}},
    {{CURVE_11, ""}, {"ecomin 101", ENOUGH, "", {34, 4, 2}, STARRED_AT("101")}},
    {{CURVES "11,2,5,10,1\r\n12,2,5,20,1\r\n11,2,5,30,2\r\n", ""}, {"two low curves in turn", ENOUGH, "", {34, 4, 2}, STARRED}},
    {{CURVE_11 "11,2,6,99,1\r\n", ""}, {"a low curve of another hour", ENOUGH, "", {34, 4, 3}, STARRED_HOUR_6}},
    {{CURVES "\t", ""}, {"a stray unit before curves", ENOUGH, "", {7, 3, 8}, UNIT_15_ASTRAY}},
    {{CURVES "11,2,5,99,1\r\n", PARENTS "\t"}, {"a low curve before parents", ENOUGH, "", {34, 4, 1}, STARRED}},
    {{CURVE_11, PARENTS "1,1\r\n"}, {"parents behind a sound curve", ENOUGH, "", {36, 5, 1}, STARRED}},
    {{CURVES "11,2,5,99,1\r\n", ""}, {"a low curve before a unit without a schedule", ENOUGH, "", {34, 4, 1}, UNIT_11_ALONE}},
    {{CURVE_11, ""}, {"a unit without a schedule behind a sound curve", ENOUGH, "", {8, 3, 12}, UNIT_11_ALONE}},
    {{CURVES "11,3,6,100,1\r\n", ""}, {"a point for a row that is lacking", ENOUGH, "", {32, 4, 1}, HOUR_6_LACKING}},
};

/* As many units, suppliers and schedule rows as there may be, the most points, which are four to a row, and room for the texts. */
#define UNITS 64
#define SUPPLIERS 32
#define ROWS_OF_A_UNIT 16
#define ROWS (UNITS * ROWS_OF_A_UNIT)
#define MOST_POINTS (4 * ROWS)
#define FIRST_HOUR 5
#define ROOM_OF_A_ROW 40
#define ROOM_OF_A_POINT 24

/* A schedules file in which each unit has one C schedule, with as many rows as all can have, from the hour studied on. */
static const char *most_schedules(void) {
    static char text[ROOM_OF_A_ROW * (ROWS + 2)];
    size_t at = (size_t)snprintf(text, sizeof text, "%s", SCHEDULES);
    for (unsigned row = 0; row < ROWS; row++)
        at += (size_t)snprintf(text + at, sizeof text - at, "%u,1,C,%u,100,3000,50000,20000,1\r\n", row / ROWS_OF_A_UNIT + 1,
                               FIRST_HOUR + row % ROWS_OF_A_UNIT);
    return text;
}

/* A curves file with so many points, first the lowest of each curve, then the next of each: (50, 1000), (100, 2000) and on. */
static const char *points(unsigned count) {
    static char text[ROOM_OF_A_POINT * (MOST_POINTS + 2)];
    size_t at = (size_t)snprintf(text, sizeof text, "%s", CURVES);
    for (unsigned point = 0; point < count; point++) {
        unsigned row = point % ROWS, nth = point / ROWS + 1;
        at += (size_t)snprintf(text + at, sizeof text - at, "%u,1,%u,%u,%u\r\n", row / ROWS_OF_A_UNIT + 1,
                               FIRST_HOUR + row % ROWS_OF_A_UNIT, 50 * nth, 1000 * nth);
    }
    return text;
}

/* The answer: two units of each of 32 suppliers with 5000000 each, so that 29 suppliers are left, more than the need, and each unit
 * stays on its schedule at the price 2000, capped 2200. */
static const char *most_answer(void) {
    static char text[CAPPING_LONGEST_ANSWER + 1];
    size_t at = (size_t)snprintf(text, sizeof text, "%s", ANSWER_HEADER);
    for (unsigned unit = 1; unit <= UNITS; unit++)
        at += (size_t)snprintf(text + at, sizeof text - at, "%u,%u,P,290000000,1,C,920000\r\n", unit, (unit - 1) % SUPPLIERS + 1);
    return text;
}

/* As many points as there may be, and one more, which is told before the rules between points. */
static void expect_most_points(void) {
    const struct files files = {HOUR_5, supply_of(UNITS, UNITS, SUPPLIERS), most_schedules()};
    const struct study most = {"4096 points", CAPPING_LONGEST_ANSWER, most_answer(), {0, 0, 0}, files};
    const struct study too_many = {"4097 points", CAPPING_LONGEST_ANSWER, "", {4, 4, 0}, files};
    expect_study_with((struct beside){points(MOST_POINTS), ""}, &most, NULL);
    expect_study_with((struct beside){points(MOST_POINTS + 1), ""}, &too_many, NULL);
}

int main(void) {
    for (size_t i = 0; i < sizeof accepted / sizeof *accepted; i++)
        expect_study_with(accepted[i].beside, &accepted[i].study, NULL);
    for (size_t i = 0; i < sizeof refused / sizeof *refused; i++)
        expect_study_with(refused[i].beside, &refused[i].study, NULL);
    expect_most_points();
    return failures == 0 ? 0 : 1;
}
