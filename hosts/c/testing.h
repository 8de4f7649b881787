/* What the test programs share: the files of studies, what is lent to a call, and the count of what went wrong. What is lent is
 * allocated just as long as it is said to be, so that a tool that watches memory sees a byte touched beside it. */
#ifndef TESTING_H
#define TESTING_H

#include "capping_words.h"

#include <stdio.h>
#include <stdlib.h>
#include <string.h>

#define CONSTRAINT "hour,relief,cutoff\r\n"
#define SUPPLY "unit,supplier,mw,cost,dfax\r\n"
#define SCHEDULES "unit,schedule,kind,hour,ecomin,price,noload,startup,minrun\r\n"
#define CURVES "unit,schedule,hour,mw,price\r\n"
#define PARENTS "supplier,parent\r\n"
#define ANSWER_HEADER "unit,supplier,verdict,left,schedule,kind,cost\r\n"
#define HOUR_5 CONSTRAINT "5,1000,300\r\n"

/* The starred example of document 01, its schedules of two units and all but for the last, its answer, and the day after it. */
#define STARRED_SUPPLY SUPPLY "11,1,1000,3000,5000\r\n12,2,1000,3000,-5000\r\n13,3,1000,4000,5000\r\n14,4,2000,2000,200\r\n"
#define UNITS_11_AND_12 \
    SCHEDULES "11,1,M,5,100,4000,50000,20000,1\r\n11,2,C,5,100,3000,50000,20000,1\r\n" \
              "12,1,M,5,100,3300,0,0,1\r\n12,2,C,5,100,3000,0,0,1\r\n"
#define UNIT_14_MARKET_ONLY UNITS_11_AND_12 "13,1,C,5,200,4000,0,1000,1\r\n14,1,M,5,100,5000,0,0,1\r\n"
#define STARRED_SCHEDULES UNIT_14_MARKET_ONLY "14,2,C,5,100,2000,0,0,1\r\n"
#define STARRED_ANSWER \
    ANSWER_HEADER "11,1,F,0,2,C,1030000\r\n12,2,F,0,1,M,330000\r\n13,3,F,0,1,C,890000\r\n14,4,F,5000000,1,M,500000\r\n"
#define STARRED_DAY "5;11:C:2,12:M:1,13:C:1,14:M:1"

/* Its answer where any of its suppliers are affiliated: unit 14's own group and two others are then all that supply, so that
 * nothing is left for it either. */
#define AFFILIATED_ANSWER \
    ANSWER_HEADER "11,1,F,0,2,C,1030000\r\n12,2,F,0,1,M,330000\r\n13,3,F,0,1,C,890000\r\n14,4,F,0,1,M,500000\r\n"

/* Its answer with another row of unit 11. */
#define ANSWER_WITH_11(row) \
    ANSWER_HEADER row "\r\n12,2,F,0,1,M,330000\r\n13,3,F,0,1,C,890000\r\n14,4,F,5000000,1,M,500000\r\n"

/* A curve of unit 11's C schedule, and the answer then: the first point at or above ecomin, 100, is the second, so the price is
 * 2000 and capped 2200, and the cost 100 * 2200 + 10 * 50000 + 10 * 20000. */
#define CURVE_11 CURVES "11,2,5,50,1000\r\n11,2,5,100,2000\r\n"
#define CURVE_11_ANSWER ANSWER_WITH_11("11,1,F,0,2,C,920000")

/* The most parents that a study may have, and room for the text of one more. */
#define MOST_PARENTS 64
#define CHAIN_ROOM 1024

/* Writes a parents file of so many rows, in which suppliers from 1 on are each the child of the next. */
static inline void write_chain(char text[CHAIN_ROOM], unsigned rows) {
    size_t at = (size_t)snprintf(text, CHAIN_ROOM, "%s", PARENTS);
    for (unsigned supplier = 1; supplier <= rows; supplier++)
        at += (size_t)snprintf(text + at, CHAIN_ROOM - at, "%u,%u\r\n", supplier, supplier + 1);
}

/* A supply file of so many rows: units 1 to units and suppliers 1 to suppliers, over and over. */
static inline const char *supply_of(unsigned rows, unsigned units, unsigned suppliers) {
    static char text[16384];
    size_t at = (size_t)snprintf(text, sizeof text, "%s", SUPPLY);
    for (unsigned row = 0; row < rows; row++)
        at += (size_t)snprintf(text + at, sizeof text - at, "%u,%u,1000,3000,5000\r\n", row % units + 1, row % suppliers + 1);
    return text;
}

/* The files of a study but for curves and parents, as their texts. */
struct files {
    const char *constraint;
    const char *supply;
    const char *schedules;
};

/* What a study may have beside them, as texts; one of no bytes is none. */
struct beside {
    const char *curves;
    const char *parents;
};

#define NONE {"", ""}

#define STARRED {HOUR_5, STARRED_SUPPLY, STARRED_SCHEDULES}
#define NO_UNITS {HOUR_5, SUPPLY, SCHEDULES}

/* Room for any answer here. */
#define ENOUGH 150

/* A study: how long a buffer is lent, what is written or else what is reported. */
struct study {
    const char *name;
    size_t room;
    const char *answer;
    uint64_t report[3];
    struct files files;
};

/* A study with what is beside its files. */
struct study_beside {
    struct beside beside;
    struct study study;
};

/* A test of one supplier: what is answered, and what is left; that stays UNTOUCHED where the test is refused. */
struct one_test {
    const char *name;
    uint64_t amounts[33];
    size_t count;
    uint64_t place, need, verdict, left;
};

/* The largest amount that a test takes. */
#define MOST_AMOUNT UINT64_C(1000000000000)

#define DAY_BYTES (CAPPING_DAY_CELLS * sizeof(uint64_t))

/* What stands before a call in each byte, and in each cell of a report, that it may write. */
#define UNTOUCHED_BYTE 0xA5
#define UNTOUCHED UINT64_C(0xA5A5A5A5A5A5A5A5)

static int failures;

static inline void require(const char *name, const char *what, int kept) {
    if (!kept) {
        printf("%s: %s\n", name, what);
        failures++;
    }
}

/* So much memory and not a byte more, not even one where that is 0. */
static inline void *untouched(size_t length) {
    void *room = malloc(length);
    if (room == NULL) {
        fputs("no memory\n", stderr);
        exit(1);
    }
    return memset(room, UNTOUCHED_BYTE, length);
}

static inline void *copy_of(const void *bytes, size_t length) {
    return memcpy(untouched(length), bytes, length);
}

/* Words that are known to be in the form, as cells. */
static inline void read_day(uint64_t *day, const char *words) {
    require(words, "not read", capping_day_read(day, words));
}

/* Files as a call takes them: the first three as a check does, all as a study does. */
struct lent {
    uint8_t *constraint, *supply, *schedules, *curves, *parents;
    size_t constraint_len, supply_len, schedules_len, curves_len, parents_len;
};

#define LENT(l) (l).constraint, (l).constraint_len, (l).supply, (l).supply_len, (l).schedules, (l).schedules_len
#define LENT_ALL(l) LENT(l), (l).curves, (l).curves_len, (l).parents, (l).parents_len

/* A text as a file, with its length. */
static inline uint8_t *lend_text(const char *text, size_t *length) {
    *length = strlen(text);
    return copy_of(text, *length);
}

/* Files with what is beside them. */
static inline struct lent lend_with(struct beside beside, const struct files *f) {
    struct lent l;
    l.constraint = lend_text(f->constraint, &l.constraint_len);
    l.supply = lend_text(f->supply, &l.supply_len);
    l.schedules = lend_text(f->schedules, &l.schedules_len);
    l.curves = lend_text(beside.curves, &l.curves_len);
    l.parents = lend_text(beside.parents, &l.parents_len);
    return l;
}

/* Files with nothing beside them. */
static inline struct lent lend(const struct files *f) {
    return lend_with((struct beside)NONE, f);
}

static inline void take_back(struct lent l) {
    free(l.constraint);
    free(l.supply);
    free(l.schedules);
    free(l.curves);
    free(l.parents);
}

/* What a call writes into: a buffer and a report. */
struct room {
    uint8_t *buffer;
    size_t length;
    uint64_t *report;
};

#define REPORT_BYTES (3 * sizeof(uint64_t))
#define ROOM(r) (r).buffer, (r).length, (r).report

static inline struct room lend_room(size_t length) {
    struct room r = {untouched(length), length, untouched(REPORT_BYTES)};
    return r;
}

/* Requires that a call wrote just this text, none where it is refused, and reported just this. Takes the room back. */
static inline void expect_written(const char *name, struct room r, uint64_t count, const char *text, const uint64_t report[3]) {
    size_t length = strlen(text), changed = 0;
    for (size_t i = length; i < r.length; i++)
        changed += r.buffer[i] != UNTOUCHED_BYTE;
    require(name, "another count", count == length);
    require(name, "another text", length <= r.length && memcmp(r.buffer, text, length) == 0);
    require(name, "a byte changed past the text", changed == 0);
    require(name, "another report", memcmp(r.report, report, REPORT_BYTES) == 0);
    free(r.report);
    free(r.buffer);
}

/* Studies with what is beside the files on the day, or on a fresh one where that is NULL. */
static inline void expect_study_with(struct beside beside, const struct study *s, uint64_t *day) {
    struct lent files = lend_with(beside, &s->files);
    struct room room = lend_room(s->room);
    uint64_t count = day == NULL ? capping_study(LENT_ALL(files), ROOM(room)) : capping_day_study(day, LENT_ALL(files), ROOM(room));
    expect_written(s->name, room, count, s->answer, s->report);
    take_back(files);
}

/* Studies with nothing beside the files. */
static inline void expect_study(const struct study *s, uint64_t *day) {
    expect_study_with((struct beside)NONE, s, day);
}

#endif
