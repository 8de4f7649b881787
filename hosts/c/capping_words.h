/* A day in words, to write down and read again: `-` for a fresh one, else the hour or `n` for none, a `;`, and each running unit
 * with kind and schedule, as in `5;11:C:2,12:M:1`. Numbers are numerals below 2^64 with no sign and no leading zero. Words
 * outlive a change of the cells, so they are what to store. Assumes what capping.h does. */
#ifndef CAPPING_WORDS_H
#define CAPPING_WORDS_H

#include "capping.h"

#include <inttypes.h>
#include <stdio.h>
#include <string.h>

#ifdef __cplusplus
extern "C" {
#endif

/* A buffer of so many characters holds the words of any day: numerals of 20 digits, and the 0 at the end. */
#define CAPPING_DAY_WORDS 2837

/* The most units that words may have. A day has fewer places; a unit without one is counted. */
#define CAPPING_WORDS_UNITS 1000

/* Writes a day down. Answers 1, or 0 where the day has no words, because it counts more units than it has places, or a kind is
 * neither letter; what stands in the buffer is then of no use. Other ill-formed days are written as they stand. */
static inline int capping_day_write(const uint64_t *day, char words[CAPPING_DAY_WORDS]) {
    uint64_t count = capping_day_count(day), i;
    int at;
    if (capping_day_has_hour(day))
        at = snprintf(words, CAPPING_DAY_WORDS, "%" PRIu64 ";", capping_day_hour(day));
    else
        at = snprintf(words, CAPPING_DAY_WORDS, "%s", count == 0 ? "-" : "n;");
    for (i = 0; i < count; i++) {
        if (capping_day_kind(day, i) == 0)
            return 0;
        at += snprintf(words + at, CAPPING_DAY_WORDS - (size_t)at, "%s%" PRIu64 ":%c:%" PRIu64, i == 0 ? "" : ",",
                       capping_day_unit(day, i), capping_day_kind(day, i), capping_day_schedule(day, i));
    }
    return 1;
}

/* Reads a numeral: what stands behind it, NULL where there is none. */
static inline const char *capping_words_number(const char *words, uint64_t *number) {
    const char *at = words;
    uint64_t value = 0;
    for (; *at >= '0' && *at <= '9'; at++) {
        uint64_t digit = (uint64_t)(*at - '0');
        if (value > (UINT64_MAX - digit) / 10)
            return NULL;
        value = value * 10 + digit;
    }
    if (at == words || (*words == '0' && at - words > 1))
        return NULL;
    *number = value;
    return at;
}

/* Reads a unit and adds it to the day: what stands behind it, NULL where there is none. */
static inline const char *capping_words_unit(const char *words, uint64_t *day) {
    uint64_t unit, schedule;
    const char *kind = capping_words_number(words, &unit);
    if (kind == NULL || kind[0] != ':' || (kind[1] != 'M' && kind[1] != 'C') || kind[2] != ':')
        return NULL;
    words = capping_words_number(kind + 3, &schedule);
    if (words != NULL)
        capping_day_add(day, unit, kind[1], schedule);
    return words;
}

/* Reads units, each of which stands behind a separator; the first separator alone stands for none. Answers whether that is all. */
static inline int capping_words_units(const char *words, uint64_t *day) {
    char separator = ';';
    if (strcmp(words, ";") == 0)
        return 1;
    while (words != NULL && *words == separator && capping_day_count(day) < CAPPING_WORDS_UNITS) {
        words = capping_words_unit(words + 1, day);
        separator = ',';
    }
    return words != NULL && *words == 0 && separator == ',';
}

/* Reads a day, ill-formed or not. Answers 1, or 0 where the words aren't in the form, and the day is then as it was. */
static inline int capping_day_read(uint64_t *day, const char *words) {
    uint64_t read[CAPPING_DAY_CELLS], hour;
    capping_day_fresh(read);
    if (strcmp(words, "-") != 0) {
        if (*words == 'n') {
            words++;
        } else {
            words = capping_words_number(words, &hour);
            if (words == NULL)
                return 0;
            capping_day_set_hour(read, hour);
        }
        if (!capping_words_units(words, read))
            return 0;
    }
    memcpy(day, read, sizeof read);
    return 1;
}

#ifdef __cplusplus
}
#endif

#endif
