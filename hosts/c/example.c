/* What a caller writes: a look at the choice for one unit, and then the study of files that are read into memory; what runs after
 * it, and the release of a unit; one of the files handed back tidy; and the test of the last of four suppliers, on a list and fed
 * one amount a call. */
#include "capping.h"

#include <inttypes.h>
#include <stdio.h>

#define FILE_ROOM 65536

/* A file's bytes, none where it can't be opened. */
static size_t read_file(const char *name, uint8_t *bytes) {
    FILE *file = fopen(name, "rb");
    if (file == NULL)
        return 0;
    size_t length = fread(bytes, 1, FILE_ROOM, file);
    fclose(file);
    return length;
}

static void print_day(const uint64_t *day) {
    if (capping_day_has_hour(day))
        printf("hour %" PRIu64 "\n", capping_day_hour(day));
    for (uint64_t i = 0; i < capping_day_count(day); i++)
        printf("unit %" PRIu64 " on %c schedule %" PRIu64 "\n", capping_day_unit(day, i), capping_day_kind(day, i),
               capping_day_schedule(day, i));
}

int main(void) {
    static uint8_t c[FILE_ROOM], s[FILE_ROOM], h[FILE_ROOM], k[FILE_ROOM], p[FILE_ROOM];
    size_t c_len = read_file("constraint.csv", c), s_len = read_file("supply.csv", s), h_len = read_file("schedules.csv", h);
    size_t k_len = read_file("curves.csv", k), p_len = read_file("parents.csv", p);

    uint8_t answer[CAPPING_LONGEST_ANSWER];
    uint64_t day[CAPPING_DAY_CELLS], row[CAPPING_ROW_CELLS], report[3];
    capping_day_fresh(day);
    if (capping_preview(day, c, c_len, s, s_len, h, h_len, k, k_len, p, p_len, 14, row, report) == 0)
        printf("unit 14 would run on %c schedule %" PRIu64 "\n", (char)row[CAPPING_ROW_KIND], row[CAPPING_ROW_SCHEDULE]);

    uint64_t count =
        capping_day_study(day, c, c_len, s, s_len, h, h_len, k, k_len, p, p_len, answer, sizeof answer, report);
    if (count == 0) printf("refused: %d, file %d, place %d\n", (int)report[0], (int)report[1], (int)report[2]);
    else fwrite(answer, 1, count, stdout);

    print_day(day);
    uint64_t lowest = capping_day_unit(day, 0);
    if (capping_day_release(day, lowest, report) == 0)
        printf("unit %" PRIu64 " is released, %" PRIu64 " run\n", lowest, capping_day_count(day));

    uint8_t tidy[CAPPING_LONGEST_TIDY_SUPPLY];
    count = capping_tidy(CAPPING_SUPPLY, s, s_len, tidy, sizeof tidy, report);
    fwrite(tidy, 1, count, stdout);

    uint64_t amounts[] = {4, 3, 2, 1}, left;
    if (capping_test(amounts, 4, 3, 2, &left) == CAPPING_P) printf("P, left %d\n", (int)left);

    uint64_t fed[CAPPING_FED_CELLS];
    capping_fed_begin(fed, 3, 2);
    for (int i = 0; i < 4; i++)
        capping_fed_feed(fed, amounts[i]);
    if (capping_fed_ask(fed, &left) == CAPPING_P) printf("P, left %d\n", (int)left);
    return 0;
}
