/* Cases of costs and prices above 2,000 dollars, where the capped offer is the cost alone. What each must answer was worked from
 * documents 01 and 02. */
#include "testing.h"

/* The starred files with another price of unit 13, which has a C schedule alone, and of unit 14's market-based schedule. */
#define PRICE_13(price) \
    {HOUR_5, STARRED_SUPPLY, UNITS_11_AND_12 "13,1,C,5,200," price ",0,1000,1\r\n14,1,M,5,100,5000,0,0,1\r\n"}
#define PRICE_14(price) \
    {HOUR_5, STARRED_SUPPLY, UNITS_11_AND_12 "13,1,C,5,200,4000,0,1000,1\r\n14,1,M,5,100," price ",0,0,1\r\n"}

/* Their answers with these costs of units 13 and 14. */
#define ANSWER_AT(cost_13, cost_14) \
    ANSWER_HEADER "11,1,F,0,2,C,1030000\r\n12,2,F,0,1,M,330000\r\n13,3,F,0,1,C," cost_13 "\r\n" \
                  "14,4,F,5000000,1,M," cost_14 "\r\n"

/* The starred files where units 11 and 12 clear at 200001, and unit 13 has another cost. Where it isn't relevant, what the others
 * supply is all that a removal takes away, so that nothing is left for unit 14. */
#define COST_13(cost) \
    {HOUR_5, SUPPLY "11,1,1000,200001,5000\r\n12,2,1000,200001,-5000\r\n13,3,1000," cost ",5000\r\n14,4,2000,2000,200\r\n", \
     STARRED_SCHEDULES}
#define NONE_LEFT_ANSWER AFFILIATED_ANSWER

static const struct study_beside studies[] = {
    {NONE, {"price 195000", ENOUGH, ANSWER_AT("40010000", "500000"), {0, 0, 0}, PRICE_13("195000")}},
    {NONE, {"price 200000", ENOUGH, ANSWER_AT("40010000", "500000"), {0, 0, 0}, PRICE_13("200000")}},
    {NONE, {"price 200001", ENOUGH, ANSWER_AT("40010200", "500000"), {0, 0, 0}, PRICE_13("200001")}},
    {NONE, {"price 370000", ENOUGH, ANSWER_AT("74010000", "500000"), {0, 0, 0}, PRICE_13("370000")}},
    {NONE, {"price 370001", ENOUGH, "", {3, 3, 5}, PRICE_13("370001")}},
    {NONE, {"a market-based price of 200001", ENOUGH, ANSWER_AT("890000", "20000100"), {0, 0, 0}, PRICE_14("200001")}},
    {NONE, {"a market-based price of 370000", ENOUGH, ANSWER_AT("890000", "37000000"), {0, 0, 0}, PRICE_14("370000")}},
    {NONE, {"a market-based price of 370001", ENOUGH, "", {3, 3, 6}, PRICE_14("370001")}},
    {{CURVES "13,1,5,200,200001\r\n", ""},
     {"a curve at 200001", ENOUGH, ANSWER_AT("40010200", "500000"), {0, 0, 0}, STARRED}},
    {{CURVES "13,1,5,200,370000\r\n", ""},
     {"a curve at 370000", ENOUGH, ANSWER_AT("74010000", "500000"), {0, 0, 0}, STARRED}},
    {{CURVES "13,1,5,200,370001\r\n", ""}, {"a curve at 370001", ENOUGH, "", {3, 4, 1}, STARRED}},
    {NONE, {"cost 300001, at 150%", ENOUGH, STARRED_ANSWER, {0, 0, 0}, COST_13("300001")}},
    {NONE, {"cost 300002, above 150%", ENOUGH, NONE_LEFT_ANSWER, {0, 0, 0}, COST_13("300002")}},
    {NONE, {"cost 370000", ENOUGH, NONE_LEFT_ANSWER, {0, 0, 0}, COST_13("370000")}},
    {NONE, {"cost 370001", ENOUGH, "", {3, 2, 3}, COST_13("370001")}},
};

int main(void) {
    for (size_t i = 0; i < sizeof studies / sizeof *studies; i++)
        expect_study_with(studies[i].beside, &studies[i].study, NULL);
    return failures == 0 ? 0 : 1;
}
