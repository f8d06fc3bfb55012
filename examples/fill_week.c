/*
 * Fills a half-filled plan: asks for the bounds, draws the founded ranges in to them, fixes the next standard variable and asks again, until a plan
 * is found or none can be. Where a bound is before its range no plan is inside, and the next value is tried.
 */
#include <stdio.h>
#include <stdlib.h>
#include <string.h>

#include "founded.h"

/* the standard variables come first */
enum { EARLY, LATE, SHIFT, COVER, WAIT, OVERTIME, VARIABLES };
enum { RANGES = FOUNDED_RANGE_BYTES * VARIABLES };

static const char *const NAMES[VARIABLES] = {"early", "late", "shift", "cover", "wait", "overtime"};

/* guards early and late, and the hours by which the change between them is shifted, either way */
static const uint8_t WEEK[] = {
    1, 0, 5, 0, 0,    0,    0, 2,                                /* variable 0, early: standard, 0..2 */
    1, 0, 5, 0, 0,    0,    0, 2,                                /* variable 1, late: standard, 0..2 */
    1, 0, 5, 0, 0xff, 0xfe, 0, 2,                                /* variable 2, shift: standard, -2..2 */
    1, 0, 5, 1, 0,    0,    0, 100,                              /* variable 3, cover: founded, 0..100 */
    1, 0, 5, 2, 0,    0,    0, 60,                               /* variable 4, wait: founded from above, 0..60 */
    1, 0, 5, 1, 0,    0,    0, 9,                                /* variable 5, overtime: founded, 0..9 */
    2, 0, 16, 1, 3, 0, 0, 0, 0, 0, 20, 1, 0, 0, 30, 5, 0, 0, 10, /* 3 is at least 20 times 0, 30 times 1 and 10 times 5 */
    2, 0, 8, 1, 4, 0, 50, 1, 0, 0xff, 0xec,                      /* 4 is at most 50 less 20 times 1 */
    2, 0, 8, 5, 5, 0, 0, 2, 0, 0, 0,                             /* 5 is at least the size of 2, which is mixed there */
    3, 0, 11, 1, 0xff, 0xfd, 0, 0, 0, 1, 1, 0, 0, 1,             /* 0 and 1 are together at most 3 */
};

/* false where the bound is before the range; else the range is drawn in to it */
static bool draw_in(uint8_t *ranges, size_t v, int bound)
{
    const int low = founded_low(ranges, v), high = founded_high(ranges, v);
    if (bound < low || bound > high)
        return false;
    founded_range(ranges, v, v == WAIT ? bound : low, v == WAIT ? high : bound);
    return true;
}

/* says the bounds and draws in; false where no plan is inside */
static bool bound(uint8_t *ranges)
{
    uint8_t bounds[FOUNDED_BOUNDS_BYTES * VARIABLES];
    bool inside = true;
    uint64_t answer = founded_bounds(WEEK, sizeof WEEK, ranges, RANGES, bounds, sizeof bounds);
    if (founded_word(answer) != FOUNDED_BOUNDED) {
        printf(" refused: number %u, place %u\n", founded_first(answer), founded_second(answer));
        exit(1);
    }
    for (size_t v = COVER; v < VARIABLES; v++) {
        printf("%s %s %s to %d", v == COVER ? "" : ",", NAMES[v], v == WAIT ? "down" : "up", founded_value(bounds, v));
        inside &= draw_in(ranges, v, founded_value(bounds, v));
    }
    printf(inside ? "\n" : ": none\n");
    return inside;
}

/*
 * All standard variables are fixed. Only the bounds can be stable then, since the one founded variable in a body, overtime, is kept there. The check
 * decides: constraints play no part in bounds, and a bound that stops at the end of its range may not meet its rule.
 */
static bool check(const uint8_t *ranges)
{
    uint8_t plan[FOUNDED_ASSIGNMENT_BYTES * VARIABLES], report[FOUNDED_CHECK_BYTES * VARIABLES];
    for (size_t v = 0; v < VARIABLES; v++) {
        founded_assign(plan, v, v == WAIT ? founded_low(ranges, v) : founded_high(ranges, v));
        printf("%s%d", v == 0 ? "        " : ", ", founded_value(plan, v));
    }
    uint64_t answer = founded_check(WEEK, sizeof WEEK, plan, sizeof plan, report, sizeof report);
    switch (founded_word(answer)) {
    case FOUNDED_STABLE: printf(" is stable\n"); return true;
    case FOUNDED_CONSTRAINT: printf(" is against constraint %u\n", founded_first(answer)); return false;
    case FOUNDED_RULE: printf(" is against rule %u\n", founded_first(answer)); return false;
    default: printf(" is not stable\n"); return false;
    }
}

/* the standard variables before v are fixed; true where a plan is found */
static bool fill(const uint8_t *ranges, size_t v)
{
    uint8_t drawn[RANGES], fixed[RANGES];
    memcpy(drawn, ranges, RANGES);
    if (!bound(drawn))
        return false;
    if (v == COVER)
        return check(drawn);
    for (int value = founded_low(drawn, v); value <= founded_high(drawn, v); value++) {
        printf("%*s%s %d:", 2 * (int)v + 2, "", NAMES[v], value);
        memcpy(fixed, drawn, RANGES);
        founded_range(fixed, v, value, value);
        if (fill(fixed, v + 1))
            return true;
    }
    return false;
}

/* at least so much cover, at most so long a wait, a shift of an hour at most, forward, and an hour of overtime at most */
static void plan(int cover, int wait)
{
    uint8_t ranges[RANGES];
    founded_range(ranges, EARLY, 0, 2);
    founded_range(ranges, LATE, 0, 2);
    founded_range(ranges, SHIFT, 0, 1);
    founded_range(ranges, COVER, cover, 100);
    founded_range(ranges, WAIT, 0, wait);
    founded_range(ranges, OVERTIME, 0, 1);
    printf("cover from %d on, wait up to %d:", cover, wait);
    if (!fill(ranges, EARLY))
        printf("  no plan\n");
}

int main(void)
{
    plan(80, 20);
    plan(80, 5);
    plan(100, 20);
    return 0;
}
