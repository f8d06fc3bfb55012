/* Checks plans that are built in memory, document 01's printing example and earliest arrival times, and says the answers in words. */
#include <stdio.h>

#include "founded.h"

enum { VARIABLES = 3 };

static const uint8_t EXAMPLE[] = {
    1, 0, 5, 0, 0, 0, 0, 1,          /* variable 0: standard, 0..1 */
    1, 0, 5, 1, 0, 0, 0, 1,          /* variable 1: founded, 0..1 */
    1, 0, 5, 1, 0, 0, 0, 1,          /* variable 2: founded, 0..1 */
    2, 0, 8, 6, 1, 0, 1, 0, 1, 0, 1, /* 1 is at least 1 if 0 is at least 1 */
    2, 0, 8, 6, 1, 0, 1, 2, 1, 0, 1, /* 1 is at least 1 if 2 is at least 1 */
    2, 0, 8, 6, 2, 0, 1, 1, 1, 0, 1, /* 2 is at least 1 if 1 is at least 1 */
};

static const uint8_t ARRIVAL[] = {
    1, 0, 5, 2, 0, 0, 0, 100,         /* variable 0: founded from above, 0..100 */
    1, 0, 5, 2, 0, 0, 0, 100,         /* variable 1: founded from above, 0..100 */
    1, 0, 5, 2, 0, 0, 0, 100,         /* variable 2: founded from above, 0..100 */
    2, 0, 4, 1, 0, 0, 5,              /* 0 is at most 5 */
    2, 0, 8, 1, 1, 0, 10, 0, 0, 0, 1, /* 1 is at most 10 more than 0 */
    2, 0, 8, 1, 2, 0, 10, 1, 0, 0, 1, /* 2 is at most 10 more than 1 */
    2, 0, 8, 1, 1, 0, 10, 2, 0, 0, 1, /* 1 is at most 10 more than 2 */
};

static void say_entries(const uint8_t *report, unsigned bounds, unsigned conditions)
{
    for (unsigned i = 0; i < bounds; i++)
        printf("  variable %u is held %s to %d only\n", founded_entry_variable(report, i),
               founded_entry_mark(report, i) == FOUNDED_BOUND ? "up" : "down", founded_entry_number(report, i));
    for (unsigned i = bounds; i < bounds + conditions; i++)
        printf("  as long as variable %u is %s %d\n", founded_entry_variable(report, i),
               founded_entry_mark(report, i) == FOUNDED_AT_MOST ? "at most" : "at least", founded_entry_number(report, i));
}

static void check(const uint8_t *file, size_t file_len, int a, int b, int c)
{
    uint8_t assignment[FOUNDED_ASSIGNMENT_BYTES * VARIABLES], report[FOUNDED_CHECK_BYTES * VARIABLES];
    founded_assign(assignment, 0, a);
    founded_assign(assignment, 1, b);
    founded_assign(assignment, 2, c);
    uint64_t answer = founded_check(file, file_len, assignment, sizeof assignment, report, sizeof report);
    printf("%d, %d, %d is ", a, b, c);
    switch (founded_word(answer)) {
    case FOUNDED_STABLE: printf("stable\n"); break;
    case FOUNDED_UNFOUNDED:
        printf("unfounded\n");
        say_entries(report, founded_first(answer), founded_second(answer));
        break;
    case FOUNDED_CONSTRAINT: printf("against constraint %u\n", founded_first(answer)); break;
    case FOUNDED_RULE: printf("against rule %u\n", founded_first(answer)); break;
    case FOUNDED_RANGE: printf("outside the range of variable %u\n", founded_first(answer)); break;
    default: printf("refused: number %u, place %u\n", founded_first(answer), founded_second(answer));
    }
}

int main(void)
{
    check(EXAMPLE, sizeof EXAMPLE, 1, 1, 1);
    check(EXAMPLE, sizeof EXAMPLE, 0, 1, 1);
    check(EXAMPLE, sizeof EXAMPLE, 1, 0, 0);
    check(EXAMPLE, sizeof EXAMPLE, 0, 2, 0);
    check(ARRIVAL, sizeof ARRIVAL, 5, 15, 25);
    check(ARRIVAL, sizeof ARRIVAL, 5, 14, 24);
    check(ARRIVAL, sizeof ARRIVAL, 5, 16, 25);
    return 0;
}
