/*
 * Checks plans for a nested file: flattens it, fills the added variables, takes their values from the least model, and checks. A verdict names
 * rules and variables of the plain file, so it first says which node each added one is.
 */
#include <stdio.h>
#include <stdlib.h>

#include "founded.h"

enum { DECLARED = 5, VARIABLE_BYTES = 8, LOW = 4 };

/* a post is covered after reach and the larger of two delays, the gate, or the keys and the stairs */
static const uint8_t NESTED[] = {
    1, 0, 5, 0, 0, 0, 0, 60,          /* variable 0, reach: standard, 0..60 */
    1, 0, 5, 0, 0, 0, 0, 40,          /* variable 1, gate: standard, 0..40 */
    1, 0, 5, 1, 0, 0, 0, 20,          /* variable 2, keys: founded, 0..20 */
    1, 0, 5, 0, 0, 0, 0, 10,          /* variable 3, stairs: standard, 0..10 */
    1, 0, 5, 1, 0, 0, 0, 120,         /* variable 4, cover: founded, 0..120 */
    2, 0, 8, 6, 2, 0, 8, 0, 1, 0, 30, /* 2 is at least 8 if 0 is at least 30 */
    5, 0, 15, 4,                      /* 4 is at least */
    1, 2, 0, 0,                       /*   the sum of 0 and */
    2, 2, 0, 1,                       /*     the max of 1 and */
    1, 2, 0, 2, 0, 3,                 /*       the sum of 2 and 3 */
};

static uint8_t plain[FOUNDED_MAX_FILE];
static size_t plain_len, variables;

static void flatten(void)
{
    uint64_t answer = founded_flatten(NESTED, sizeof NESTED, plain, sizeof plain);
    if (founded_word(answer) != FOUNDED_WRITTEN) {
        printf("refused: number %u, place %u\n", founded_first(answer), founded_second(answer));
        exit(1);
    }
    plain_len = founded_length(answer);
    variables = founded_first(founded_read(plain, plain_len));
    printf("%zu bytes, flattened to %zu\n", sizeof NESTED, plain_len);
}

static void say_node(size_t rule, size_t place, size_t head)
{
    static const char *const NODES[] = {"leaf", "sum", "max", "min"};
    printf("  rule %zu is the %s at place %zu, for %s %zu\n", rule, NODES[NESTED[place]], place,
           head < DECLARED ? "variable" : "the added variable", head);
}

/* The numbers go on after the file's own, by trees and then by nodes as they stand, of 2 bytes each. A root's rule is for its head. */
static void say_nodes(void)
{
    size_t variable = 0, rule = 0;
    for (size_t at = 0, end; at < sizeof NESTED; at = end) {
        end = at + 3 + (size_t)founded_number(NESTED + at + 1);
        variable += NESTED[at] == 1;
        rule += NESTED[at] == 2;
        if (NESTED[at] != FOUNDED_TREE_TAG)
            continue;
        say_node(rule++, at + 4, NESTED[at + 3]);
        for (size_t node = at + 6; node < end; node += 2)
            if (NESTED[node] != 0)
                say_node(rule++, node, variable++);
    }
}

static void say_entries(const uint8_t *report, unsigned bounds, unsigned conditions)
{
    for (unsigned i = 0; i < bounds; i++)
        printf("  variable %u is held up to %d only\n", founded_entry_variable(report, i), founded_entry_number(report, i));
    for (unsigned i = bounds; i < bounds + conditions; i++)
        printf("  as long as variable %u is %s %d\n", founded_entry_variable(report, i),
               founded_entry_mark(report, i) == FOUNDED_AT_MOST ? "at most" : "at least", founded_entry_number(report, i));
}

static void say(uint64_t answer, const uint8_t *report)
{
    switch (founded_word(answer)) {
    case FOUNDED_STABLE: printf("stable\n"); break;
    case FOUNDED_UNFOUNDED:
        printf("unfounded\n");
        say_entries(report, founded_first(answer), founded_second(answer));
        break;
    case FOUNDED_CONSTRAINT: printf("against constraint %u\n", founded_first(answer)); break;
    case FOUNDED_RULE: printf("against rule %u\n", founded_first(answer)); break;
    case FOUNDED_RANGE: printf("outside the range of variable %u\n", founded_first(answer)); break;
    case FOUNDED_NONE: printf("without a least model\n"); break;
    default: printf("refused: number %u, place %u\n", founded_first(answer), founded_second(answer));
    }
}

/* any value in the range of an added variable does: its low */
static void fill(uint8_t *assignment)
{
    for (size_t v = DECLARED; v < variables; v++)
        founded_assign(assignment, v, founded_number(plain + VARIABLE_BYTES * v + LOW));
}

static void take(uint8_t *assignment, const uint8_t *model)
{
    for (size_t v = DECLARED; v < variables; v++) {
        founded_assign(assignment, v, founded_value(model, v));
        printf("%s %d", v == DECLARED ? " with" : ",", founded_value(model, v));
    }
}

/* The plan is stable exactly where the check of the plain file says so. Where there is no least model, it is not. */
static void check(int reach, int gate, int keys, int stairs, int cover)
{
    const int values[DECLARED] = {reach, gate, keys, stairs, cover};
    uint8_t assignment[FOUNDED_ASSIGNMENT_BYTES * FOUNDED_MAX_VARIABLES], model[FOUNDED_LEAST_BYTES * FOUNDED_MAX_VARIABLES];
    uint8_t report[FOUNDED_CHECK_BYTES * FOUNDED_MAX_VARIABLES];
    const size_t assignment_len = FOUNDED_ASSIGNMENT_BYTES * variables;
    for (size_t v = 0; v < DECLARED; v++)
        founded_assign(assignment, v, values[v]);
    printf("%d, %d, %d, %d, %d", reach, gate, keys, stairs, cover);
    fill(assignment);
    uint64_t answer = founded_least(plain, plain_len, assignment, assignment_len, model, sizeof model);
    if (founded_word(answer) == FOUNDED_FOUND) {
        take(assignment, model);
        answer = founded_check(plain, plain_len, assignment, assignment_len, report, sizeof report);
    }
    printf(" is ");
    say(answer, report);
}

int main(void)
{
    flatten();
    say_nodes();
    check(30, 5, 8, 4, 42);
    check(30, 5, 8, 4, 45);
    check(30, 5, 8, 4, 40);
    check(30, 5, 10, 4, 44);
    check(30, 41, 8, 4, 42);
    return 0;
}
