/* Steps through the component search of two files: the set of each variable before the first round and after each, then the components. */
#include <stdio.h>
#include <stdlib.h>

#include "founded.h"

enum { VARIABLES = 4, LAST_RULE = 11 };

/* Without its last rule two circles, of 0 and 3 and of 1 and 2, joined one way, from 3 to 1. The last rule joins them back. */
static const uint8_t CIRCLES[] = {
    1, 0, 5, 1, 0,    0,    0, 10,   /* variable 0: founded, 0..10 */
    1, 0, 5, 1, 0xff, 0xf6, 0, 10,   /* variable 1: founded, -10..10 */
    1, 0, 5, 1, 0,    0,    0, 10,   /* variable 2: founded, 0..10 */
    1, 0, 5, 1, 0,    0,    0, 10,   /* variable 3: founded, 0..10 */
    2, 0, 8, 1, 0, 0, 0, 3, 0, 0, 1, /* 0 is at least 3 */
    2, 0, 8, 1, 3, 0, 0, 0, 0, 0, 1, /* 3 is at least 0 */
    2, 0, 8, 5, 3, 0, 0, 1, 0, 0, 0, /* 3 is at least the size of 1, which is mixed there */
    2, 0, 8, 1, 1, 0, 0, 2, 0, 0, 1, /* 1 is at least 2 */
    2, 0, 8, 1, 2, 0, 0, 1, 0, 0, 1, /* 2 is at least 1 */
    2, 0, 8, 1, 2, 0, 0, 0, 0, 0, 1, /* 2 is at least 0 */
};

static void say_set(const uint64_t *sets, size_t x)
{
    printf("%s %zu:", x == 0 ? "" : ";", x);
    for (size_t y = 0; y < FOUNDED_MAX_VARIABLES; y++)
        if (founded_has(sets, x, y))
            printf(" %zu", y);
}

static void say_sets(const uint64_t *sets)
{
    for (size_t x = 0; x < VARIABLES; x++)
        say_set(sets, x);
    printf("\n");
}

static void begin(const uint8_t *file, size_t file_len, uint64_t *sets, size_t sets_len)
{
    uint64_t answer = founded_begin(file, file_len, sets, sets_len);
    if (founded_word(answer) != FOUNDED_BEGUN) {
        printf("refused: number %u, place %u\n", founded_first(answer), founded_second(answer));
        exit(1);
    }
    printf("  before the first round,  ");
    say_sets(sets);
}

static void step_through(const uint8_t *file, size_t file_len)
{
    uint64_t sets[FOUNDED_SET_WORDS * VARIABLES];
    const size_t sets_len = sizeof sets / sizeof sets[0];
    uint8_t first[VARIABLES];
    begin(file, file_len, sets, sets_len);
    for (size_t k = 0; founded_step(sets, sets_len, VARIABLES, k); k++) {
        printf("  after variable %zu's round,", k);
        say_sets(sets);
    }
    printf("  first variables of the components:");
    if (founded_components(sets, sets_len, VARIABLES, first, sizeof first))
        for (size_t x = 0; x < VARIABLES; x++)
            printf(" %u", first[x]);
    printf("\n");
}

static void read_and_step(const uint8_t *file, size_t file_len)
{
    uint64_t answer = founded_read(file, file_len);
    if (founded_word(answer) == FOUNDED_ACCEPTED)
        printf("%zu bytes, accepted\n", file_len);
    else
        printf("%zu bytes, refused: number %u, place %u\n", file_len, founded_first(answer), founded_second(answer));
    step_through(file, file_len);
}

int main(void)
{
    read_and_step(CIRCLES, sizeof CIRCLES - LAST_RULE);
    read_and_step(CIRCLES, sizeof CIRCLES);
    return 0;
}
