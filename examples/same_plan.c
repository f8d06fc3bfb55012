/* Says of pairs of rule files whether they are one plan: whether their normal forms are the same bytes. */
#include <stdio.h>
#include <stdlib.h>
#include <string.h>

#include "founded.h"

static const uint8_t ONE[] = {
    1, 0, 5, 0, 0, 0, 0, 9,                        /* variable 0: standard, 0..9 */
    1, 0, 5, 1, 0, 0, 0, 9,                        /* variable 1: founded, 0..9 */
    1, 0, 5, 1, 0, 0, 0, 9,                        /* variable 2: founded, 0..9 */
    2, 0, 12, 1, 2, 0, 0, 1, 0, 0, 1, 0, 0, 0, 1,  /* 2 is at least 1 + 0 */
    2, 0, 8,  6, 1, 0, 5, 0, 1, 0, 3,              /* 1 is at least 5 if 0 is at least 3 */
    2, 0, 12, 1, 2, 0, 0, 0, 0, 0, 1, 1, 0, 0, 1,  /* 2 is at least 0 + 1 */
};

/* the same without the rule that is there twice, and in another order */
static const uint8_t OTHER[] = {
    1, 0, 5, 0, 0, 0, 0, 9,                        /* variable 0: standard, 0..9 */
    1, 0, 5, 1, 0, 0, 0, 9,                        /* variable 1: founded, 0..9 */
    1, 0, 5, 1, 0, 0, 0, 9,                        /* variable 2: founded, 0..9 */
    2, 0, 8,  6, 1, 0, 5, 0, 1, 0, 3,              /* 1 is at least 5 if 0 is at least 3 */
    2, 0, 12, 1, 2, 0, 0, 1, 0, 0, 1, 0, 0, 0, 1,  /* 2 is at least 1 + 0 */
};

/* the same without the rule for variable 1 */
static const uint8_t LESS[] = {
    1, 0, 5, 0, 0, 0, 0, 9,                        /* variable 0: standard, 0..9 */
    1, 0, 5, 1, 0, 0, 0, 9,                        /* variable 1: founded, 0..9 */
    1, 0, 5, 1, 0, 0, 0, 9,                        /* variable 2: founded, 0..9 */
    2, 0, 12, 1, 2, 0, 0, 1, 0, 0, 1, 0, 0, 0, 1,  /* 2 is at least 1 + 0 */
};

/* writes a file's normal form and answers its length */
static size_t normal_form(const uint8_t *file, size_t file_len, uint8_t *buffer)
{
    uint64_t answer = founded_normalize(file, file_len, buffer, FOUNDED_MAX_FILE);
    if (founded_word(answer) != FOUNDED_WRITTEN) {
        printf("refused: number %u, place %u\n", founded_first(answer), founded_second(answer));
        exit(1);
    }
    return founded_length(answer);
}

static void compare(const uint8_t *a, size_t a_len, const uint8_t *b, size_t b_len)
{
    static uint8_t first[FOUNDED_MAX_FILE], second[FOUNDED_MAX_FILE];
    size_t n = normal_form(a, a_len, first), m = normal_form(b, b_len, second);
    int same = n == m && memcmp(first, second, n) == 0;
    printf("%zu and %zu bytes, written in %zu and %zu: %s\n", a_len, b_len, n, m, same ? "one plan" : "two plans");
}

int main(void)
{
    compare(ONE, sizeof ONE, OTHER, sizeof OTHER);
    compare(ONE, sizeof ONE, LESS, sizeof LESS);
    return 0;
}
