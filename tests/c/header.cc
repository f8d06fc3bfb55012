// founded.h in C++: every accessor, and every call.
#include <cstdio>

#include "founded.h"

// variable 0 is at least itself
static void search()
{
    const uint8_t file[] = {1, 0, 5, 1, 0, 0, 0, 1, 2, 0, 8, 1, 0, 0, 0, 0, 0, 0, 1};
    uint64_t sets[FOUNDED_SET_WORDS];
    uint8_t first[1];
    uint64_t begin = founded_begin(file, sizeof file, sets, FOUNDED_SET_WORDS);
    bool stepped = founded_step(sets, FOUNDED_SET_WORDS, 1, 0), again = founded_step(sets, FOUNDED_SET_WORDS, 1, 1);
    bool named = founded_components(sets, FOUNDED_SET_WORDS, 1, first, sizeof first);
    std::printf("%u %u %d %d %d %u\n", founded_word(begin), founded_first(begin), stepped, again, named, first[0]);
    const uint64_t bits[] = {0, 0, 0, 0, 1, 0, 0, (uint64_t)1 << 63};
    std::printf("%d %d %d %d\n", founded_has(bits, 1, 0), founded_has(bits, 1, 255), founded_has(bits, 1, 254), founded_has(bits, 0, 0));
}

// variable 0 is at least itself, by a tree that is a leaf
static void flatten()
{
    const uint8_t nested[] = {1, 0, 5, 1, 0, 0, 0, 1, FOUNDED_TREE_TAG, 0, 3, 0, 0, 0};
    uint8_t plain[19];
    uint64_t flatten = founded_flatten(nested, sizeof nested, plain, sizeof plain);
    std::printf("%u %u %u\n", founded_word(flatten), (unsigned)founded_length(flatten), plain[18]);
}

// variable 0 is at least 5, and lent -1..3
static void bounds()
{
    const uint8_t file[] = {1, 0, 5, 1, 0xff, 0xff, 0, 9, 2, 0, 4, 1, 0, 0, 5};
    uint8_t ranges[FOUNDED_RANGE_BYTES], bounds[FOUNDED_BOUNDS_BYTES];
    founded_range(ranges, 0, -1, 3);
    uint64_t answer = founded_bounds(file, sizeof file, ranges, sizeof ranges, bounds, sizeof bounds);
    std::printf("%d %d %d\n", answer == FOUNDED_BOUNDED, founded_word(answer) == FOUNDED_BOUNDED, founded_value(bounds, 0));
    std::printf("%d %d %u %u\n", founded_low(ranges, 0), founded_high(ranges, 0), ranges[0], ranges[3]);
    founded_range(ranges, 0, 4, 3);
    answer = founded_bounds(file, sizeof file, ranges, sizeof ranges, bounds, sizeof bounds);
    std::printf("%u %u %u %d\n", founded_word(answer), founded_first(answer), founded_second(answer), founded_value(bounds, 0));
}

int main()
{
    const uint8_t file[] = {1, 0, 5, 1, 0xff, 0xff, 0, 1};
    uint8_t values[2], model[2], report[12], normal[8];
    founded_assign(values, 0, 1);
    uint64_t read = founded_read(file, sizeof file);
    uint64_t least = founded_least(file, sizeof file, values, sizeof values, model, sizeof model);
    uint64_t check = founded_check(file, sizeof file, values, sizeof values, report, sizeof report);
    uint64_t normalize = founded_normalize(file, sizeof file, normal, sizeof normal);
    std::printf("%u %u %u %u\n", founded_word(read), founded_first(read), founded_second(read), founded_third(read));
    std::printf("%u %d\n", founded_word(least), founded_value(model, 0));
    std::printf("%u %u %u\n", founded_word(check), founded_first(check), founded_second(check));
    std::printf("%u %u %d\n", founded_entry_variable(report, 0), founded_entry_mark(report, 0), founded_entry_number(report, 0));
    std::printf("%u %u %u\n", founded_word(normalize), (unsigned)founded_length(normalize), normal[7]);
    std::printf("%x\n", (unsigned)founded_length((uint64_t)0x89abcdef << 8 | FOUNDED_WRITTEN));
    search();
    flatten();
    bounds();
    return 0;
}
