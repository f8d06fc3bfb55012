/*
 * The calls from C, one line an answer. Every buffer lies between two pages that may not be touched, in a first call directly behind
 * one and in a second directly before the other; what is only read may not be written either. Each call runs on a thread with just
 * the stack that founded.h names, below it a page that may not be touched.
 */
#define _DEFAULT_SOURCE
#include <pthread.h>
#include <stdio.h>
#include <stdlib.h>
#include <string.h>
#include <sys/mman.h>

#include "founded.h"

#define PAGE ((size_t)4096)
#define ROOM (16 * PAGE)

enum { PAINT = 0xA5, MARK = 0xEE, WORD = 8 };

enum which { READ, LEAST, CHECK, NORMALIZE, BEGIN, STEP, COMPONENTS, FLATTEN, BOUNDS, COUNT };

static const char *const CALLS[] = {"read", "least", "check", "normalize", "begin", "step", "components", "flatten", "bounds"};
static const size_t STACKS[] = {FOUNDED_READ_STACK, FOUNDED_LEAST_STACK,      FOUNDED_CHECK_STACK,   FOUNDED_NORMALIZE_STACK, FOUNDED_BEGIN_STACK,
                                FOUNDED_STEP_STACK, FOUNDED_COMPONENTS_STACK, FOUNDED_FLATTEN_STACK, FOUNDED_BOUNDS_STACK};

/* beside is the assignment, the ranges, or the sets that components are read off; every length is in bytes */
struct call {
    enum which which;
    const void *file, *beside;
    void *lent;
    size_t file_len, beside_len, lent_len, variables, k;
    uint64_t answer;
    uintptr_t top;
};

static void fail(const char *name, const char *why)
{
    printf("%s: FAILED, %s\n", name, why);
    exit(1);
}

/* ---- memory between two pages that may not be touched */

static uint8_t *fenced(size_t size)
{
    uint8_t *p = mmap(NULL, size + 2 * PAGE, PROT_NONE, MAP_PRIVATE | MAP_ANONYMOUS, -1, 0);
    if (p == MAP_FAILED || mprotect(p + PAGE, size, PROT_READ | PROT_WRITE) != 0)
        fail("memory", "no room");
    return p + PAGE;
}

static void protect(uint8_t *room, int how)
{
    if (mprotect(room, ROOM, how) != 0)
        fail("memory", "no protection");
}

/* the bytes stand at the room's end or at its start */
static uint8_t *placed(uint8_t *room, const void *bytes, size_t n, int at_end)
{
    uint8_t *p = at_end ? room + ROOM - n : room;
    if (n > 0)
        memcpy(p, bytes, n);
    return p;
}

/* ---- a call on a thread of its own */

enum { MARGIN = 16384 };

static uint8_t *stacks[COUNT];
static size_t deepest[COUNT];

static void answer(struct call *c)
{
    switch (c->which) {
    case READ: c->answer = founded_read(c->file, c->file_len); break;
    case LEAST: c->answer = founded_least(c->file, c->file_len, c->beside, c->beside_len, c->lent, c->lent_len); break;
    case CHECK: c->answer = founded_check(c->file, c->file_len, c->beside, c->beside_len, c->lent, c->lent_len); break;
    case NORMALIZE: c->answer = founded_normalize(c->file, c->file_len, c->lent, c->lent_len); break;
    case BEGIN: c->answer = founded_begin(c->file, c->file_len, c->lent, c->lent_len / WORD); break;
    case STEP: c->answer = founded_step(c->lent, c->lent_len / WORD, c->variables, c->k); break;
    case COMPONENTS: c->answer = founded_components(c->beside, c->beside_len / WORD, c->variables, c->lent, c->lent_len); break;
    case FLATTEN: c->answer = founded_flatten(c->file, c->file_len, c->lent, c->lent_len); break;
    case BOUNDS: c->answer = founded_bounds(c->file, c->file_len, c->beside, c->beside_len, c->lent, c->lent_len); break;
    case COUNT: break;
    }
}

static void *threaded(void *p)
{
    struct call *c = p;
    char here = 0;
    c->top = (uintptr_t)&here;
    answer(c);
    return NULL;
}

static void on_thread(struct call *c)
{
    pthread_t thread;
    pthread_attr_t attr;
    uint8_t *stack = stacks[c->which];
    size_t size = STACKS[c->which], low = 0;
    memset(stack, PAINT, size);
    if (pthread_attr_init(&attr) != 0 || pthread_attr_setstack(&attr, stack, size) != 0 || pthread_create(&thread, &attr, threaded, c) != 0 ||
        pthread_join(thread, NULL) != 0)
        fail(CALLS[c->which], "no thread");
    pthread_attr_destroy(&attr);
    while (stack[low] == PAINT)
        low++;
    size_t depth = (size_t)(c->top - (uintptr_t)(stack + low));
    if (depth > deepest[c->which])
        deepest[c->which] = depth;
}

/* ---- a case */

static uint8_t *file_room, *beside_room, *lent_room;

static void say(uint64_t a)
{
    static const char *const WORDS[] = {"nothing",  "stable", "unfounded", "constraint", "rule",  "range",  "refused",
                                        "accepted", "found",  "none",      "written",    "begun", "bounded"};
    static const int NUMBERS[] = {0, 0, 2, 1, 1, 1, 2, 3, 0, 0, 0, 1, 0};
    unsigned word = founded_word(a), numbers[] = {founded_first(a), founded_second(a), founded_third(a)};
    if (word < 1 || word > 12 || a >> 56 != 0)
        fail("answer", "no word");
    printf("%s", WORDS[word]);
    if (word == FOUNDED_WRITTEN) {
        printf(" %u", (unsigned)founded_length(a));
        numbers[0] = numbers[1] = 0;
    }
    for (int i = 0; i < 3; i++) {
        if (i < NUMBERS[word])
            printf(" %u", numbers[i]);
        else if (numbers[i] != 0)
            fail("answer", "a number that is not 0");
    }
}

/* of many, the first four and the last are said */
static bool said(size_t i, size_t n) { return i < 4 || i + 1 == n; }

static void say_entry(const uint8_t *report, size_t i)
{
    static const char *const MARKS[] = {
        [FOUNDED_BOUND] = "most", [FOUNDED_AT_MOST] = "<=", [FOUNDED_AT_LEAST] = ">=", [FOUNDED_BOUND_ABOVE] = "least"};
    unsigned mark = founded_entry_mark(report, i);
    printf("; %u %s %d", founded_entry_variable(report, i), mark < 4 ? MARKS[mark] : "?", founded_entry_number(report, i));
}

/* the counts of a file that was written, and the fields of a short one, of a normal form without variables. Written again, it is the same */
static void say_file(enum which which, const uint8_t *bytes, size_t n)
{
    static uint8_t again[ROOM];
    const bool flat = which == FLATTEN;
    uint64_t read = founded_read(bytes, n), answer = flat ? founded_flatten(bytes, n, again, n) : founded_normalize(bytes, n, again, n);
    if (founded_word(read) != FOUNDED_ACCEPTED)
        fail(CALLS[which], "a file that is refused");
    if (founded_word(answer) != FOUNDED_WRITTEN || founded_length(answer) != n || memcmp(bytes, again, n) != 0)
        fail(CALLS[which], "another file when written again");
    printf("; %u %u %u", founded_first(read), founded_second(read), founded_third(read));
    for (size_t i = flat ? 0 : 8 * founded_first(read), end; i < n && n <= 200; i = end) {
        end = i + 3 + (size_t)founded_number(bytes + i + 1);
        for (size_t j = i; j < end; j++)
            printf("%s%02x", j == i ? "; " : " ", bytes[j]);
    }
}

static void say_set(const uint64_t *sets, size_t x)
{
    size_t members = 0, i = 0;
    for (size_t y = 0; y < FOUNDED_MAX_VARIABLES; y++)
        members += founded_has(sets, x, y);
    printf("; %zu:", x);
    for (size_t y = 0; y < FOUNDED_MAX_VARIABLES; y++)
        if (founded_has(sets, x, y) && said(i++, members))
            printf(i == members && i > 5 ? " .. %zu" : " %zu", y);
}

static void say_sets(const uint64_t *sets, size_t n)
{
    for (size_t x = 0; x < n; x++)
        if (said(x, n))
            say_set(sets, x);
}

static void say_values(const uint8_t *values, size_t n)
{
    for (size_t v = 0; v < n; v++)
        if (n <= 12 || said(v, n))
            printf(" %d", founded_value(values, v));
}

/* what a call wrote; it answers how many bytes */
static size_t say_written(enum which which, uint64_t a, const void *bytes, size_t values)
{
    size_t entries = founded_first(a) + founded_second(a);
    switch (founded_word(a)) {
    case FOUNDED_FOUND:
    case FOUNDED_BOUNDED: say_values(bytes, values); return 2 * values;
    case FOUNDED_UNFOUNDED:
        for (size_t i = 0; i < entries; i++)
            if (said(i, entries))
                say_entry(bytes, i);
        return 4 * entries;
    case FOUNDED_WRITTEN: say_file(which, bytes, founded_length(a)); return founded_length(a);
    case FOUNDED_BEGUN: say_sets(bytes, founded_first(a)); return WORD * FOUNDED_SET_WORDS * founded_first(a);
    default: return 0;
    }
}

/* what the lent bytes hold before a call that is not told otherwise, and after the last call */
static uint64_t marks[ROOM / WORD], left[ROOM / WORD];

/* the call with each buffer at the end of its room or at the start; it answers, and the lent bytes are then in `after` */
static uint64_t once(const char *name, struct call c, void *after, int at_end)
{
    c.file = placed(file_room, c.file, c.file_len, at_end);
    c.beside = placed(beside_room, c.beside, c.beside_len, at_end);
    memset(lent_room, MARK, ROOM);
    uint8_t *lent = placed(lent_room, c.lent, c.lent_len, at_end);
    c.lent = lent;
    protect(file_room, PROT_READ);
    protect(beside_room, PROT_READ);
    on_thread(&c);
    protect(file_room, PROT_READ | PROT_WRITE);
    protect(beside_room, PROT_READ | PROT_WRITE);
    for (uint8_t *p = lent_room; p < lent_room + ROOM; p++)
        if ((p < lent || p >= lent + c.lent_len) && *p != MARK)
            fail(name, "a byte beside the lent ones is written");
    memcpy(after, lent, c.lent_len);
    return c.answer;
}

/* the call twice, and the line's beginning */
static uint64_t twice(const char *name, struct call c)
{
    static uint64_t second[ROOM / WORD];
    uint64_t answer = once(name, c, left, 0);
    if (once(name, c, second, 1) != answer || memcmp(left, second, c.lent_len) != 0)
        fail(name, "two answers");
    printf("%s %s: ", CALLS[c.which], name);
    return answer;
}

/* of so many lent bytes those from the n-th on have the marks that they had */
static void unwritten_from(const char *name, size_t n, size_t lent)
{
    if (n > lent || memcmp((uint8_t *)left + n, marks, lent - n) != 0)
        fail(name, "a byte after the last is written");
}

/* the line's end; m bytes are the assignment or the ranges */
static void conclude(const char *name, enum which which, uint64_t answer, size_t m, size_t lent)
{
    say(answer);
    size_t written = say_written(which, answer, left, m / (which == BOUNDS ? FOUNDED_RANGE_BYTES : FOUNDED_ASSIGNMENT_BYTES));
    unwritten_from(name, written, lent);
    printf("\n");
}

static uint64_t try(const char *name, enum which which, const uint8_t *file, size_t n, const uint8_t *beside, size_t m, size_t lent)
{
    struct call c = {which, file, beside, marks, n, m, lent, 0, 0, 0, 0};
    uint64_t answer = twice(name, c);
    conclude(name, which, answer, m, lent);
    return answer;
}

/* ---- files */

struct file {
    size_t len, field;
    uint8_t bytes[ROOM];
};

static struct file built;

static void put(unsigned byte) { built.bytes[built.len++] = (uint8_t)byte; }

static void put_number(int n)
{
    founded_assign(built.bytes + built.len, 0, n);
    built.len += 2;
}

static void begin(unsigned tag, int length)
{
    built.field = built.len;
    put(tag);
    put_number(length);
}

static void variable(unsigned kind, int low, int high)
{
    begin(1, 5);
    put(kind);
    put_number(low);
    put_number(high);
}

static void rule(unsigned form, unsigned head, int c)
{
    begin(2, 4);
    put(form);
    put(head);
    put_number(c);
}

static void constraint(unsigned form, int c)
{
    begin(3, 3);
    put(form);
    put_number(c);
}

/* the last field gets so many bytes more */
static void lengthen(int n)
{
    uint8_t *length = built.bytes + built.field + 1;
    founded_assign(length, 0, founded_number(length) + n);
}

/* one term more in the last field */
static void term(unsigned v, unsigned op, int n)
{
    lengthen(4);
    put(v);
    put(op);
    put_number(n);
}

/* a tree for this head with these nodes, 2 bytes each: a leaf and its variable, or an inner node and its count of children */
static void tree(unsigned head, const uint8_t *nodes, size_t n)
{
    begin(FOUNDED_TREE_TAG, 1 + (int)n);
    put(head);
    for (size_t i = 0; i < n; i++)
        put(nodes[i]);
}

/* one node more in the last field */
static void node(unsigned byte, unsigned second)
{
    lengthen(2);
    put(byte);
    put(second);
}

enum { STANDARD, FOUNDED, FROM_ABOVE, LEAF = 0, SUM, MAX, MIN, PRODUCT, SIZE, IF, CARRY, DIVIDED };
enum { PLAIN, OVER, UNDER, DIVISOR };

static void variables(size_t n, unsigned kind, int low, int high)
{
    for (size_t i = 0; i < n; i++)
        variable(kind, low, high);
}

static void fresh(void) { built.len = 0; }

static void try_read(const char *name) { try(name, READ, built.bytes, built.len, NULL, 0, 0); }

static uint64_t try_begin(const char *name, size_t words) { return try(name, BEGIN, built.bytes, built.len, NULL, 0, WORD * words); }

static void try_normalize(const char *name, size_t lent) { try(name, NORMALIZE, built.bytes, built.len, NULL, 0, lent); }

static void try_flatten(const char *name, size_t lent) { try(name, FLATTEN, built.bytes, built.len, NULL, 0, lent); }

/* values of the built file, or low and high of each range in turn, and so many lent bytes */
static uint64_t try_on(const char *name, enum which which, const int *values, size_t n, size_t lent)
{
    static uint8_t beside[ROOM];
    for (size_t v = 0; v < n; v++)
        founded_assign(beside, v, values[v]);
    return try(name, which, built.bytes, built.len, beside, 2 * n, lent);
}

static void try_bounds(const char *name, const int *ends, size_t n, size_t lent) { try_on(name, BOUNDS, ends, n, lent); }

#define VALUES(...) (const int[]){__VA_ARGS__}, sizeof((const int[]){__VA_ARGS__}) / sizeof(int)

enum { SETS = FOUNDED_SET_WORDS * FOUNDED_MAX_VARIABLES };

/*
 * a file that is read, whose search is begun with words for every variable that there can be, that is flattened, and whose bounds are asked with no
 * ranges and nothing lent
 */
static void row(const char *name, const uint8_t *bytes, size_t n)
{
    try(name, READ, bytes, n, NULL, 0, 0);
    try(name, BEGIN, bytes, n, NULL, 0, WORD * SETS);
    try(name, FLATTEN, bytes, n, NULL, 0, FOUNDED_MAX_FILE);
    try(name, BOUNDS, bytes, n, NULL, 0, 0);
}

static void row_built(const char *name) { row(name, built.bytes, built.len); }

#define BYTES(...) (const uint8_t[]){__VA_ARGS__}, sizeof((const uint8_t[]){__VA_ARGS__})

static void printing_example(void)
{
    fresh();
    variable(STANDARD, 0, 1);
    variables(2, FOUNDED, 0, 1);
    rule(IF, 1, 1);
    term(0, OVER, 1);
    rule(IF, 1, 1);
    term(2, OVER, 1);
    rule(IF, 2, 1);
    term(1, OVER, 1);
}

/* a in 0..10, b in low..10, a >= |b|, b >= 2a + c */
static void size_circle(int low, int c)
{
    fresh();
    variable(FOUNDED, 0, 10);
    variable(FOUNDED, low, 10);
    rule(SIZE, 0, 0);
    term(1, PLAIN, 0);
    rule(SUM, 1, c);
    term(0, PLAIN, 2);
}

/* ---- the refusal table's rows 1 to 13 */

static void rows(void)
{
    static const uint8_t zeros[FOUNDED_MAX_FILE + 1];
    row("row 1", zeros, sizeof zeros);
    row("row 2", BYTES(1, 0, 5, 1));
    row("row 3", BYTES(9, 0, 0));
    row("row 4", BYTES(3, 0, 3, 1, 0, 0, 1, 0, 5, 0, 0, 0, 0, 1));
    fresh();
    variables(FOUNDED_MAX_VARIABLES + 1, FOUNDED, 0, 10);
    row_built("row 5");
    row("row 6", BYTES(1, 0, 4, 0, 0, 0, 0));
    row("row 7", BYTES(1, 0, 5, 3, 0, 0, 0, 1));
    row("row 8", BYTES(1, 0, 5, 0, 0, 1, 0, 0));
    row("row 9", BYTES(2, 0, 4, 1, 0, 0, 0));
    row("row 10", BYTES(3, 0, 3, 2, 0, 0));
    fresh();
    variables(2, FOUNDED, 0, 10);
    rule(SUM, 0, 0);
    term(1, PLAIN, 2);
    term(1, PLAIN, -1);
    row_built("row 11");
    fresh();
    variables(3, FOUNDED, -1, 10);
    rule(PRODUCT, 0, 0);
    term(1, PLAIN, 0);
    term(2, PLAIN, 0);
    row_built("row 12");
    try_begin("row 12, nothing lent", 0);
    size_circle(-10, -6);
    row_built("row 13");
    try_begin("row 13, nothing lent", 0);
}

/* ---- the limits of founded.h */

static void some_rules(size_t n, const char *name)
{
    fresh();
    variable(FOUNDED, 0, 10);
    for (size_t i = 0; i < n; i++)
        rule(SUM, 0, 0);
    try_read(name);
}

static void some_constraints(size_t n, const char *name)
{
    fresh();
    for (size_t i = 0; i < n; i++)
        constraint(1, 0);
    try_read(name);
}

static void some_terms(unsigned n, const char *name)
{
    fresh();
    variables(20, FOUNDED, 0, 10);
    rule(SUM, 0, 0);
    for (unsigned i = 0; i < n; i++)
        term(i, PLAIN, FOUNDED_MAX_COEFFICIENT);
    try_read(name);
}

/* a sum over a divisor, with so many terms */
static void divided(int divisor, unsigned n, const char *name)
{
    fresh();
    variables(20, FOUNDED, 0, 10);
    rule(DIVIDED, 0, 0);
    term(0, DIVISOR, divisor);
    for (unsigned i = 0; i < n; i++)
        term(i, PLAIN, 1);
    try_read(name);
}

static void a_number(int number, int coefficient, const char *name)
{
    fresh();
    variable(FOUNDED, -number, number);
    rule(SUM, 0, 0);
    term(0, PLAIN, coefficient);
    try_read(name);
}

/*
 * All variables and rules, and 60,000 bytes. The first half is founded, the second standard; rule i is for variable i / 16 and reads 5 or 6 of
 * the second half, each added or subtracted, but rule 0 reads the size of one. No rule gives as much as 0.
 */
static void longest(void)
{
    const unsigned half = FOUNDED_MAX_VARIABLES / 2;
    fresh();
    variables(half, FOUNDED, -10, 10);
    variables(half, STANDARD, -10, 10);
    rule(SIZE, 0, -100);
    term(FOUNDED_MAX_VARIABLES - 1, PLAIN, 0);
    for (unsigned i = 1; i < FOUNDED_MAX_RULES; i++) {
        rule(SUM, i / 16, -100);
        for (unsigned t = 0; t < (i <= 668 ? 6u : 5u); t++)
            term(half + (i * 5 + t) % half, PLAIN, i % 2 ? 1 : -1);
    }
}

static void limits(void)
{
    some_rules(FOUNDED_MAX_RULES, "most rules");
    some_rules(FOUNDED_MAX_RULES + 1, "a rule too many");
    some_constraints(FOUNDED_MAX_CONSTRAINTS, "most constraints");
    some_constraints(FOUNDED_MAX_CONSTRAINTS + 1, "a constraint too many");
    some_terms(FOUNDED_MAX_TERMS, "most terms");
    some_terms(FOUNDED_MAX_TERMS + 1, "a term too many");
    divided(FOUNDED_MAX_DIVISOR, FOUNDED_MAX_TERMS, "largest divisor, most terms");
    divided(FOUNDED_MAX_DIVISOR + 1, 0, "a divisor too large");
    divided(1, 0, "smallest divisor");
    divided(0, 0, "a divisor too small");
    divided(1, FOUNDED_MAX_TERMS + 1, "a term too many over a divisor");
    a_number(FOUNDED_MAX_NUMBER, 1, "largest number");
    a_number(FOUNDED_MAX_NUMBER + 1, 1, "a number too large");
    a_number(FOUNDED_MAX_NUMBER, -FOUNDED_MAX_COEFFICIENT, "largest coefficient");
    a_number(FOUNDED_MAX_NUMBER, -FOUNDED_MAX_COEFFICIENT - 1, "a coefficient too large");
    longest();
    if (built.len != FOUNDED_MAX_FILE)
        fail("longest file", "another length");
    try_read("longest file");
}

/* ---- the calls least and check */

/* single ranges, whose values meet every rule: the founded bounds are the least model's values */
static void single(const char *name, const int *values, size_t n)
{
    static uint8_t assignment[2 * FOUNDED_MAX_VARIABLES], ranges[4 * FOUNDED_MAX_VARIABLES];
    uint8_t model[2 * FOUNDED_MAX_VARIABLES], bounds[2 * FOUNDED_MAX_VARIABLES];
    for (size_t v = 0; v < n; v++) {
        founded_assign(assignment, v, values[v]);
        founded_range(ranges, v, values[v], values[v]);
    }
    if (founded_word(founded_least(built.bytes, built.len, assignment, 2 * n, model, 2 * n)) != FOUNDED_FOUND ||
        founded_word(founded_bounds(built.bytes, built.len, ranges, 4 * n, bounds, 2 * n)) != FOUNDED_BOUNDED)
        fail(name, "no bounds");
    for (size_t v = 0; v < n; v++)
        if (built.bytes[8 * v + 3] != 0 && founded_value(bounds, v) != founded_value(model, v))
            fail(name, "bounds that are not the least model's values");
}

static void both(const char *name, const int *values, size_t n, size_t least, size_t check)
{
    try_on(name, LEAST, values, n, least);
    unsigned word = founded_word(try_on(name, CHECK, values, n, check));
    if (word == FOUNDED_STABLE || word == FOUNDED_UNFOUNDED || word == FOUNDED_CONSTRAINT)
        single(name, values, n);
}

static void plans(void)
{
    static int tens[FOUNDED_MAX_VARIABLES + 1];
    for (size_t v = 0; v <= FOUNDED_MAX_VARIABLES; v++)
        tens[v] = 10;
    fresh();
    try_read("empty");
    both("empty", NULL, 0, 0, 0);
    both("empty, more lent", NULL, 0, 5, 5);
    printing_example();
    try_read("printing example");
    both("printing example 1 1 1", VALUES(1, 1, 1), 6, 36);
    both("printing example 0 1 1", VALUES(0, 1, 1), 6, 36);
    both("printing example 0 1 1, more lent", VALUES(0, 1, 1), 9, 40);
    both("printing example 0 2 -1", VALUES(0, 2, -1), 6, 36);
    both("printing example, row 14", VALUES(0, 1), 6, 36);
    both("printing example, row 15", VALUES(0, 1, 1), 5, 35);
    fresh();
    variable(FOUNDED, 0, 1);
    both("one variable, row 15", VALUES(0), 1, 11);
    fresh();
    variables(3, FOUNDED, -10, 10);
    rule(SUM, 0, 7);
    term(1, PLAIN, 1);
    term(2, PLAIN, -1);
    rule(SUM, 2, 5);
    both("a >= b - c + 7, c >= 5: -8 -10 5", VALUES(-8, -10, 5), 6, 36);
    both("a >= b - c + 7, c >= 5: -7 -10 5", VALUES(-7, -10, 5), 6, 36);
    constraint(1, 11);
    term(0, PLAIN, 1);
    constraint(2, 0);
    term(1, OVER, 0);
    both("the same with a <= -11", VALUES(-8, -10, 5), 6, 36);
    fresh();
    variables(2, FOUNDED, 0, 5);
    rule(SUM, 0, 1);
    term(1, PLAIN, 1);
    rule(SUM, 1, 0);
    term(0, PLAIN, 1);
    both("a >= b + 1, b >= a: 5 5", VALUES(5, 5), 4, 24);
    fresh();
    variables(2, FOUNDED, 0, 1000);
    variable(STANDARD, 0, 1000);
    rule(SUM, 0, 0);
    term(1, PLAIN, 1);
    rule(MIN, 1, 1);
    term(0, PLAIN, 0);
    term(2, PLAIN, 0);
    both("a >= b, b >= min(a, s) + 1: 501 501 500", VALUES(501, 501, 500), 6, 36);
    both("a >= b, b >= min(a, s) + 1: 600 600 500", VALUES(600, 600, 500), 6, 36);
    fresh();
    variable(FOUNDED, -10, 10);
    variables(3, STANDARD, -10, 10);
    rule(DIVIDED, 0, 0);
    term(0, DIVISOR, 3);
    for (unsigned v = 1; v <= 3; v++)
        term(v, PLAIN, 1);
    both("a >= (x + y + z) / 3: 3 4 1 2", VALUES(3, 4, 1, 2), 8, 48);
    both("a >= (x + y + z) / 3: 4 4 1 2", VALUES(4, 4, 1, 2), 8, 48);
    both("a >= (x + y + z) / 3: -2 -4 -1 -2", VALUES(-2, -4, -1, -2), 8, 48);
    both("a >= (x + y + z) / 3: -3 -4 -1 -2", VALUES(-3, -4, -1, -2), 8, 48);
    both("a >= (x + y + z) / 3: -1 -4 -1 -2", VALUES(-1, -4, -1, -2), 8, 48);
    size_circle(-10, -6);
    both("row 13", VALUES(0, 0), 4, 24);
    size_circle(0, -6);
    both("row 13 with b from 0", VALUES(0, 0), 4, 24);
    longest();
    both("longest file, all 10", tens, FOUNDED_MAX_VARIABLES, 512, 3072);
    both("longest file, a value too many", tens, FOUNDED_MAX_VARIABLES + 1, 512, 3072);
    both("longest file, row 15", tens, FOUNDED_MAX_VARIABLES, 511, 3071);
    put(0);
    both("a byte more than the longest file", tens, FOUNDED_MAX_VARIABLES, 512, 3072);
}

/* ---- idle rules: they draw no edge and do not offend */

/* a and d in 0..10, b in -10..10, s standard in 0..4, a >= |b|, b >= d, d >= 5 if a >= 1 and s >= n */
static void needing(int n)
{
    fresh();
    variable(FOUNDED, 0, 10);
    variable(FOUNDED, -10, 10);
    variable(FOUNDED, 0, 10);
    variable(STANDARD, 0, 4);
    rule(SIZE, 0, 0);
    term(1, PLAIN, 0);
    rule(SUM, 1, 0);
    term(2, PLAIN, 1);
    rule(IF, 2, 5);
    term(0, OVER, 1);
    term(3, OVER, n);
}

/* a of this kind in -5..5, a by the rule |a| + c */
static void own_size(unsigned kind, int c)
{
    fresh();
    variable(kind, -5, 5);
    rule(SIZE, 0, c);
    term(0, PLAIN, 0);
}

/*
 * All variables in -10..10, those with odd numbers of the kind odd, each by the size of the one before it less 1, and the first at least the size
 * of the last and c.
 */
static void sizes(unsigned odd, int c)
{
    const unsigned last = FOUNDED_MAX_VARIABLES - 1;
    fresh();
    for (unsigned v = 0; v <= last; v++)
        variable(v % 2 ? odd : (unsigned)FOUNDED, -10, 10);
    for (unsigned v = 0; v < last; v++) {
        rule(SIZE, v + 1, -1);
        term(v, PLAIN, 0);
    }
    rule(SIZE, 0, c);
    term(last, PLAIN, 0);
}

static void idle_rules(void)
{
    static int tens[FOUNDED_MAX_VARIABLES];
    for (size_t v = 0; v < FOUNDED_MAX_VARIABLES; v++)
        tens[v] = 10;
    size_circle(-10, -29);
    try_read("a >= |b|, b >= 2a - 29");
    size_circle(-10, -30);
    try_read("a >= |b|, b >= 2a - 30");
    both("a >= |b|, b >= 2a - 30: 10 -10", VALUES(10, -10), 4, 24);
    both("a >= |b|, b >= 2a - 30: 3 -3", VALUES(3, -3), 4, 24);
    needing(4);
    try_read("d >= 5 if a >= 1, s >= 4");
    needing(9);
    try_read("d >= 5 if a >= 1, s >= 9");
    both("d >= 5 if a >= 1, s >= 9: 3 3 3 4", VALUES(3, 3, 3, 4), 8, 48);
    both("d >= 5 if a >= 1, s >= 9: 3 3 3 9", VALUES(3, 3, 3, 9), 8, 48);
    own_size(FOUNDED, -9);
    try_read("a >= |a| - 9");
    own_size(FOUNDED, -10);
    try_read("a >= |a| - 10");
    both("a >= |a| - 10: 0, row 15", VALUES(0), 1, 11);
    both("a >= |a| - 10: 0", VALUES(0), 2, 12);
    both("a >= |a| - 10: 0, more lent", VALUES(0), 3, 13);
    rule(SUM, 0, 2);
    both("the same with a >= 2: 0", VALUES(0), 2, 12);
    sizes(FOUNDED, -19);
    try_read("256 sizes, the last rule not idle");
    sizes(FOUNDED, -20);
    both("256 sizes, row 15", tens, FOUNDED_MAX_VARIABLES, 511, 3071);
    both("256 sizes", tens, FOUNDED_MAX_VARIABLES, 512, 3072);
    both("256 sizes, more lent", tens, FOUNDED_MAX_VARIABLES, 513, 3073);
}

/* ---- kind 2, founded from above */

/* arrival times in 0..100: t0 <= 5, t1 <= t0 + 10, t2 <= t1 + 10, t1 <= t2 + 10, t0 <= t1 + 10 */
static void arrival(void)
{
    static const unsigned legs[][2] = {{0, 1}, {1, 2}, {2, 1}, {1, 0}};
    fresh();
    variables(3, FROM_ABOVE, 0, 100);
    rule(SUM, 0, 5);
    for (size_t i = 0; i < 4; i++) {
        rule(SUM, legs[i][1], 10);
        term(legs[i][0], PLAIN, 1);
    }
}

static void from_above(void)
{
    static int turns[FOUNDED_MAX_VARIABLES];
    for (size_t v = 0; v < FOUNDED_MAX_VARIABLES; v++)
        turns[v] = v % 2 ? -5 : 5;
    arrival();
    try_read("arrival");
    both("arrival 5 15 25", VALUES(5, 15, 25), 6, 36);
    both("arrival 5 14 24", VALUES(5, 14, 24), 6, 36);
    both("arrival 5 14 24, more lent", VALUES(5, 14, 24), 9, 40);
    both("arrival 5 14 24, row 15", VALUES(5, 14, 24), 5, 35);
    both("arrival 5 16 25", VALUES(5, 16, 25), 6, 36);
    both("arrival 5 15 101", VALUES(5, 15, 101), 6, 36);
    fresh();
    variable(STANDARD, 0, 1);
    rule(SUM, 0, 0);
    try_read("standard head");
    fresh();
    variable(FOUNDED, 0, 10);
    variable(FROM_ABOVE, 0, 10);
    rule(SUM, 0, 10);
    term(1, PLAIN, -1);
    rule(SUM, 1, 10);
    term(0, PLAIN, -1);
    rule(SUM, 0, 3);
    both("a >= 10 - b, b <= 10 - a, a >= 3: 3 7", VALUES(3, 7), 4, 24);
    both("a >= 10 - b, b <= 10 - a, a >= 3: 4 6", VALUES(4, 6), 4, 24);
    fresh();
    variables(2, FROM_ABOVE, 0, 5);
    rule(SUM, 0, -1);
    term(1, PLAIN, 1);
    rule(SUM, 1, 0);
    term(0, PLAIN, 1);
    both("a <= b - 1, b <= a: 0 0", VALUES(0, 0), 4, 24);
    own_size(FROM_ABOVE, 4);
    try_read("a <= |a| + 4");
    own_size(FROM_ABOVE, 5);
    try_read("a <= |a| + 5");
    both("a <= |a| + 5: 0, row 15", VALUES(0), 1, 11);
    both("a <= |a| + 5: 0", VALUES(0), 2, 12);
    both("a <= |a| + 5: 0, more lent", VALUES(0), 3, 13);
    sizes(FROM_ABOVE, -19);
    try_read("256 sizes of both kinds, the last rule not idle");
    sizes(FROM_ABOVE, -20);
    both("256 sizes of both kinds, row 15", turns, FOUNDED_MAX_VARIABLES, 511, 3071);
    both("256 sizes of both kinds", turns, FOUNDED_MAX_VARIABLES, 512, 3072);
    both("256 sizes of both kinds, more lent", turns, FOUNDED_MAX_VARIABLES, 513, 3073);
}

/* ---- files written in their normal form */

/* variables 0 to 2 in 0..9, 2 >= 1 + 0, 1 >= 5 if 0 >= 3, 2 >= 0 + 1: the last rule repeats the first */
static void one_plan(void)
{
    fresh();
    variable(STANDARD, 0, 9);
    variables(2, FOUNDED, 0, 9);
    rule(SUM, 2, 0);
    term(1, PLAIN, 1);
    term(0, PLAIN, 1);
    rule(IF, 1, 5);
    term(0, OVER, 3);
    rule(SUM, 2, 0);
    term(0, PLAIN, 1);
    term(1, PLAIN, 1);
}

/* all rules, each with another c, from the largest down, and all constraints likewise: 2 >= c, c <= 0 */
static void falling(void)
{
    fresh();
    variables(3, FOUNDED, 0, 9);
    for (int i = (int)FOUNDED_MAX_RULES; i-- > 0;)
        rule(SUM, 2, i);
    for (int i = (int)FOUNDED_MAX_CONSTRAINTS; i-- > 0;)
        constraint(1, i);
}

static void normal_forms(void)
{
    fresh();
    try_normalize("empty", 0);
    try_normalize("empty, more lent", 5);
    printing_example();
    try_normalize("printing example", 57);
    one_plan();
    try_normalize("one plan", 65);
    try_normalize("one plan, more lent", 70);
    try_normalize("one plan, row 17", 64);
    try_normalize("one plan, as much lent as is written", 50);
    try_normalize("one plan, nothing lent", 0);
    fresh();
    variables(4, FOUNDED, 0, 9);
    rule(CARRY, 0, -1);
    term(3, PLAIN, 0);
    term(2, OVER, 1);
    term(1, UNDER, 5);
    rule(DIVIDED, 0, 1);
    term(0, DIVISOR, 2);
    term(2, PLAIN, 1);
    term(0, PLAIN, -1);
    constraint(2, 0);
    term(3, UNDER, 2);
    term(1, OVER, 2);
    constraint(1, -5);
    term(3, PLAIN, 1);
    try_normalize("carry, a sum over 2 and constraints", built.len);
    size_circle(-10, -6);
    try_normalize("row 13, nothing lent", 0);
    falling();
    try_normalize("falling numbers", built.len);
    try_normalize("falling numbers, row 17", built.len - 1);
    longest();
    try_normalize("longest file", FOUNDED_MAX_FILE);
    try_normalize("longest file, row 17", FOUNDED_MAX_FILE - 1);
    put(0);
    try_normalize("a byte more than the longest file", FOUNDED_MAX_FILE);
}

/* ---- the component search, step by step */

/* variable k's round over sets of so many words, which then hold what it leaves */
static void try_step(const char *name, uint64_t *sets, size_t words, size_t variables, size_t k)
{
    struct call c = {STEP, NULL, NULL, sets, 0, 0, WORD * words, variables, k, 0, 0};
    static uint64_t joined[ROOM / WORD];
    bool done = twice(name, c) != 0;
    memcpy(joined, sets, WORD * words);
    for (size_t i = 0; done && i < FOUNDED_SET_WORDS * variables; i++)
        if (founded_has(sets, i / FOUNDED_SET_WORDS, k))
            joined[i] |= sets[FOUNDED_SET_WORDS * k + i % FOUNDED_SET_WORDS];
    if (memcmp(left, joined, WORD * words) != 0)
        fail(name, "other sets");
    printf(done ? "true" : "false");
    if (done)
        say_sets(left, words / FOUNDED_SET_WORDS);
    printf("\n");
    memcpy(sets, left, WORD * words);
}

static size_t first_sharing(const uint64_t *sets, size_t x)
{
    size_t y = 0;
    while (y != x && !(founded_has(sets, x, y) && founded_has(sets, y, x)))
        y++;
    return y;
}

/* the components that sets of so many words say, into so many bytes */
static void try_components(const char *name, const uint64_t *sets, size_t words, size_t variables, size_t lent)
{
    struct call c = {COMPONENTS, NULL, sets, marks, 0, WORD * words, lent, variables, 0, 0, 0};
    const uint8_t *bytes = (const uint8_t *)left;
    bool done = twice(name, c) != 0;
    printf(done ? "true" : "false");
    for (size_t x = 0; done && x < variables; x++) {
        if (bytes[x] != first_sharing(sets, x))
            fail(name, "another component");
        if (said(x, variables))
            printf(" %u", bytes[x]);
    }
    unwritten_from(name, done ? variables : 0, lent);
    printf("\n");
}

/* the whole search of the built file, which has so many variables. Of many rounds only those that are said run between the pages */
static void search(const char *name, size_t variables)
{
    static uint64_t sets[SETS];
    const size_t words = FOUNDED_SET_WORDS * variables;
    char round[80];
    if (founded_first(try_begin(name, words)) != variables)
        fail(name, "another count of variables");
    memcpy(sets, left, WORD * words);
    for (size_t k = 0; k < variables; k++) {
        snprintf(round, sizeof round, "%s, round %zu", name, k);
        if (said(k, variables))
            try_step(round, sets, words, variables, k);
        else if (!founded_step(sets, words, variables, k))
            fail(round, "no round");
    }
    try_components(name, sets, words, variables, variables);
}

/* founded a and b, standard x and y in -9..9, a >= |x|, b >= (a + b + x - y) / 2, a >= 5 if b < 3 and x >= 1 */
static void edges_to_some(void)
{
    fresh();
    variables(2, FOUNDED, -9, 9);
    variables(2, STANDARD, -9, 9);
    rule(SIZE, 0, 0);
    term(2, PLAIN, 0);
    rule(DIVIDED, 1, 0);
    term(0, DIVISOR, 2);
    for (unsigned v = 0; v < 4; v++)
        term(v, PLAIN, v == 3 ? -1 : 1);
    rule(IF, 0, 5);
    term(1, UNDER, 3);
    term(2, OVER, 1);
}

/* founded variables 0 to 4 in 0..9, a rule of each form, and a constraint, which draws no edge */
static void every_form(void)
{
    fresh();
    variables(5, FOUNDED, 0, 9);
    rule(SUM, 0, 0);
    term(1, PLAIN, 1);
    term(2, PLAIN, -1);
    rule(CARRY, 0, 0);
    term(3, PLAIN, 0);
    term(4, OVER, 1);
    rule(MAX, 1, 0);
    term(0, PLAIN, 0);
    term(2, PLAIN, 0);
    rule(IF, 1, 5);
    term(3, OVER, 1);
    term(4, UNDER, 3);
    rule(MIN, 2, 0);
    term(0, PLAIN, 0);
    term(1, PLAIN, 0);
    rule(SIZE, 2, 0);
    term(4, PLAIN, 0);
    rule(PRODUCT, 3, 0);
    term(1, PLAIN, 0);
    term(2, PLAIN, 0);
    rule(DIVIDED, 4, 0);
    term(0, DIVISOR, 2);
    term(3, PLAIN, 1);
    constraint(1, -5);
    term(4, PLAIN, 1);
}

static void begun(void)
{
    fresh();
    try_begin("empty", 0);
    try_begin("empty, more lent", 5);
    printing_example();
    try_begin("printing example, more lent", 13);
    try_begin("printing example, row 15", 11);
    try_begin("printing example, nothing lent", 0);
    every_form();
    try_begin("every form", 20);
    longest();
    try_begin("longest file", SETS);
    try_begin("longest file, more lent", SETS + 1);
    try_begin("longest file, row 15", SETS - 1);
    put(0);
    try_begin("a byte more than the longest file", SETS);
}

static void searches(void)
{
    printing_example();
    search("printing example", 3);
    edges_to_some();
    search("edges to some", 4);
    size_circle(-10, -6);
    search("row 13", 2);
    size_circle(-10, -30);
    search("a >= |b|, b >= 2a - 30", 2);
    needing(4);
    search("d >= 5 if a >= 1, s >= 4", 4);
    needing(9);
    search("d >= 5 if a >= 1, s >= 9", 4);
    arrival();
    search("arrival", 3);
    sizes(FOUNDED, -19);
    search("256 sizes, the last rule not idle", FOUNDED_MAX_VARIABLES);
    sizes(FOUNDED, -20);
    search("256 sizes", FOUNDED_MAX_VARIABLES);
}

static void put_in(uint64_t *sets, size_t x, size_t y) { sets[FOUNDED_SET_WORDS * x + y / 64] |= (uint64_t)1 << y % 64; }

/* sets that no search leaves, and after those of 256 variables one more that has 2 */
static uint64_t *no_search(void)
{
    static uint64_t sets[SETS + FOUNDED_SET_WORDS];
    static const unsigned members[][2] = {{0, 1}, {0, 2}, {0, 255}, {1, 0}, {2, 0}, {2, 3}, {3, 2}, {3, 200}, {256, 2}};
    memset(sets, 0, sizeof sets);
    for (size_t i = 0; i < sizeof members / sizeof members[0]; i++)
        put_in(sets, members[i][0], members[i][1]);
    return sets;
}

static void steps(void)
{
    try_step("four sets, 0 of 2", no_search(), 16, 2, 0);
    try_step("four sets, 0 of 4", no_search(), 16, 4, 0);
    try_step("four sets, 3 of 4", no_search(), 16, 4, 3);
    try_step("four sets and three words, 2 of 4", no_search(), 19, 4, 2);
    try_step("257 sets, 2 of 256", no_search(), SETS + 4, 256, 2);
    try_step("256 sets, 255 of 256", no_search(), SETS, 256, 255);
    try_step("k is no variable", no_search(), 16, 3, 3);
    try_step("256 sets, k is no variable", no_search(), SETS, 256, 256);
    try_step("a word too few", no_search(), 15, 4, 0);
    try_step("256 variables, a word too few", no_search(), SETS - 1, 256, 0);
    try_step("no words", no_search(), 0, 1, 0);
    try_step("no variables", no_search(), 16, 0, 0);
    try_step("no variables, no words", no_search(), 0, 0, 0);
    try_step("257 variables", no_search(), SETS + 4, 257, 0);
}

static void components(void)
{
    static uint64_t full[SETS];
    memset(full, 0xff, sizeof full);
    try_components("four sets", no_search(), 16, 4, 4);
    try_components("four sets, more lent", no_search(), 16, 4, 7);
    try_components("four sets and three words, 2 variables", no_search(), 19, 2, 4);
    try_components("no variables", no_search(), 16, 0, 4);
    try_components("no variables, no words, no bytes", no_search(), 0, 0, 0);
    try_components("256 full sets", full, SETS, 256, 256);
    try_components("257 sets, 256 variables", no_search(), SETS + 4, 256, 257);
    try_components("a word too few", no_search(), 15, 4, 4);
    try_components("a byte too few", no_search(), 16, 4, 3);
    try_components("no words", no_search(), 0, 1, 1);
    try_components("no bytes", no_search(), 16, 1, 0);
    try_components("256 variables, a word too few", full, SETS - 1, 256, 256);
    try_components("256 variables, a byte too few", full, SETS, 256, 255);
    try_components("257 variables", no_search(), SETS + 4, 257, 257);
}

/* numbers that are no count of variables; four times the second to the fifth is small again in 64 bits */
static void huge_numbers(void)
{
    const size_t high = (size_t)1 << 62, numbers[] = {SIZE_MAX, high, high + 1, 2 * high + 1, 3 * high + 2, 1000};
    char name[80];
    for (size_t i = 0; i < sizeof numbers / sizeof numbers[0]; i++) {
        snprintf(name, sizeof name, "%zu variables", numbers[i]);
        try_step(name, no_search(), 16, numbers[i], 0);
        try_components(name, no_search(), 16, numbers[i], 4);
        snprintf(name, sizeof name, "the last of %zu variables", numbers[i]);
        try_step(name, no_search(), 16, numbers[i], numbers[i] - 1);
        snprintf(name, sizeof name, "k is %zu", numbers[i]);
        try_step(name, no_search(), 16, 4, numbers[i]);
    }
}

/* ---- nested files converted to plain ones */

/* a in 0..100, standard r in 0..60, d and e in 0..30, a >= r + max(d, e) */
static void reach(void)
{
    fresh();
    variable(FOUNDED, 0, 100);
    variable(STANDARD, 0, 60);
    variables(2, STANDARD, 0, 30);
    tree(0, BYTES(SUM, 2, LEAF, 1, MAX, 2, LEAF, 2, LEAF, 3));
}

/*
 * a in 0..50, b from above in 0..50, standard s in -5..12, d in 1..9, standard e in 2..3, d >= 4, s <= 7, and three trees:
 * a >= max(s, min(d, b)) + e + sum(a), b <= min(d + s, b), d >= s
 */
static void three_trees(void)
{
    fresh();
    variable(FOUNDED, 0, 50);
    variable(FROM_ABOVE, 0, 50);
    variable(STANDARD, -5, 12);
    variable(FOUNDED, 1, 9);
    variable(STANDARD, 2, 3);
    rule(SUM, 3, 4);
    constraint(1, -7);
    term(2, PLAIN, 1);
    tree(0, BYTES(SUM, 3, MAX, 2, LEAF, 2, MIN, 2, LEAF, 3, LEAF, 1, LEAF, 4, SUM, 1, LEAF, 0));
    tree(1, BYTES(MIN, 2, SUM, 2, LEAF, 3, LEAF, 2, LEAF, 1));
    tree(3, BYTES(LEAF, 2));
}

/* a tree of so many levels, for a variable that is also its leaf */
static void deep(unsigned v, size_t levels)
{
    tree(v, NULL, 0);
    for (size_t i = 1; i < levels; i++)
        node(SUM, 1);
    node(LEAF, v);
}

/* trees of all levels, which add 126 variables, beside a size of a mixed variable */
static void deep_trees(void)
{
    fresh();
    variables(130, FOUNDED, -10, 10);
    rule(SIZE, 0, 0);
    term(129, PLAIN, 0);
    for (unsigned v = 0; v < 21; v++)
        deep(v, FOUNDED_MAX_LEVELS);
}

/* the built file has no tree, and comes out as it is */
static void try_unchanged(const char *name, size_t lent)
{
    try_flatten(name, lent);
    if (memcmp(left, built.bytes, built.len) != 0)
        fail(name, "a file without trees is changed");
}

static void flattened(void)
{
    fresh();
    try_unchanged("empty", 0);
    try_unchanged("empty, more lent", 5);
    printing_example();
    try_unchanged("printing example", 57);
    one_plan();
    try_unchanged("one plan, more lent", 70);
    longest();
    try_unchanged("longest file", FOUNDED_MAX_FILE);
    reach();
    try_flatten("reach", 70);
    try_flatten("reach, more lent", 75);
    three_trees();
    try_flatten("three trees", 190);
    deep_trees();
    try_flatten("21 trees of 8 levels", FOUNDED_MAX_FILE);
}

static void plain_readers(void)
{
    reach();
    try_read("reach");
    both("reach 42 30 5 12", VALUES(42, 30, 5, 12), 8, 48);
    try_normalize("reach", 46);
    try_begin("reach", 16);
    try_bounds("reach", VALUES(0, 100, 0, 60, 0, 30, 0, 30), 8);
}

/* ---- refusals of nested files */

/* reach with these bytes after it */
static void after(const char *name, const uint8_t *bytes, size_t n)
{
    reach();
    for (size_t i = 0; i < n; i++)
        put(bytes[i]);
    try_flatten(name, 200);
}

static void after_a_tree(void)
{
    after("row 2 after a tree, a byte", BYTES(5));
    after("row 2 after a tree, a length short", BYTES(5, 0));
    after("row 2 after a tree, a byte short", BYTES(5, 0, 3, 0, 0));
    after("row 2 before row 3", BYTES(4, 0, 1));
    after("row 3 after a tree, tag 0", BYTES(0, 0, 0));
    after("row 3 after a tree, tag 4", BYTES(4, 0, 0));
    after("row 3 after a tree, tag 6", BYTES(6, 0, 0));
    after("row 4 after a tree, a variable", BYTES(1, 0, 5, 0, 0, 0, 0, 1));
    after("row 4 after a tree, a rule", BYTES(2, 0, 4, 1, 0, 0, 0));
    after("row 4 after a tree, a constraint", BYTES(3, 0, 3, 1, 0, 0));
    after("row 4 before row 6", BYTES(3, 0, 0));
    after("row 18 after a tree", BYTES(5, 0, 0));
    reach();
    built.len--;
    try_flatten("row 2, a tree", 200);
    fresh();
    begin(4, 0);
    try_flatten("row 3, tag 4", 200);
}

/* a in 0..9 and this tree for a variable */
static void a_tree(const char *name, unsigned head, const uint8_t *nodes, size_t n)
{
    fresh();
    variable(FOUNDED, 0, 9);
    tree(head, nodes, n);
    try_flatten(name, 200);
}

static void some_levels(size_t n, const char *name)
{
    fresh();
    variable(FOUNDED, 0, 9);
    deep(0, n);
    try_flatten(name, 200);
}

static void some_children(unsigned n, const char *name)
{
    fresh();
    variables(20, FOUNDED, 0, 9);
    tree(0, BYTES(MAX, (uint8_t)n));
    for (unsigned i = 0; i < n; i++)
        node(LEAF, i);
    try_flatten(name, 300);
}

/* 16 children on each of three levels: 4,096 leaves, and 272 inner nodes besides the root */
static void thousands(void)
{
    fresh();
    variable(FOUNDED, 0, 9);
    tree(0, BYTES(SUM, 16));
    for (int i = 0; i < 4096; i++) {
        if (i % 256 == 0)
            node(SUM, 16);
        if (i % 16 == 0)
            node(SUM, 16);
        node(LEAF, 0);
    }
}

static void malformed(void)
{
    a_tree("a leaf", 0, BYTES(LEAF, 0));
    fresh();
    begin(FOUNDED_TREE_TAG, 0);
    try_flatten("row 18, no head", 200);
    a_tree("row 18, no tree", 0, NULL, 0);
    a_tree("row 18, no tree for no variable", 1, NULL, 0);
    a_tree("row 18, a leaf without its variable", 0, BYTES(LEAF));
    a_tree("row 18, a sum without its count", 0, BYTES(SUM));
    a_tree("row 18, a sum without its child", 0, BYTES(SUM, 1));
    a_tree("row 18, the second child missing", 0, BYTES(SUM, 2, LEAF, 0));
    a_tree("row 18, half a child missing", 0, BYTES(SUM, 2, LEAF, 0, LEAF));
    a_tree("row 18, a byte over", 0, BYTES(LEAF, 0, 0));
    a_tree("row 18, a leaf over", 0, BYTES(SUM, 1, LEAF, 0, LEAF, 0));
    a_tree("row 18, a tree over", 0, BYTES(LEAF, 0, SUM, 1, LEAF, 0));
    a_tree("row 18, node byte 4", 0, BYTES(4, 1, LEAF, 0));
    a_tree("row 18, node byte 255 of a child", 0, BYTES(SUM, 1, 255, 0));
    a_tree("row 18, no children", 0, BYTES(SUM, 0));
    a_tree("row 18, a child without children", 0, BYTES(SUM, 1, MAX, 0));
    some_children(FOUNDED_MAX_CHILDREN, "most children");
    some_children(FOUNDED_MAX_CHILDREN + 1, "row 18, a child too many");
    some_levels(FOUNDED_MAX_LEVELS, "most levels");
    some_levels(FOUNDED_MAX_LEVELS + 1, "row 18, a level too many");
    some_levels(1000, "row 18, 1000 levels");
    a_tree("row 18, a level too many in a second child", 0,
           BYTES(SUM, 2, LEAF, 0, SUM, 1, SUM, 1, SUM, 1, SUM, 1, SUM, 1, SUM, 1, SUM, 1, LEAF, 0));
    thousands();
    try_flatten("row 5, thousands of nodes", FOUNDED_MAX_FILE);
    node(LEAF, 0);
    try_flatten("row 18 before row 5, thousands of nodes and one over", FOUNDED_MAX_FILE);
}

/* so many variables in 0..10 and rules, then trees for variable 0: so many leaves, and so many that add a variable and two rules */
static void many(size_t n, size_t rules, size_t leaves, size_t trees, const char *name)
{
    fresh();
    variables(n, FOUNDED, 0, 10);
    for (size_t i = 0; i < rules; i++)
        rule(SUM, 0, 0);
    for (size_t i = 0; i < leaves; i++)
        tree(0, BYTES(LEAF, 0));
    for (size_t i = 0; i < trees; i++)
        tree(0, BYTES(SUM, 1, MAX, 1, LEAF, 0));
    try_flatten(name, FOUNDED_MAX_FILE);
}

/* a in 0..10, all rules, and this tree */
static void full(unsigned head, const uint8_t *nodes, size_t n, const char *name)
{
    fresh();
    variable(FOUNDED, 0, 10);
    for (size_t i = 0; i < FOUNDED_MAX_RULES; i++)
        rule(SUM, 0, 0);
    tree(head, nodes, n);
    try_flatten(name, FOUNDED_MAX_FILE);
}

static void too_many(void)
{
    many(255, 0, 0, 1, "255 variables and one added");
    many(255, 0, 0, 2, "row 5, 255 variables and two added");
    many(256, 0, 1, 0, "256 variables and none added");
    many(256, 0, 0, 1, "row 5, 256 variables and one added");
    many(1, 2047, 1, 0, "2047 rules and one added");
    many(1, 2048, 1, 0, "row 5, 2048 rules and one added");
    many(1, 2046, 0, 1, "2046 rules and two added");
    many(1, 2047, 0, 1, "row 5, 2047 rules and two added");
    many(1, 0, 2048, 0, "2048 trees");
    many(1, 0, 2049, 0, "row 5, 2049 trees");
    fresh();
    variables(255, FOUNDED, 0, 10);
    tree(0, BYTES(SUM, 2, MAX, 1, LEAF, 0, MAX, 1, LEAF, 1));
    try_flatten("row 5, 255 variables and two added by one tree", FOUNDED_MAX_FILE);
    fresh();
    variables(256, FOUNDED, 0, 10);
    tree(0, BYTES(SUM, 2, MAX, 1, LEAF, 0, LEAF, 0));
    try_flatten("row 5 before row 11", FOUNDED_MAX_FILE);
    full(1, BYTES(LEAF, 0), "row 5 before row 9");
    full(0, NULL, 0, "row 18 before row 5");
}

/* a and standard s in 0..9, a tree that adds variable 2, and this one */
static void second_tree(const char *name, unsigned head, const uint8_t *nodes, size_t n)
{
    fresh();
    variable(FOUNDED, 0, 9);
    variable(STANDARD, 0, 9);
    tree(0, BYTES(SUM, 1, MAX, 1, LEAF, 0));
    tree(head, nodes, n);
    try_flatten(name, 200);
}

static void named(void)
{
    second_tree("the head is a leaf, of both trees", 0, BYTES(LEAF, 0));
    second_tree("a standard leaf", 0, BYTES(LEAF, 1));
    second_tree("row 9, a leaf has the number of an added variable", 0, BYTES(LEAF, 2));
    second_tree("row 9, a leaf is not declared", 0, BYTES(SUM, 2, LEAF, 0, LEAF, 255));
    second_tree("row 9, a head has the number of an added variable", 2, BYTES(LEAF, 0));
    second_tree("row 9, a standard head", 1, BYTES(LEAF, 0));
    second_tree("row 9 before row 11", 0, BYTES(SUM, 3, LEAF, 0, LEAF, 0, LEAF, 2));
    second_tree("row 11, in one node", 0, BYTES(SUM, 2, LEAF, 1, LEAF, 1));
    second_tree("row 11, in two nodes", 0, BYTES(SUM, 2, MAX, 2, LEAF, 0, LEAF, 1, MIN, 1, LEAF, 1));
    fresh();
    tree(0, BYTES(LEAF, 0));
    try_flatten("row 9, no variables", 200);
}

/*
 * a in 0..9, standard variables 1 to 3 in 0..20000, 0..10000, 0..1, 4 to 6 in -20000..0, -10000..0, -1..0, 7 to 9 in 0..30000, 0..30000,
 * 0..5536, and this tree for a
 */
static void ranged(const char *name, const uint8_t *nodes, size_t n)
{
    static const int lows[] = {0, 0, 0, -20000, -10000, -1, 0, 0, 0}, highs[] = {20000, 10000, 1, 0, 0, 0, 30000, 30000, 5536};
    fresh();
    variable(FOUNDED, 0, 9);
    for (int i = 0; i < 9; i++)
        variable(STANDARD, lows[i], highs[i]);
    tree(0, nodes, n);
    try_flatten(name, 200);
}

static void ranges(void)
{
    ranged("a range to 30000", BYTES(SUM, 1, SUM, 2, LEAF, 1, LEAF, 2));
    ranged("row 19, a range to 30001", BYTES(SUM, 1, SUM, 3, LEAF, 1, LEAF, 2, LEAF, 3));
    ranged("a range from -30000", BYTES(SUM, 1, SUM, 2, LEAF, 4, LEAF, 5));
    ranged("row 19, a range from -30001", BYTES(SUM, 1, SUM, 3, LEAF, 4, LEAF, 5, LEAF, 6));
    ranged("a root's values to 30001", BYTES(SUM, 3, LEAF, 1, LEAF, 2, LEAF, 3));
    ranged("row 19, a range to 30001 above one to 30000", BYTES(SUM, 1, SUM, 2, LEAF, 3, SUM, 2, LEAF, 1, LEAF, 2));
    ranged("row 19, a range to 65536", BYTES(SUM, 1, SUM, 3, LEAF, 7, LEAF, 8, LEAF, 9));
    ranged("row 19, under a smaller min", BYTES(SUM, 1, MIN, 2, LEAF, 6, SUM, 3, LEAF, 1, LEAF, 2, LEAF, 3));
    ranged("row 11 before row 19", BYTES(SUM, 1, SUM, 3, LEAF, 1, LEAF, 2, LEAF, 1));
}

/* a of this kind in low..high, b in -10..10, standard s in -30..most, a by the rule |b|, and this tree for b */
static void circle(const char *name, unsigned kind, int low, int high, int most, const uint8_t *nodes, size_t n)
{
    fresh();
    variable(kind, low, high);
    variable(FOUNDED, -10, 10);
    variable(STANDARD, -30, most);
    rule(SIZE, 0, 0);
    term(1, PLAIN, 0);
    tree(1, nodes, n);
    try_flatten(name, 200);
}

/*
 * 20 variables in low..10, 0 >= |19|, 1 >= 0, 842 rules of 16 terms, then a constraint, or a rule, which has a byte more, and the tree
 * 19 >= sum(max(0)). The plain file has 60,000 bytes, or one more.
 */
static void filled(int low, bool one_more)
{
    fresh();
    variables(20, FOUNDED, low, 10);
    rule(SIZE, 0, 0);
    term(19, PLAIN, 0);
    rule(SUM, 1, 0);
    term(0, PLAIN, 1);
    for (int i = 0; i < 842; i++) {
        rule(SUM, 2, -1000);
        for (unsigned v = 3; v < 19; v++)
            term(v, PLAIN, 1);
    }
    if (one_more)
        rule(SUM, 2, 0);
    else
        constraint(1, 0);
    tree(19, BYTES(SUM, 1, MAX, 1, LEAF, 0));
}

static void circles(void)
{
    circle("b >= s + max(a), s to -20", FOUNDED, 0, 10, -20, BYTES(SUM, 2, LEAF, 2, MAX, 1, LEAF, 0));
    circle("row 13, b >= s + max(a), s to -19", FOUNDED, 0, 10, -19, BYTES(SUM, 2, LEAF, 2, MAX, 1, LEAF, 0));
    circle("b >= s + max(a), a is 3", FOUNDED, 3, 3, 0, BYTES(SUM, 2, LEAF, 2, MAX, 1, LEAF, 0));
    circle("row 13, b >= s + a, a is 3", FOUNDED, 3, 3, 0, BYTES(SUM, 2, LEAF, 2, LEAF, 0));
    circle("b >= s + max(a), a from above", FROM_ABOVE, 0, 10, 0, BYTES(SUM, 2, LEAF, 2, MAX, 1, LEAF, 0));
    filled(-10, false);
    try_flatten("row 13, 60000 bytes, nothing lent", 0);
    filled(-10, true);
    try_flatten("row 13, 60001 bytes", FOUNDED_MAX_FILE);
}

static void room(void)
{
    reach();
    try_flatten("reach, row 17", 69);
    try_flatten("reach, as much lent as is read", 46);
    try_flatten("reach, nothing lent", 0);
    printing_example();
    try_flatten("printing example, row 17", 56);
    filled(0, false);
    try_flatten("60000 bytes", FOUNDED_MAX_FILE);
    try_flatten("60000 bytes, more lent", FOUNDED_MAX_FILE + 1);
    try_flatten("60000 bytes, row 17", FOUNDED_MAX_FILE - 1);
    filled(0, true);
    try_flatten("60001 bytes", FOUNDED_MAX_FILE + 1);
    longest();
    tree(0, BYTES(LEAF, 0));
    try_flatten("a tree more than the longest file", FOUNDED_MAX_FILE);
}

/* ---- half-filled plans */

static void bounds_refused(void)
{
    printing_example();
    try_bounds("printing example, row 14, no ranges", NULL, 0, 6);
    try_bounds("printing example, row 14, a value for each", VALUES(0, 0, 0), 6);
    try_bounds("printing example, row 14, a number short", VALUES(0, 1, 0, 1, 0), 6);
    try("printing example, row 14, a byte short", BOUNDS, built.bytes, built.len, BYTES(0, 0, 0, 1, 0, 0, 0, 1, 0, 0, 0), 6);
    try("printing example, row 14, a byte over", BOUNDS, built.bytes, built.len, BYTES(0, 0, 0, 1, 0, 0, 0, 1, 0, 0, 0, 1, 0), 6);
    try_bounds("printing example, row 14, a range over", VALUES(0, 1, 0, 1, 0, 1, 0, 1), 6);
    try_bounds("printing example, row 14 before row 20", VALUES(2, -1, 2, -1, 2), 6);
    try_bounds("printing example, row 14 before row 15", VALUES(0, 1, 0, 1, 0), 0);
    try_bounds("printing example, row 20, above its high", VALUES(0, 1, 0, 1, 0, 2), 6);
    try_bounds("printing example, row 20, below its low", VALUES(-1, 1, 0, 1, 0, 1), 6);
    try_bounds("printing example, row 20, wholly above", VALUES(0, 1, 2, 2, 0, 1), 6);
    try_bounds("printing example, row 20, empty", VALUES(0, 1, 1, 0, 0, 1), 6);
    try_bounds("printing example, row 20, the widest", VALUES(-32768, 32767, 0, 1, 0, 1), 6);
    try_bounds("printing example, row 20 before row 15", VALUES(0, 1, 0, 1, 0, 2), 5);
    try_bounds("printing example, row 20, nothing lent", VALUES(1, 0, 0, 1, 0, 1), 0);
    try_bounds("printing example, row 15", VALUES(0, 1, 0, 1, 0, 1), 5);
    try_bounds("printing example, row 15, nothing lent", VALUES(0, 1, 0, 1, 0, 1), 0);
    fresh();
    try("empty, row 14", BOUNDS, built.bytes, built.len, BYTES(0), 0);
    try_bounds("empty", NULL, 0, 0);
    try_bounds("empty, more lent", NULL, 0, 5);
    constraint(1, 5);
    try_bounds("no variables and 5 <= 0", NULL, 0, 0);
}

/* a and b of this kind in low..high, a by the rule b + c, b by the rule a */
static void lifting(unsigned kind, int low, int high, int c)
{
    fresh();
    variables(2, kind, low, high);
    rule(SUM, 0, c);
    term(1, PLAIN, 1);
    rule(SUM, 1, 0);
    term(0, PLAIN, 1);
}

static void lifted(void)
{
    printing_example();
    try_bounds("printing example, all open", VALUES(0, 1, 0, 1, 0, 1), 6);
    try_bounds("printing example, all open, more lent", VALUES(0, 1, 0, 1, 0, 1), 9);
    try_bounds("printing example, 0 at 0", VALUES(0, 0, 0, 1, 0, 1), 6);
    try_bounds("printing example, 0 at 1", VALUES(1, 1, 0, 1, 0, 1), 6);
    try_bounds("printing example, 0 1 1", VALUES(0, 0, 1, 1, 1, 1), 6);
    try_bounds("printing example, 1 at 0", VALUES(0, 1, 0, 0, 0, 1), 6);
    arrival();
    try_bounds("arrival, all open", VALUES(0, 100, 0, 100, 0, 100), 6);
    try_bounds("arrival, 1 from 20 on", VALUES(0, 100, 20, 100, 0, 100), 6);
    try_bounds("arrival, 0 in 40..60", VALUES(40, 60, 0, 100, 0, 100), 6);
    try_bounds("arrival, 0 up to 3", VALUES(0, 3, 0, 100, 0, 100), 6);
    lifting(FOUNDED, 0, 5, 1);
    try_bounds("a >= b + 1, b >= a, all open", VALUES(0, 5, 0, 5), 4);
    try_bounds("a >= b + 1, b >= a, b up to 2", VALUES(0, 5, 0, 2), 4);
    try_bounds("a >= b + 1, b >= a, a in 2..3", VALUES(2, 3, 0, 5), 4);
    lifting(FROM_ABOVE, 0, 5, -1);
    try_bounds("a <= b - 1, b <= a, all open", VALUES(0, 5, 0, 5), 4);
    try_bounds("a <= b - 1, b <= a, b from 3 on", VALUES(0, 5, 3, 5), 4);
    lifting(FOUNDED, 0, 5, 0);
    try_bounds("a >= b, b >= a, both from 4 on", VALUES(4, 5, 4, 5), 4);
    constraint(1, 1);
    term(0, PLAIN, 1);
    try_bounds("the same with a <= -1", VALUES(4, 5, 4, 5), 4);
    lifting(FOUNDED, -FOUNDED_MAX_NUMBER, FOUNDED_MAX_NUMBER, 1);
    try_bounds("60000 lifts of each", VALUES(-30000, 30000, -30000, 30000), 4);
    lifting(FROM_ABOVE, -FOUNDED_MAX_NUMBER, FOUNDED_MAX_NUMBER, -1);
    try_bounds("60000 lifts of each, of kind 2", VALUES(-30000, 30000, -30000, 30000), 4);
}

/* standard s in -10..10, t and u in 0..10, and a variable of this kind in -100..100 for a rule of each form */
static void forms(unsigned kind)
{
    fresh();
    variable(STANDARD, -10, 10);
    variables(2, STANDARD, 0, 10);
    variables(8, kind, -100, 100);
    rule(SUM, 3, 1);
    term(0, PLAIN, 2);
    term(1, PLAIN, -1);
    rule(MAX, 4, 1);
    term(0, PLAIN, 0);
    term(1, PLAIN, 0);
    rule(MIN, 5, 0);
    term(0, PLAIN, 0);
    term(1, PLAIN, 0);
    rule(PRODUCT, 6, -1);
    term(1, PLAIN, 0);
    term(2, PLAIN, 0);
    rule(SIZE, 7, 3);
    term(1, PLAIN, 0);
    rule(IF, 8, 9);
    term(0, OVER, 6);
    term(1, UNDER, 3);
    rule(CARRY, 9, 2);
    term(4, PLAIN, 0);
    term(0, UNDER, -3);
    term(1, OVER, 5);
    rule(DIVIDED, 10, 0);
    term(0, DIVISOR, 4);
    term(3, PLAIN, 1);
    term(1, PLAIN, -1);
}

#define ALL_OPEN -100, 100, -100, 100, -100, 100, -100, 100, -100, 100, -100, 100, -100, 100, -100, 100

/* f and a of these kinds in 0..10, a by the rule c and f times n */
static void across(unsigned f, unsigned a, int c, int n)
{
    fresh();
    variable(f, 0, 10);
    variable(a, 0, 10);
    rule(SUM, 1, c);
    term(0, PLAIN, n);
}

/* f and a in 0..10, a >= 5 by this literal of f */
static void literal(unsigned op, int n)
{
    fresh();
    variables(2, FOUNDED, 0, 10);
    rule(IF, 1, 5);
    term(0, op, n);
}

/* where a rule reads what it does not keep, and that it reads what it keeps at the bounds */
static void ends(void)
{
    forms(FOUNDED);
    try_bounds("forms, s in -4..6, t in 2..5, u in 3..4", VALUES(-4, 6, 2, 5, 3, 4, ALL_OPEN), 22);
    try_bounds("forms, s in -3..5, t in 3..4, u in 3..4", VALUES(-3, 5, 3, 4, 3, 4, ALL_OPEN), 22);
    forms(FROM_ABOVE);
    try_bounds("forms of kind 2, s in -4..6, t in 2..5, u in 3..4", VALUES(-4, 6, 2, 5, 3, 4, ALL_OPEN), 22);
    try_bounds("forms of kind 2, s in -3..5, t in 3..4, u in 3..4", VALUES(-3, 5, 3, 4, 3, 4, ALL_OPEN), 22);
    across(FOUNDED, FOUNDED, 10, -1);
    try_bounds("a >= 10 - f, f in 3..6", VALUES(3, 6, 0, 10), 4);
    across(FROM_ABOVE, FROM_ABOVE, 10, -1);
    try_bounds("a <= 10 - f, both of kind 2, f in 4..7", VALUES(4, 7, 0, 10), 4);
    across(FROM_ABOVE, FOUNDED, 0, 1);
    try_bounds("a >= f, f of kind 2 in 3..6", VALUES(3, 6, 0, 10), 4);
    across(FOUNDED, FROM_ABOVE, 0, 1);
    try_bounds("a <= f, a of kind 2, f in 3..6", VALUES(3, 6, 0, 10), 4);
    literal(OVER, 3);
    try_bounds("a >= 5 if f >= 3, f in 3..6", VALUES(3, 6, 0, 10), 4);
    literal(UNDER, 3);
    try_bounds("a >= 5 if f < 3, f in 2..6", VALUES(2, 6, 0, 10), 4);
    try_bounds("a >= 5 if f < 3, f in 3..6", VALUES(3, 6, 0, 10), 4);
}

/* b in -5..5 and a in 0..10 of these kinds, a by the rule |b|, and b, if it is founded, by the rule -2 */
static void size_of(unsigned b, unsigned a)
{
    fresh();
    variable(b, -5, 5);
    variable(a, 0, 10);
    rule(SIZE, 1, 0);
    term(0, PLAIN, 0);
    if (b != STANDARD)
        rule(SUM, 0, -2);
}

static void mixed(void)
{
    size_of(STANDARD, FOUNDED);
    try_bounds("a >= |b|, b in 1..5, a up to 9", VALUES(1, 5, 0, 9), 4);
    try_bounds("a >= |b|, b at 3", VALUES(3, 3, 0, 9), 4);
    try_bounds("a >= |b|, b at -4, a up to 2", VALUES(-4, -4, 0, 2), 4);
    size_of(STANDARD, FROM_ABOVE);
    try_bounds("a <= |b|, b in 1..5, a from 1 on", VALUES(1, 5, 1, 10), 4);
    try_bounds("a <= |b|, b at -3", VALUES(-3, -3, 1, 10), 4);
    try_bounds("a <= |b|, b at -3, a from 4 on", VALUES(-3, -3, 4, 10), 4);
    size_of(FOUNDED, FOUNDED);
    try_bounds("a >= |b|, b >= -2, b from -2 on", VALUES(-2, 5, 0, 10), 4);
    try_bounds("the same, drawn in", VALUES(-2, -2, 0, 10), 4);
    try_bounds("the same, drawn in again", VALUES(-2, -2, 0, 2), 4);
    try_bounds("a >= |b|, b >= -2, b up to -3", VALUES(-5, -3, 0, 10), 4);
    try_bounds("a >= |b|, b >= -2, b at 3", VALUES(3, 3, 0, 10), 4);
    size_of(FROM_ABOVE, FROM_ABOVE);
    try_bounds("a <= |b|, b <= -2, b up to -2", VALUES(-5, -2, 0, 10), 4);
    try_bounds("a <= |b|, b <= -2, b at -2", VALUES(-2, -2, 0, 10), 4);
    own_size(FOUNDED, -10);
    try_bounds("a >= |a| - 10, all open", VALUES(-5, 5), 2);
    try_bounds("a >= |a| - 10, a in -2..4", VALUES(-2, 4), 2);
    try_bounds("a >= |a| - 10, a at 3", VALUES(3, 3), 2);
    own_size(FROM_ABOVE, 5);
    try_bounds("a <= |a| + 5, all open", VALUES(-5, 5), 2);
    try_bounds("a <= |a| + 5, a at 2", VALUES(2, 2), 2);
}

/* ranges for all variables and one more: low..high, for odd numbers odd_low..odd_high */
static const int *everywhere(int low, int high, int odd_low, int odd_high)
{
    static int ends[2 * (FOUNDED_MAX_VARIABLES + 1)];
    for (size_t v = 0; v <= FOUNDED_MAX_VARIABLES; v++) {
        ends[2 * v] = v % 2 ? odd_low : low;
        ends[2 * v + 1] = v % 2 ? odd_high : high;
    }
    return ends;
}

static void bounds_of_many(void)
{
    const size_t n = 2 * FOUNDED_MAX_VARIABLES;
    longest();
    try_bounds("longest file, all open", everywhere(-10, 10, -10, 10), n, 512);
    try_bounds("longest file, all open, more lent", everywhere(-10, 10, -10, 10), n, 513);
    try_bounds("longest file, all 10", everywhere(10, 10, 10, 10), n, 512);
    try_bounds("longest file, row 14, a number short", everywhere(-10, 10, -10, 10), n - 1, 512);
    try_bounds("longest file, row 14, a range over", everywhere(-10, 10, -10, 10), n + 2, 512);
    try_bounds("longest file, row 20", everywhere(-10, 10, -10, 11), n, 512);
    try_bounds("longest file, row 15", everywhere(-10, 10, -10, 10), n, 511);
    put(0);
    try_bounds("a byte more than the longest file", everywhere(-10, 10, -10, 10), n, 512);
    sizes(FOUNDED, -20);
    try_bounds("256 sizes, all open", everywhere(-10, 10, -10, 10), n, 512);
    try_bounds("256 sizes, all 10", everywhere(10, 10, 10, 10), n, 512);
    sizes(FROM_ABOVE, -20);
    try_bounds("256 sizes of both kinds, all open", everywhere(-10, 10, -10, 10), n, 512);
    try_bounds("256 sizes of both kinds, 5 and -5", everywhere(5, 5, -5, -5), n, 512);
}

/* ---- files that overlap what is read beside them */

/* m bytes of the built file, from this one on, are the assignment or the ranges */
static void try_inside(const char *name, enum which which, size_t from, size_t m, size_t lent)
{
    uint8_t *file = placed(file_room, built.bytes, built.len, 1);
    struct call c = {which, file, file + from, left, built.len, m, lent, 0, 0, 0, 0};
    memcpy(left, marks, lent);
    protect(file_room, PROT_READ);
    on_thread(&c);
    protect(file_room, PROT_READ | PROT_WRITE);
    printf("%s %s: ", CALLS[which], name);
    conclude(name, which, c.answer, m, lent);
}

/* a in 0..5, a >= 4: the declared range and the value 5 stand in the file */
static void overlapping(void)
{
    fresh();
    variable(FOUNDED, 0, 5);
    rule(SUM, 0, 4);
    try_inside("of a file with its assignment inside", LEAST, 6, 2, 3);
    try_inside("of a file with its assignment inside", CHECK, 6, 2, 13);
    try_inside("of a file with its ranges inside", BOUNDS, 4, 4, 3);
    try_inside("of a file that is its ranges", BOUNDS, 0, built.len, 3);
}

/* ---- threads at the same time, over the same files and one assignment */

struct worker {
    pthread_t thread;
    const uint8_t *assignment;
    bool right;
};

/* the search of the printing example */
static bool searches_right(void)
{
    uint64_t sets[12], begin = founded_begin(built.bytes, built.len, sets, 12);
    uint8_t firsts[3];
    bool right = founded_word(begin) == FOUNDED_BEGUN && founded_first(begin) == 3 && !founded_has(sets, 1, 1);
    for (size_t k = 0; k < 3; k++)
        right &= founded_step(sets, 12, 3, k);
    right &= founded_has(sets, 1, 1) && !founded_has(sets, 1, 0) && founded_components(sets, 12, 3, firsts, 3);
    return right && firsts[0] == 0 && firsts[1] == 1 && firsts[2] == 1;
}

/* reach, and its plain file */
static struct file nested;
static uint8_t plain[70];

static bool flattens_right(void)
{
    uint8_t again[sizeof plain];
    uint64_t flatten = founded_flatten(nested.bytes, nested.len, again, sizeof again);
    return founded_word(flatten) == FOUNDED_WRITTEN && founded_length(flatten) == sizeof plain && memcmp(again, plain, sizeof plain) == 0;
}

/* the bounds of the printing example, all open and with 0 at 0 */
static bool bounds_right(void)
{
    uint8_t ranges[12], bounds[6];
    for (size_t v = 0; v < 3; v++)
        founded_range(ranges, v, 0, 1);
    bool right = founded_word(founded_bounds(built.bytes, built.len, ranges, 12, bounds, 6)) == FOUNDED_BOUNDED;
    right &= founded_value(bounds, 1) == 1 && founded_value(bounds, 2) == 1;
    founded_range(ranges, 0, 0, 0);
    right &= founded_word(founded_bounds(built.bytes, built.len, ranges, 12, bounds, 6)) == FOUNDED_BOUNDED;
    return right && founded_value(bounds, 1) == 0 && founded_value(bounds, 2) == 0;
}

static void *works(void *p)
{
    struct worker *w = p;
    uint8_t report[36], model[6], normal[57];
    w->right = true;
    for (int i = 0; i < 2000; i++) {
        uint64_t read = founded_read(built.bytes, built.len);
        uint64_t least = founded_least(built.bytes, built.len, w->assignment, 6, model, sizeof model);
        uint64_t check = founded_check(built.bytes, built.len, w->assignment, 6, report, sizeof report);
        w->right &= founded_word(read) == FOUNDED_ACCEPTED && founded_first(read) == 3 && founded_second(read) == 3;
        w->right &= founded_word(least) == FOUNDED_FOUND && founded_value(model, 1) == 0;
        w->right &= founded_word(check) == FOUNDED_UNFOUNDED && founded_first(check) == 2 && founded_second(check) == 1;
        uint64_t normalize = founded_normalize(built.bytes, built.len, normal, sizeof normal);
        w->right &= founded_word(normalize) == FOUNDED_WRITTEN && founded_length(normalize) == 57 && normal[56] == 1;
        w->right &= founded_entry_variable(report, 1) == 2 && founded_entry_mark(report, 2) == FOUNDED_AT_MOST;
        w->right &= searches_right() && flattens_right() && bounds_right();
    }
    return NULL;
}

static void at_once(void)
{
    static const uint8_t assignment[] = {0, 0, 0, 1, 0, 1};
    struct worker workers[4];
    reach();
    nested = built;
    founded_flatten(nested.bytes, nested.len, plain, sizeof plain);
    printing_example();
    for (int i = 0; i < 4; i++) {
        workers[i].assignment = assignment;
        if (pthread_create(&workers[i].thread, NULL, works, &workers[i]) != 0)
            fail("threads", "no thread");
    }
    for (int i = 0; i < 4; i++)
        if (pthread_join(workers[i].thread, NULL) != 0 || !workers[i].right)
            fail("threads", "another answer");
    printf("four threads at once: the same answers\n");
}

/* with an argument: also how much of the stack each call touched */
int main(int argc, char **argv)
{
    (void)argv;
    file_room = fenced(ROOM);
    beside_room = fenced(ROOM);
    lent_room = fenced(ROOM);
    memset(marks, MARK, sizeof marks);
    for (int i = 0; i < COUNT; i++)
        stacks[i] = fenced(STACKS[i]);
    rows();
    limits();
    plans();
    idle_rules();
    from_above();
    normal_forms();
    begun();
    searches();
    steps();
    components();
    huge_numbers();
    flattened();
    plain_readers();
    after_a_tree();
    malformed();
    too_many();
    named();
    ranges();
    circles();
    room();
    bounds_refused();
    lifted();
    ends();
    mixed();
    bounds_of_many();
    overlapping();
    at_once();
    for (int i = 0; i < COUNT; i++)
        if (deepest[i] + MARGIN > STACKS[i])
            fail(CALLS[i], "too much of its stack is touched");
    printf("stack: %d bytes and more are left\n", MARGIN);
    if (argc > 1)
        for (int i = 0; i < COUNT; i++)
            printf("%s: %zu bytes of stack touched, of %zu\n", CALLS[i], deepest[i], STACKS[i]);
    return 0;
}
