/*
 * Founded cover for C: reads a rule file, finds the least model for an assignment, checks an assignment, writes a file in its normal form, steps
 * through the search of a file's components, flattens a nested file, says how far rules can still lift the variables of a half-filled plan. Link with
 * libfounded.a (x86-64 Linux); it needs memset and memcpy of the C library and nothing else. The calls are proved: each returns, for every input that
 * is passed as said here, and answers and writes what document 01 and document 02's first seven wishes define (crates/founded).
 *
 * What a caller passes:
 * - Each buffer is a pointer and its length: in words of 64 bits for `sets`, which is aligned as a uint64_t, in bytes for every other. So much can
 *   be read there, and written where the pointer is not const. What it holds, and any other number that is passed, is free.
 * - No pointer is null. An empty buffer has length 0 and any other pointer, `sets` an aligned one; nothing is read or written there.
 * - The report, buffer or sets that are written overlap nothing else that is passed. A file may overlap an assignment or ranges.
 * - No other thread writes the buffers, or reads the one that is written, while a call runs.
 * - The calling thread has the stack that is named below left.
 *
 * A call keeps nothing after it returns: it has no state, no heap, no locks, and threads may call at the same time. A call writes only
 * where its comment says so, from the buffer's first byte or word on; every other byte keeps its value.
 */
#ifndef FOUNDED_H
#define FOUNDED_H

#include <stdbool.h>
#include <stddef.h>
#include <stdint.h>

#ifdef __cplusplus
extern "C" {
#endif

/* ---- limits of a file */

#define FOUNDED_MAX_FILE 60000u
#define FOUNDED_MAX_VARIABLES 256u
#define FOUNDED_MAX_RULES 2048u
#define FOUNDED_MAX_CONSTRAINTS 512u
#define FOUNDED_MAX_TERMS 16u /* of a body; the divisor of rule form 8 stands beside them */
#define FOUNDED_MAX_NUMBER 30000
#define FOUNDED_MAX_COEFFICIENT 1000
#define FOUNDED_MAX_DIVISOR 1000 /* of rule form 8; the least is 1 */

/* ---- limits of a tree, in a field of a nested file with this tag */

#define FOUNDED_TREE_TAG 5u
#define FOUNDED_MAX_LEVELS 8u    /* the root's and that of the deepest leaf included */
#define FOUNDED_MAX_CHILDREN 16u /* of a node; the least is 1 */

/* ---- bytes for each variable of the file */

#define FOUNDED_ASSIGNMENT_BYTES 2u /* exactly */
#define FOUNDED_RANGE_BYTES 4u      /* exactly, of the ranges that founded_bounds reads */
#define FOUNDED_LEAST_BYTES 2u      /* at least, of the buffer that founded_least writes */
#define FOUNDED_CHECK_BYTES 12u     /* at least, of the report that founded_check writes: they are enough, and can all be used */
#define FOUNDED_BOUNDS_BYTES 2u     /* at least, of the buffer that founded_bounds writes */

/* ---- words of 64 bits for each variable: its set, one bit for each of the 256 numbers */

#define FOUNDED_SET_WORDS 4u

/*
 * ---- stack of a thread that makes the call and little else. In the tests the calls, in this order, touched at most 11,100, 124,400, 124,700,
 * 81,500, 10,800, 100, 100, 17,500 and 130,500 bytes; the rest is for the thread's own start and a margin.
 */

#define FOUNDED_READ_STACK 32768u
#define FOUNDED_LEAST_STACK 147456u
#define FOUNDED_CHECK_STACK 147456u
#define FOUNDED_NORMALIZE_STACK 131072u
#define FOUNDED_BEGIN_STACK 65536u
#define FOUNDED_STEP_STACK 32768u
#define FOUNDED_COMPONENTS_STACK 32768u
#define FOUNDED_FLATTEN_STACK 65536u
#define FOUNDED_BOUNDS_STACK 147456u

/* ---- the calls */

/* ACCEPTED with the counts of variables, rules and constraints, or REFUSED. */
uint64_t founded_read(const uint8_t *file, size_t file_len);

/*
 * REFUSED; RANGE with the first variable that is assigned outside its range; NONE where the reduct has no model; or FOUND. Only FOUND
 * writes: the least model, a value of 2 bytes for each variable. A standard variable is as assigned. A founded one starts at its low and is
 * pushed up by rules, one that is founded from above (kind 2) starts at its high and is pushed down, each no further than rules demand.
 */
uint64_t founded_least(const uint8_t *file, size_t file_len, const uint8_t *assignment, size_t assignment_len, uint8_t *buffer,
                       size_t buffer_len);

/*
 * REFUSED; RANGE with the first variable outside its range; RULE or CONSTRAINT with the first that is not met; UNFOUNDED with the counts of
 * bounds and conditions; or STABLE. Only UNFOUNDED writes: an entry for each bound, then an entry for each condition.
 */
uint64_t founded_check(const uint8_t *file, size_t file_len, const uint8_t *assignment, size_t assignment_len, uint8_t *report,
                       size_t report_len);

/*
 * REFUSED, with number 17 and place 0 where the buffer is shorter than the file; or WRITTEN with the length of the file's normal form, which is
 * no longer than the file. Only WRITTEN writes: the normal form, a file with the same variables, in which the terms of each body stand by
 * ascending variable, after a carried variable or a divisor, and the rules, then the constraints, by ascending bytes, each once; so they get
 * other numbers. Two files have the same normal form exactly where their variables and, with the terms so ordered, their sets of rules and
 * constraints agree. Written again, it stays as it is, and its stable assignments are those of the file.
 */
uint64_t founded_normalize(const uint8_t *file, size_t file_len, uint8_t *buffer, size_t buffer_len);

/*
 * The search of a file's components, step by step. It is the one that founded_read makes to decide on refusal 13. An edge runs from the head of a
 * rule that is not idle to each kept or mixed variable of its body. Each variable has a set of reached ones: the set of x is the words 4x to
 * 4x + 3, and it has y where bit y % 64 (bit 0 is the lowest) of word 4x + y / 64 is 1.
 *
 * REFUSED with a number from 1 to 12, as by founded_read, or with number 15 and place 0 where sets_len is under 4 words for each variable; or BEGUN
 * with the count of variables. A file that founded_read refuses with 13 is begun like one that it accepts, and one without a mixed variable too.
 * Only BEGUN writes: the set of each variable has exactly the variables that an edge leads to from it. Every word after these sets keeps its value.
 */
uint64_t founded_begin(const uint8_t *file, size_t file_len, uint64_t *sets, size_t sets_len);

/*
 * Variable k's round among so many variables, whatever the sets hold. False, and nothing is written, where k is not below variables, variables is over
 * 256 or sets_len is under 4 words for each of them. Else true: each of their sets that has k takes in the set of k, all its bits; every
 * other set, and every word after them, keeps its value. The rounds of a search that is begun are those of variable 0, 1 and so on. After variable k's
 * round each set holds exactly those reached over one edge or more with every stop between at most k.
 */
bool founded_step(uint64_t *sets, size_t sets_len, size_t variables, size_t k);

/*
 * The components that the sets say, whatever they hold: those of the file after the last round of its search. False, and nothing is written, where
 * variables is over 256, sets_len is under 4 words for each of them or buffer_len under a byte for each. Else true: byte x of the buffer is
 * the first y that is x, or that the set of x has and whose set has x. So after the last round it is the first variable of x's component.
 */
bool founded_components(const uint64_t *sets, size_t sets_len, size_t variables, uint8_t *buffer, size_t buffer_len);

/*
 * Converts a nested file to a plain one. A nested file has fields of tag 5 after its constraints: a head (1 byte) and one tree, to the field's last
 * byte. A node has 2 bytes: a leaf is byte 0 and a variable of the file; a sum, max or min is byte 1, 2 or 3 and the count of its children, which
 * follow. Such a field is one more rule, which gives its root's value, the leaves being plain terms. Every other call that takes a file refuses tag
 * 5 with number 3.
 *
 * REFUSED, by the first of these:
 * - 1, place 0: the nested file is over 60,000 bytes.
 * - The first refusal of a field, with its place. A variable, rule or constraint is refused as by founded_read, after a tree with 4. A tree is refused
 *   with 2; 18, the value is not a head and one tree within the limits; 5, with what it adds there are too many variables or rules; 9, its head or a
 *   leaf is not declared, or the head not founded; 11, a variable is at two leaves; 19, the range of an added variable passes -30,000..30,000.
 * - 13: the plain file is not valid. The place is that of the first offending rule in the nested file.
 * - 17, place 0: the plain file is over 60,000 bytes or longer than the buffer.
 *
 * Else WRITTEN with the length of the plain file, which is no shorter than the nested one. Only WRITTEN writes: the plain file, which founded_read
 * accepts. Each inner node but a root becomes a variable of the head's kind, with the exact range of the node's values. These follow the file's own,
 * trees in file order, a node before its children and a child's whole subtree before the next child. The trees' rules follow the file's own, in the
 * same order: the root's for the head, then one for each added variable, the sum, max or min of the children as they stand. A root that is a leaf is
 * a sum of one. The constraints come last. A file without trees is written as it is. Each stable assignment of the nested file extends in just one way
 * to one of the plain file, which has no others; examples/nested_plan.c checks plans so.
 */
uint64_t founded_flatten(const uint8_t *nested, size_t nested_len, uint8_t *buffer, size_t buffer_len);

/*
 * How far rules can still lift the founded variables of a half-filled plan, in which each variable has a range inside its declared one. `ranges` has 4
 * bytes for each variable: low (2), then high (2). A range of one value is single.
 *
 * REFUSED, as by founded_read or with place 0 by the first of these; or BOUNDED.
 * - 14: ranges_len is not 4 bytes for each variable.
 * - 20: a range leaves its declared one, or its low is above its high.
 * - 15: buffer_len is under 2 bytes for each variable.
 *
 * Only BOUNDED writes: a value of 2 bytes for each variable. Of a founded variable it is a bound: the most that rules can lift it to, of kind 2 the
 * least that they can push it down to. Of a standard one it is the low of its range, and no bound. A lift starts at the declared low and stops at the
 * high of the range, of kind 2 it starts at the declared high and stops at the low of the range. A rule reads the variables that the reduct keeps at
 * their bounds, and every other at the end of its range that demands most; where the range of a mixed one is not single, the head reaches the end of
 * its own range. Constraints play no part.
 *
 * Every stable assignment inside the ranges has each founded variable at or below its bound, of kind 2 at or above it. So there is none inside where a
 * bound is before its range: below the low, of kind 2 above the high. Drawing a founded variable's high, of kind 2 its low, in to its bound leaves the
 * stable assignments inside as they are. Narrower ranges never give a founded variable a bound further from where it starts. With single ranges whose
 * values meet every rule, the bounds are the founded values that founded_least writes for these values. examples/fill_week.c fills a plan so.
 */
uint64_t founded_bounds(const uint8_t *file, size_t file_len, const uint8_t *ranges, size_t ranges_len, uint8_t *buffer, size_t buffer_len);

/*
 * ---- answers that are a uint64_t: a word and up to three numbers, 0 where there is none, or a word and a length, which takes the place of the
 * first two. No such answer is 0.
 */

enum {
    FOUNDED_STABLE = 1,
    FOUNDED_UNFOUNDED = 2,  /* bounds, conditions */
    FOUNDED_CONSTRAINT = 3, /* constraint */
    FOUNDED_RULE = 4,       /* rule */
    FOUNDED_RANGE = 5,      /* variable */
    FOUNDED_REFUSED = 6,    /* refusal's number 1 to 15 or 17 to 20, place in the file */
    FOUNDED_ACCEPTED = 7,   /* variables, rules, constraints */
    FOUNDED_FOUND = 8,
    FOUNDED_NONE = 9,
    FOUNDED_WRITTEN = 10, /* length */
    FOUNDED_BEGUN = 11,   /* variables */
    FOUNDED_BOUNDED = 12
};

static inline unsigned founded_word(uint64_t answer) { return (unsigned)(answer & 0xff); }

static inline unsigned founded_first(uint64_t answer) { return (unsigned)(answer >> 8 & 0xffff); }

static inline unsigned founded_second(uint64_t answer) { return (unsigned)(answer >> 24 & 0xffff); }

static inline unsigned founded_third(uint64_t answer) { return (unsigned)(answer >> 40 & 0xffff); }

static inline uint32_t founded_length(uint64_t answer) { return (uint32_t)(answer >> 8 & 0xffffffff); }

/* ---- numbers of two bytes, big-endian, two's complement: the value of variable v in an assignment or a least model, its bound */

static inline int founded_number(const uint8_t *bytes)
{
    int n = bytes[0] * 256 + bytes[1];
    return n < 32768 ? n : n - 65536;
}

static inline int founded_value(const uint8_t *values, size_t v) { return founded_number(values + 2 * v); }

/* value lies in -32768..32767 */
static inline void founded_assign(uint8_t *values, size_t v, int value)
{
    unsigned n = (unsigned)value & 0xffff;
    values[2 * v] = (uint8_t)(n >> 8);
    values[2 * v + 1] = (uint8_t)(n & 0xff);
}

/* ---- ranges: that of variable v is low..high, and both lie in -32768..32767 */

static inline void founded_range(uint8_t *ranges, size_t v, int low, int high)
{
    founded_assign(ranges, 2 * v, low);
    founded_assign(ranges, 2 * v + 1, high);
}

static inline int founded_low(const uint8_t *ranges, size_t v) { return founded_value(ranges, 2 * v); }

static inline int founded_high(const uint8_t *ranges, size_t v) { return founded_value(ranges, 2 * v + 1); }

/* ---- entries of the report, 4 bytes each: variable, mark, number. Entry i of an UNFOUNDED answer, i below bounds + conditions. */

enum {
    FOUNDED_BOUND = 0,       /* kind 1: rules push the variable up to number at most, below its assigned value */
    FOUNDED_BOUND_ABOVE = 3, /* kind 2: rules push the variable down to number at least, above its assigned value */
    FOUNDED_AT_MOST = 1,     /* a condition: the variable is assigned at most number */
    FOUNDED_AT_LEAST = 2     /* a condition: the variable is assigned at least number */
};

static inline unsigned founded_entry_variable(const uint8_t *report, size_t i) { return report[4 * i]; }

static inline unsigned founded_entry_mark(const uint8_t *report, size_t i) { return report[4 * i + 1]; }

static inline int founded_entry_number(const uint8_t *report, size_t i) { return founded_number(report + 4 * i + 2); }

/* ---- sets: whether that of x has y, x being one of the variables that have sets and y below 256 */

static inline bool founded_has(const uint64_t *sets, size_t x, size_t y)
{
    return (sets[FOUNDED_SET_WORDS * x + y / 64] >> y % 64 & 1) != 0;
}

#ifdef __cplusplus
}
#endif

#endif
