// The exported calls that the stack tests use, and the worst lists of calls found so far.
#include <stdint.h>
#include <stddef.h>
#include <string.h>

#define REGION 6145
#define WORDS 12
#define ALIAS 11
#define BOOL 0
#define BITS 1
#define TRUNCATE 13
#define ADD 20
#define AND 23
#define EQUAL 29
#define UNITS (UINT64_MAX - 8)

typedef uint64_t word;

// A slice is a pointer and its length.
word scalars_constant(word *g, size_t n, word code, word width, word low, word high);
word scalars_input(word *g, size_t n, word number, word code, word width, word flag, word min_low, word min_high, word max_low, word max_high);
word scalars_unary(word *g, size_t n, word code, word width, word operator, word parameter, word id);
word scalars_binary(word *g, size_t n, word code, word width, word operator, word left, word right);
word scalars_slice(word *g, size_t n, word id, word offset, word width);
word scalars_concat(word *g, size_t n, word high, word low, word low_width, word width);

static word region[REGION];

static void put_nodes(const word *nodes, size_t count) {
    memset(region, 0, sizeof region);
    region[0] = count;
    memcpy(region + 1, nodes, count * WORDS * sizeof *nodes);
}

// Input 0 of Bits(64) whose alias leads to node 2, constant 255, and node 2: the operator on both.
static void put_alias_back(word operator, word high) {
    const word nodes[3 * WORDS] = {
        BITS, 64, 1, 0, 0, UINT64_MAX, 0, 1, 0, 0, 0, 3,
        BITS, 64, 1, 255, 0, 255, 0, 0, 255, 0, 0, 0,
        BITS, 64, 1, 0, 0, high, 0, operator, 0, 1, 0, 0,
    };
    put_nodes(nodes, 3);
}

static word and_of_and(void) {
    put_alias_back(AND, 255);
    return scalars_binary(region, REGION, BITS, 64, AND, 2, 1);
}

static word and_of_or(void) {
    put_alias_back(AND + 1, UINT64_MAX);
    word mask = scalars_constant(region, REGION, BITS, 64, 0xff0, 0);
    return scalars_binary(region, REGION, BITS, 64, AND, 2, mask);
}

static word truncated_sum(void) {
    put_alias_back(ADD, UINT64_MAX);
    return scalars_unary(region, REGION, BITS, 8, TRUNCATE, 8, 2);
}

// A graph grown from empty: sums and differences by one constant in turn, then Equal.
static word equal_of_sums(void) {
    memset(region, 0, sizeof region);
    word id = scalars_input(region, REGION, 0, BITS, 64, 0, 0, 0, 0, 0);
    word five = scalars_constant(region, REGION, BITS, 64, 5, 0);
    for (int k = 0; k < 508; k++) id = scalars_binary(region, REGION, BITS, 64, ADD + k % 2, id, five);
    return scalars_binary(region, REGION, BOOL, 0, EQUAL, id, five);
}

static word (*const LISTS[])(void) = {and_of_and, and_of_or, truncated_sum, equal_of_sums};
static const char *const NAMES[] = {"And of And, alias back", "And of Or, alias back", "Truncate of Add, alias back", "Equal of 508 sums, grown"};
#define COUNT (sizeof LISTS / sizeof *LISTS)
