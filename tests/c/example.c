// An example for include/scalars.h: a reading from the bus is summed, compared, guarded and cut into fields, a frame is checked by a
// list of guards, both arms of a branch are built, and the graph is cleaned up.
// Every answer is checked; the first wrong one ends the program with its line. Built and run by tests/c/run.
#include "scalars.h"
#include <inttypes.h>
#include <stdio.h>
#include <stdlib.h>
#include <string.h>

#define CHECK(condition) check((condition), #condition, __LINE__)

// The empty graph: a static array begins as zeros.
static uint64_t region[SCALARS_REGION];

// Its marks: none stands.
static uint64_t marks[SCALARS_MARKS_REGION];

static void check(int holds, const char *condition, int line) {
    if (holds) return;
    fprintf(stderr, "%s:%d: not so: %s\n", __FILE__, line, condition);
    exit(1);
}

// An input of Bits(16) without a range of its own: any of its 65,536 values.
static uint64_t reading(uint64_t number) {
    uint64_t id = scalars_input(region, SCALARS_REGION, number, SCALARS_BITS, 16, 0, 0, 0, 0, 0);
    CHECK(scalars_is_id(id));
    return id;
}

static uint64_t constant(uint64_t value) {
    uint64_t id = scalars_constant(region, SCALARS_REGION, SCALARS_BITS, 16, value, 0);
    CHECK(scalars_is_id(id));
    return id;
}

static uint64_t sum(uint64_t left, uint64_t right) {
    uint64_t id = scalars_binary(region, SCALARS_REGION, SCALARS_BITS, 16, SCALARS_ADD, left, right);
    CHECK(scalars_is_id(id));
    return id;
}

static uint64_t is_less(uint64_t left, uint64_t right) {
    uint64_t id = scalars_binary(region, SCALARS_REGION, SCALARS_BOOL, 0, SCALARS_LESS_UNSIGNED, left, right);
    CHECK(scalars_is_id(id));
    return id;
}

// The value of a node that folded to a constant.
static uint64_t known(uint64_t id) {
    uint64_t value[SCALARS_VALUE_WORDS];
    CHECK(scalars_literal(region, SCALARS_REGION, id, value, SCALARS_VALUE_WORDS) == 1);
    CHECK(value[1] == 0);
    return value[0];
}

// x + 0 is x itself; (x + 5) + 7 is one sum, x + 12; 5 + 7 is the constant 12.
static uint64_t fold_sums(uint64_t x) {
    CHECK(sum(x, constant(0)) == x);
    uint64_t moved = sum(sum(x, constant(5)), constant(7));
    CHECK(moved == sum(x, constant(12)));
    CHECK(known(sum(constant(5), constant(7))) == 12);
    printf("x is node %" PRIu64 ", x + 0 the same; (x + 5) + 7 and x + 12 are node %" PRIu64 "\n", x, moved);
    return moved;
}

// A range of Bits(16) fits the low halves of its ends.
static void check_range(uint64_t id, uint64_t least, uint64_t greatest) {
    uint64_t node[SCALARS_NODE_WORDS];
    CHECK(scalars_node(region, SCALARS_REGION, id, node, SCALARS_NODE_WORDS) == 1);
    CHECK(node[SCALARS_WORD_TYPE] == SCALARS_BITS && node[SCALARS_WORD_WIDTH] == 16);
    CHECK(node[SCALARS_WORD_RANGE] == 1);
    CHECK(node[SCALARS_WORD_MIN] == least && node[SCALARS_WORD_MIN_HIGH] == 0);
    CHECK(node[SCALARS_WORD_MAX] == greatest && node[SCALARS_WORD_MAX_HIGH] == 0);
    printf("node %" PRIu64 " lies in %" PRIu64 " to %" PRIu64 "\n", id, least, greatest);
}

// Once x < 1000 is assumed, another node stands for x, with a narrower range, and x < 2000 folds to true.
static uint64_t narrow(uint64_t x) {
    uint64_t below = is_less(x, constant(1000));
    check_range(x, 0, 65535);
    CHECK(scalars_resolve(region, SCALARS_REGION, x) == x);
    CHECK(scalars_assume_guard(region, SCALARS_REGION, below, 1) == SCALARS_DONE);
    uint64_t now = scalars_resolve(region, SCALARS_REGION, x);
    CHECK(now != x && region[scalars_node_start(x) + SCALARS_WORD_ALIAS] == now + 1);
    check_range(now, 0, 999);
    CHECK(known(is_less(x, constant(2000))) == 1);
    return below;
}

// The guard that the translated code tests when it runs: which nodes to compare, and whether their values match.
static void match_guard(uint64_t below, uint64_t x) {
    uint64_t guard[SCALARS_GUARD_WORDS];
    CHECK(scalars_guard(region, SCALARS_REGION, below, 1, guard, SCALARS_GUARD_WORDS) == 1);
    CHECK(guard[SCALARS_GUARD_OPERATOR] == SCALARS_LESS_UNSIGNED);
    CHECK(guard[SCALARS_GUARD_LEFT] == x && guard[SCALARS_GUARD_RIGHT] == constant(1000));
    CHECK(guard[SCALARS_GUARD_EXPECTED] == 1 && guard[SCALARS_GUARD_HOST64] == 1);
    for (uint64_t value = 999; value <= 1000; value++) {
        uint64_t matches = scalars_matches(guard[SCALARS_GUARD_OPERATOR], guard[SCALARS_GUARD_EXPECTED],
                                           guard[SCALARS_GUARD_HOST64], value, 0, 1000, 0);
        CHECK(matches == (value == 999));
        printf("the guard x < 1000 for %" PRIu64 ": %s\n", value, matches ? "matches" : "does not match");
    }
}

// The bytes of a frame, put together as they were and swapped. This program owns the region and only these calls have changed it, so
// the twins may be used, which do not ask whether it is a graph.
static uint64_t swap_bytes(uint64_t frame) {
    uint64_t high = scalars_slice_in_graph(region, SCALARS_REGION, frame, 8, 8);
    uint64_t low = scalars_slice_in_graph(region, SCALARS_REGION, frame, 0, 8);
    CHECK(scalars_is_id(high) && scalars_is_id(low));
    CHECK(scalars_concat_in_graph(region, SCALARS_REGION, high, low, 8, 16) == frame);
    uint64_t swapped = scalars_concat_in_graph(region, SCALARS_REGION, low, high, 8, 16);
    CHECK(scalars_is_id(swapped) && swapped != frame);
    CHECK(scalars_slice_in_graph(region, SCALARS_REGION, swapped, 0, 8) == high);
    printf("high and low byte of node %" PRIu64 " fold back to it; swapped they are node %" PRIu64 "\n", frame, swapped);
    return swapped;
}

// A check of a frame yields several conditions together. All are assumed, or none where one is refused.
static void check_frame(uint64_t frame) {
    static uint64_t before[SCALARS_REGION];
    uint64_t conditions[] = {is_less(frame, constant(500)), is_less(frame, constant(100)), SCALARS_NODES};
    uint64_t answers[] = {1, 0, 1};
    memcpy(before, region, sizeof region);
    // The last id is that of no node.
    uint64_t answer = scalars_assume_guards(region, SCALARS_REGION, conditions, 3, answers, 3);
    CHECK(scalars_refusal(answer) == SCALARS_REFUSAL_ID);
    CHECK(scalars_assume_guards(region, SCALARS_REGION, conditions, 2, answers, 3) == SCALARS_REFUSED(SCALARS_REFUSAL_GUARDS));
    CHECK(memcmp(before, region, sizeof region) == 0);
    CHECK(scalars_assume_guards(region, SCALARS_REGION, conditions, 2, answers, 2) == SCALARS_DONE);
    check_range(scalars_resolve(region, SCALARS_REGION, frame), 100, 499);
}

// One arm of a branch: x is below 100 or it is not, as assumed. Answers the value that x < 100 folds to.
static uint64_t build_arm(uint64_t x, uint64_t below, uint64_t assumed) {
    CHECK(scalars_assume_guard(region, SCALARS_REGION, below, assumed) == SCALARS_DONE);
    uint64_t folded = known(is_less(x, constant(100)));
    printf("in the arm where x < 100 is %" PRIu64 " it folds to %" PRIu64 "; node %" PRIu64 " stands for x\n",
           assumed, folded, scalars_resolve(region, SCALARS_REGION, x));
    return folded;
}

// Both arms of a branch, each without what the other assumes: a mark before the first, and a return to it.
static void branch(uint64_t x) {
    static uint64_t before[SCALARS_REGION];
    uint64_t below = is_less(x, constant(100));
    memcpy(before, region, sizeof region);
    uint64_t mark = scalars_mark(region, SCALARS_REGION, marks, SCALARS_MARKS_REGION);
    CHECK(mark == 0 && marks[0] == 1);
    CHECK(marks[scalars_mark_start(mark)] == region[0]);
    for (uint64_t arm = 0; arm <= 1; arm++) {
        CHECK(build_arm(x, below, arm) == arm);
        CHECK(memcmp(before, region, sizeof region) != 0);
        // A later mark is dropped by the return.
        CHECK(scalars_mark(region, SCALARS_REGION, marks, SCALARS_MARKS_REGION) == mark + 1);
        CHECK(scalars_return_to(region, SCALARS_REGION, marks, SCALARS_MARKS_REGION, mark) == SCALARS_DONE);
        CHECK(memcmp(before, region, sizeof region) == 0);
    }
    CHECK(is_less(x, constant(100)) == below);
    uint64_t answer = scalars_return_to(region, SCALARS_REGION, marks, SCALARS_MARKS_REGION, mark + 1);
    CHECK(scalars_refusal(answer) == SCALARS_REFUSAL_MARK);
    CHECK(scalars_is_marked(region, SCALARS_REGION, marks, SCALARS_MARKS_REGION) == 1);
    printf("after the return x < 100 is node %" PRIu64 " again, and mark %" PRIu64 " stands no more\n", below, mark + 1);
}

// What an operator gives on values, without a graph: 65535 + 1 is 0 in Bits(16), and nothing is divided by 0.
static void evaluate(void) {
    uint64_t value[SCALARS_VALUE_WORDS];
    CHECK(scalars_evaluate_binary(SCALARS_ADD, SCALARS_BITS, 16, 65535, 0, 1, 0, value, SCALARS_VALUE_WORDS) == 1);
    CHECK(value[0] == 0 && value[1] == 0);
    uint64_t divided = scalars_evaluate_binary(SCALARS_DIVIDE_UNSIGNED, SCALARS_BITS, 16, 1, 0, 0, 0, value, SCALARS_VALUE_WORDS);
    CHECK(divided == SCALARS_NONE);
    // -1 as a 128-bit number has two halves of ones.
    CHECK(scalars_evaluate_unary(SCALARS_NEGATE, 0, 1, 0, value, SCALARS_VALUE_WORDS) == 1);
    CHECK(value[0] == UINT64_MAX && value[1] == UINT64_MAX);
    printf("65535 + 1 in Bits(16) is 0, 1 / 0 is nothing\n");
}

// A refused call leaves every word as it was.
static void refuse(uint64_t x) {
    static uint64_t before[SCALARS_REGION];
    memcpy(before, region, sizeof region);
    uint64_t missing = region[0]; // ids are below the number of nodes
    uint64_t answer = scalars_binary(region, SCALARS_REGION, SCALARS_BITS, 16, SCALARS_ADD, x, missing);
    CHECK(!scalars_is_id(answer) && answer == SCALARS_REFUSED(SCALARS_REFUSAL_ID));
    CHECK(scalars_refusal(answer) == SCALARS_REFUSAL_ID && scalars_refusal(x) == 0);
    CHECK(scalars_refusal(SCALARS_NONE) == 0 && scalars_refusal(SCALARS_DONE) == 0);
    CHECK(memcmp(before, region, sizeof region) == 0);
    // A slice of the wrong length is no refusal, and has an answer of its own.
    CHECK(scalars_node(region, SCALARS_REGION, x, before, 1) == SCALARS_WRONG_LENGTH);
    CHECK(memcmp(before, region, sizeof region) == 0);
    printf("id %" PRIu64 " is refused with %d, and no word has changed\n", missing, scalars_refusal(answer));
}

// Marks the operands of kept nodes. They are below their node, so one pass downwards finds all.
static void keep_operands(uint8_t *keep) {
    for (uint64_t id = region[0]; id-- > 0;) {
        if (!keep[id]) continue;
        const uint64_t *node = region + scalars_node_start(id);
        const uint64_t *fields = node + SCALARS_WORD_FIELDS;
        uint64_t operation = node[SCALARS_WORD_OPERATION];
        if (operation == SCALARS_REFINE || operation >= SCALARS_SLICE) keep[fields[0]] = 1;
        if (operation == SCALARS_CONCAT || operation >= SCALARS_ADD) keep[fields[1]] = 1;
    }
}

// Keeps two nodes with what they are made of. Ids from before are then read through the mapping.
static void clean_up(uint64_t moved, uint64_t swapped, uint64_t below) {
    uint8_t keep[SCALARS_NODES] = {0};
    uint64_t mapping[SCALARS_NODES];
    uint64_t nodes = region[0];
    keep[moved] = keep[swapped] = 1;
    uint64_t left = scalars_retain(region, SCALARS_REGION, marks, SCALARS_MARKS_REGION, keep, nodes, mapping, nodes);
    CHECK(left == SCALARS_REFUSED(SCALARS_REFUSAL_KEEP) && marks[0] == 1);
    keep_operands(keep);
    left = scalars_retain(region, SCALARS_REGION, marks, SCALARS_MARKS_REGION, keep, nodes, mapping, nodes);
    CHECK(left == region[0] && left < nodes);
    CHECK(marks[0] == 0); // no mark stands after a retain
    CHECK(mapping[below] == SCALARS_NONE);
    CHECK(mapping[moved] < left && mapping[swapped] < left);
    CHECK(region[scalars_node_start(mapping[moved]) + SCALARS_WORD_OPERATION] == SCALARS_ADD);
    CHECK(region[scalars_node_start(mapping[swapped]) + SCALARS_WORD_OPERATION] == SCALARS_CONCAT);
    printf("%" PRIu64 " nodes, %" PRIu64 " after the clean-up; node %" PRIu64 " is now %" PRIu64 "\n", nodes, left, moved, mapping[moved]);
}

int main(void) {
    CHECK(scalars_is_graph(region, SCALARS_REGION) == 1);
    uint64_t x = reading(0), frame = reading(1);
    uint64_t moved = fold_sums(x);
    uint64_t below = narrow(x);
    match_guard(below, x);
    uint64_t swapped = swap_bytes(frame);
    check_frame(frame);
    branch(x);
    evaluate();
    refuse(x);
    clean_up(moved, swapped, below);
    CHECK(scalars_is_graph(region, SCALARS_REGION) == 1);
    return 0;
}
