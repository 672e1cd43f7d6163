// The calls of the scalar graph library (libexport.a, x86-64) for C11 and C++: its numbers, and each function with what it takes,
// refuses and answers. docs/CALLS.md has the same calls with what is proved of them.
#ifndef SCALARS_H
#define SCALARS_H

#include <stddef.h>
#include <stdint.h>

#ifdef __cplusplus
extern "C" {
#endif

// The graph
//
// A graph is a region of SCALARS_REGION words of 64 bits that the caller owns. Word 0 is the number of nodes, at most
// SCALARS_NODES. Ids count from 0 in the order in which nodes are added; the node with id n has the SCALARS_NODE_WORDS words from
// word scalars_node_start(n) on, numbered SCALARS_WORD_.. below. Unused words of a node and all words past the last node are 0.
// A region of zeros is the empty graph: nothing else is needed to make one, and nothing to give it back.
//
// A value is a pattern of 128 bits: a Bool is 0 or 1, Bits(w) is below 2^w with w at most SCALARS_WIDEST, an Integer is read as a
// signed number. Ranges read Bits as non-negative. A 128-bit number is two arguments or two words, the low half first and then
// the high half; a negative one is in two's complement. A type is two arguments, its code and its width (0 for Bool and Integer).
//
// The calls that make nodes fold what they can, and then answer the lowest node with the same type, range and operation, or add
// one: an answered id may be that of an older node, and one call may add several nodes. Operands are used as what their ids
// resolve to (scalars_resolve).
//
// Marks
//
// A mark remembers a graph, so that a translator can assume a guard, build one arm of a branch, return and build the other arm without
// the guard. Marks stand in a second region that the caller owns, of SCALARS_MARKS_REGION words. It is handed to the calls about
// marks and to scalars_retain, which drops all marks; the other calls neither read nor write it.
//
// Word 0 is the number of marks that stand, at most SCALARS_MARKS. They are numbered from 0 in the order in which they were set. Mark k
// has the SCALARS_MARK_WORDS words from word scalars_mark_start(k) on: the number of nodes at the mark, then for each of these nodes
// its word SCALARS_WORD_ALIAS as it was. All other words, those past the marks that stand and past a mark's nodes, are free: they
// may hold anything, and no call changes them but to set a mark. So a region whose word 0 is 0 has no mark; zeros are one.
//
// Answers
//
// Every call answers one number of 64 bits: an id (below SCALARS_NODES), SCALARS_DONE, SCALARS_NONE, a number that its comment
// names, or SCALARS_REFUSED(k): refused, since the answer to question k is no (SCALARS_REFUSAL_.. below). The questions that apply
// to a call are asked in the order of their numbers, 9 and 10 after 3 and 11 after 1, and the first no is answered; of 7 and 8 it is
// the one met first, and a list of guards asks 3, 4 and 7 of each guard at its turn. After a refusal every lent word is as it was
// before the call. SCALARS_NONE is no refusal: there is no such node or value, and nodes that were added on the way stay.
//
// A call that writes what it finds into a slice `out` answers 1. Where the slice has another length than what is to be written, the
// answer is SCALARS_WRONG_LENGTH, and nothing is written.
//
// What the caller must ensure
//
// A slice is a pointer and its length in elements. No call can test the following, and without it nothing is promised:
// - The pointer is not null, is aligned, and is valid for the whole length.
// - The slices lent to one call do not overlap one another.
// - While a call runs, no other thread uses a slice lent to it. (Others may read a const slice at the same time.)
// The calls keep nothing outside the lent words, so calls on separate slices may run in several threads at a time.
//
// Calls whose name ends in _in_graph
//
// Each call that takes the region, but for scalars_is_graph and scalars_is_marked, has a twin with this ending, which does not ask
// question 1 and so saves the time of reading the whole region. A twin requires a graph, and one that takes the marks' region too
// requires that both pass question 1 together (scalars_is_marked). It is for a caller who owns the regions and has changed them only by
// these calls, starting from zeros, and hands a graph's calls always the same marks' region; such regions always pass question 1.
// On any others nothing is promised of a twin, not even that it touches lent words alone: memory safety is at risk. The calls without
// this ending take regions and slices of any content and length.
//
// Stack
//
// No call was found that needs more than 448 KB: less than 445 bytes for each of its 1,024 units (a unit is one entry into a builder),
// and the call's own frames. This is measured and not proved; tests/stack/run measures it again, and runs the worst calls found with a
// stack of 512 KB.

// Sizes, in words but for SCALARS_NODES, SCALARS_MARKS, SCALARS_GUARDS and SCALARS_WIDEST.
enum {
    SCALARS_REGION = 6145,       // the region
    SCALARS_NODES = 512,         // the most nodes of a graph
    SCALARS_NODE_WORDS = 12,     // a node
    SCALARS_MARKS_REGION = 8209, // the marks' region
    SCALARS_MARKS = 16,          // the most marks that stand
    SCALARS_MARK_WORDS = 513,    // a mark: its number of nodes, and an alias word for each node that there can be
    SCALARS_GUARDS = 32,         // the most guards of a list
    SCALARS_VALUE_WORDS = 2,     // a value, low half first
    SCALARS_GUARD_WORDS = 5,     // what scalars_guard writes
    SCALARS_WIDEST = 128         // the widest Bits
};

// The words of a node. The ends of the range are signed 128-bit numbers.
enum {
    SCALARS_WORD_TYPE = 0,
    SCALARS_WORD_WIDTH = 1,     // of Bits, else 0
    SCALARS_WORD_RANGE = 2,     // 1 if there is a range, else 0
    SCALARS_WORD_MIN = 3,       // the least value of the range, low half
    SCALARS_WORD_MIN_HIGH = 4,
    SCALARS_WORD_MAX = 5,       // the greatest
    SCALARS_WORD_MAX_HIGH = 6,
    SCALARS_WORD_OPERATION = 7, // its code
    SCALARS_WORD_FIELDS = 8,    // the first of the operation's three fields
    SCALARS_WORD_ALIAS = 11     // 1 + the id of the node that stands for this one since a guard; 0 for none
};

// The codes of types.
enum {
    SCALARS_BOOL = 0,
    SCALARS_BITS = 1,
    SCALARS_INTEGER = 2
};

// The codes of the operations that are no operators. In brackets the fields, in their order.
enum {
    SCALARS_CONSTANT = 0, // [low half, high half]
    SCALARS_INPUT = 1,    // [its number]
    SCALARS_REFINE = 2,   // [id]: the same value with another range or type
    SCALARS_EFFECT = 3,   // [its number]
    SCALARS_SLICE = 4,    // [id, offset, width]
    SCALARS_CONCAT = 5    // [high id, low id, low width]
};

// The codes of unary operators [id, 0, parameter]. The parameter is a width from SCALARS_TRUNCATE on, and 0 before.
enum {
    SCALARS_BOOL_NOT = 10,      // Bool to Bool
    SCALARS_BIT_NOT = 11,       // Bits(w) to Bits(w)
    SCALARS_NEGATE = 12,        // Integer to Integer
    SCALARS_TRUNCATE = 13,      // any type to Bits(parameter)
    SCALARS_SIGN_EXTEND = 14,   // Bits(parameter) to Integer, or to Bits at least as wide
    SCALARS_LEADING_ZEROS = 15, // Bits(parameter) to Bits or Integer
    SCALARS_TRAILING_ZEROS = 16 // Bits(parameter) to Bits or Integer
};

// The codes of binary operators [left id, right id]. Both operands and the result have one type, Bits or Integer, except: And, Or and
// Xor also take Bool; the amount of a shift is any Bits or Integer; comparisons (Equal to LessEqualUnsigned) take two operands of
// one type, Bool too, and give a Bool. Signed comparisons, divisions and remainders read Bits below width 128 as non-negative;
// ArithmeticShiftRight copies the top bit of the width.
enum {
    SCALARS_ADD = 20,
    SCALARS_SUB = 21,
    SCALARS_MUL = 22,
    SCALARS_AND = 23,
    SCALARS_OR = 24,
    SCALARS_XOR = 25,
    SCALARS_SHIFT_LEFT = 26,
    SCALARS_SHIFT_RIGHT = 27,
    SCALARS_ARITHMETIC_SHIFT_RIGHT = 28,
    SCALARS_EQUAL = 29,
    SCALARS_NOT_EQUAL = 30,
    SCALARS_LESS_SIGNED = 31,
    SCALARS_LESS_UNSIGNED = 32,
    SCALARS_LESS_EQUAL_SIGNED = 33,
    SCALARS_LESS_EQUAL_UNSIGNED = 34,
    SCALARS_DIVIDE_SIGNED = 35,
    SCALARS_REMAINDER_SIGNED = 36,
    SCALARS_DIVIDE_UNSIGNED = 37,
    SCALARS_REMAINDER_UNSIGNED = 38
};

// The words that scalars_guard writes.
enum {
    SCALARS_GUARD_OPERATOR = 0,
    SCALARS_GUARD_LEFT = 1,
    SCALARS_GUARD_RIGHT = 2,
    SCALARS_GUARD_EXPECTED = 3, // 1 or 0
    SCALARS_GUARD_HOST64 = 4    // 1 if both operands' ranges lie in 0 to 2^64 - 1, else 0
};

// The refusals, by the number of the question whose answer is no.
enum {
    SCALARS_REFUSAL_GRAPH = 1,  // the region is no graph, or the marks' region does not go with it
    SCALARS_REFUSAL_WIDTH = 2,  // a width is above SCALARS_WIDEST
    SCALARS_REFUSAL_ID = 3,     // an id is not below the number of nodes
    SCALARS_REFUSAL_TYPING = 4, // a code or truth value names nothing, or the operator does not take these types
    SCALARS_REFUSAL_VALUE = 5,  // a Bool constant is above 1, or an input's range is empty or not inside its type
    SCALARS_REFUSAL_KEEP = 6,   // retain: a list has another length than the nodes, or an operand of a kept node is not kept
    SCALARS_REFUSAL_ROOM = 7,   // there would be more than SCALARS_NODES nodes
    SCALARS_REFUSAL_UNITS = 8,  // the call would need more than 1,024 units, which are entries into builders
    SCALARS_REFUSAL_MARKS = 9,  // SCALARS_MARKS marks stand
    SCALARS_REFUSAL_MARK = 10,  // the mark named does not stand
    SCALARS_REFUSAL_GUARDS = 11 // a list has more than SCALARS_GUARDS guards, or not one answer, 0 or 1, for each condition
};

// The answers that are no ids. No two answers of one call share a number.
#define SCALARS_DONE (UINT64_C(1) << 63)
#define SCALARS_WRONG_LENGTH ((UINT64_C(1) << 63) + 1)
#define SCALARS_NONE UINT64_MAX
#define SCALARS_REFUSED(k) (UINT64_MAX - (k))

// Is this answer of a call that answers ids one? 1 or 0. (scalars_retain answers a number of nodes, scalars_mark that of a mark.)
static inline int scalars_is_id(uint64_t answer) { return answer < SCALARS_NODES; }

// The number of the refusal that an answer is, SCALARS_REFUSAL_..; 0 if it is none.
static inline int scalars_refusal(uint64_t answer) {
    uint64_t number = UINT64_MAX - answer;
    return number <= SCALARS_REFUSAL_GUARDS ? (int)number : 0;
}

// The word of the region at which a node's words begin.
static inline size_t scalars_node_start(uint64_t id) { return (size_t)(1 + SCALARS_NODE_WORDS * id); }

// The word of the marks' region at which a mark's words begin.
static inline size_t scalars_mark_start(uint64_t mark) { return (size_t)(1 + SCALARS_MARK_WORDS * mark); }

// ---- Calls that change a graph
//
// g, g_length: the region and SCALARS_REGION. m, m_length: the marks' region and SCALARS_MARKS_REGION. code, width: a type. All may be
// refused 1; the comments name the other refusals.

// A constant of a type. Of a value for Bits the bits above the width are dropped. Refused 2, 4, 5, 7. Answers an id.
uint64_t scalars_constant(uint64_t *g, size_t g_length, uint64_t code, uint64_t width, uint64_t low, uint64_t high);

// An input, known by its number: a value of that type that the caller will have later. With a flag of 0 no range is given, and the
// range is the type's; with another flag the range is min to max, both included. Refused 2, 4, 5, 7. Answers an id.
uint64_t scalars_input(uint64_t *g, size_t g_length, uint64_t number, uint64_t code, uint64_t width, uint64_t flag,
                       uint64_t min_low, uint64_t min_high, uint64_t max_low, uint64_t max_high);

// The result of an effect, known by its number: any value of that type. Refused 2, 4, 7. Answers an id.
uint64_t scalars_effect(uint64_t *g, size_t g_length, uint64_t number, uint64_t code, uint64_t width);

// A unary operator on a node; code and width are the result's type. Refused 2, 3, 4, 7, 8. Answers an id, or SCALARS_NONE for a
// Negate of what may be -2^127 by its range.
uint64_t scalars_unary(uint64_t *g, size_t g_length, uint64_t code, uint64_t width, uint64_t op, uint64_t parameter, uint64_t id);

// A binary operator on two nodes; code and width are the result's type. Refused 2, 3, 4, 7, 8. Answers an id, or SCALARS_NONE: where
// the operator gives nothing on two constants (a division by 0), or where the type is Integer and the operands' ranges give none for
// the result (a sum that may be above 2^127 - 1; Or, Xor and shifts that do not fold).
uint64_t scalars_binary(uint64_t *g, size_t g_length, uint64_t code, uint64_t width, uint64_t op, uint64_t left, uint64_t right);

// Bits(width) from a node of any type: its bits from offset on, zeros past its last one. Refused 2, 3, 7, 8. Answers an id.
uint64_t scalars_slice(uint64_t *g, size_t g_length, uint64_t id, uint64_t offset, uint64_t width);

// Bits(width) of two nodes: high, exactly Bits(width - low_width), above low, exactly Bits(low_width). Refused 2, 3, 4, 7, 8.
// Answers an id.
uint64_t scalars_concat(uint64_t *g, size_t g_length, uint64_t high, uint64_t low, uint64_t low_width, uint64_t width);

// The Bool that says whether a node's value lies in low to high, both included, as unsigned numbers. Refused 3, 7, 8. Answers an id;
// SCALARS_NONE if the node is not Bits, is wider than 64, low is above high, or high does not fit the width.
uint64_t scalars_unsigned_range(uint64_t *g, size_t g_length, uint64_t id, uint64_t low_low, uint64_t low_high,
                                uint64_t high_low, uint64_t high_high);

// From here on the condition, a Bool node, has the value expected (0 or 1). Ranges of the nodes that its comparison says something of
// are narrowed: such a node gets an alias, a Refine with the narrower range, and later builders use that. It stays so until a
// retain, or a return to a mark that was set before. Refused 3, 4, 7. Answers SCALARS_DONE, whether or not a range was narrowed.
uint64_t scalars_assume_guard(uint64_t *g, size_t g_length, uint64_t condition, uint64_t expected);

// A list of up to SCALARS_GUARDS guards: the conditions in their order, each with what is expected of it, its element of answers.
// Each is taken as scalars_assume_guard takes it, on the graph that the one before left. Where one is refused, its refusal is
// answered, and nothing is left of those before it. Refused 11; then, of each guard at its turn, 3, 4, 7. Answers SCALARS_DONE once
// for all; an empty list changes nothing.
uint64_t scalars_assume_guards(uint64_t *g, size_t g_length, const uint64_t *conditions, size_t conditions_length,
                               const uint64_t *answers, size_t answers_length);

// Keeps the nodes whose element of keep is 1, in their order, drops those whose element is 0, and drops all aliases. Both lists have
// one element for each node. Into mapping goes each node's new id, SCALARS_NONE for a dropped one: ids that the caller holds are
// to be replaced by it. No mark stands then, also where every node is kept. Refused 6. Answers the number of nodes left, up to
// SCALARS_NODES.
uint64_t scalars_retain(uint64_t *g, size_t g_length, uint64_t *m, size_t m_length, const uint8_t *keep, size_t keep_length,
                        uint64_t *mapping, size_t mapping_length);

// Sets a mark: the number of nodes and their aliases go into the marks' region, and the graph is as it was. Refused 9. Answers the
// mark's number, which is the number of marks that stood before it, 0 to SCALARS_MARKS - 1.
uint64_t scalars_mark(const uint64_t *g, size_t g_length, uint64_t *m, size_t m_length);

// Returns to a mark that stands: the nodes added since are gone, with their ids, and those from before have the aliases that they had.
// What guards and declarations since the mark told is no longer taken for true. The mark stays, so it can be returned to again;
// later ones are dropped. Refused 10. Answers SCALARS_DONE.
uint64_t scalars_return_to(uint64_t *g, size_t g_length, uint64_t *m, size_t m_length, uint64_t mark);

// ---- Twins of the calls that change a graph: they require a graph
//
// Each takes and answers what the call without _in_graph does, but question 1 is not asked. "Calls whose name ends in _in_graph" at
// the top says which regions they may be given; on any other, memory safety is at risk.

// As scalars_constant. Refused 2, 4, 5, 7.
uint64_t scalars_constant_in_graph(uint64_t *g, size_t g_length, uint64_t code, uint64_t width, uint64_t low, uint64_t high);

// As scalars_input. Refused 2, 4, 5, 7.
uint64_t scalars_input_in_graph(uint64_t *g, size_t g_length, uint64_t number, uint64_t code, uint64_t width, uint64_t flag,
                                uint64_t min_low, uint64_t min_high, uint64_t max_low, uint64_t max_high);

// As scalars_effect. Refused 2, 4, 7.
uint64_t scalars_effect_in_graph(uint64_t *g, size_t g_length, uint64_t number, uint64_t code, uint64_t width);

// As scalars_unary. Refused 2, 3, 4, 7, 8.
uint64_t scalars_unary_in_graph(uint64_t *g, size_t g_length, uint64_t code, uint64_t width, uint64_t op, uint64_t parameter, uint64_t id);

// As scalars_binary. Refused 2, 3, 4, 7, 8.
uint64_t scalars_binary_in_graph(uint64_t *g, size_t g_length, uint64_t code, uint64_t width, uint64_t op, uint64_t left, uint64_t right);

// As scalars_slice. Refused 2, 3, 7, 8.
uint64_t scalars_slice_in_graph(uint64_t *g, size_t g_length, uint64_t id, uint64_t offset, uint64_t width);

// As scalars_concat. Refused 2, 3, 4, 7, 8.
uint64_t scalars_concat_in_graph(uint64_t *g, size_t g_length, uint64_t high, uint64_t low, uint64_t low_width, uint64_t width);

// As scalars_unsigned_range. Refused 3, 7, 8.
uint64_t scalars_unsigned_range_in_graph(uint64_t *g, size_t g_length, uint64_t id, uint64_t low_low, uint64_t low_high,
                                         uint64_t high_low, uint64_t high_high);

// As scalars_assume_guard. Refused 3, 4, 7.
uint64_t scalars_assume_guard_in_graph(uint64_t *g, size_t g_length, uint64_t condition, uint64_t expected);

// As scalars_assume_guards. Refused 11, 3, 4, 7: its lists may have any content and length.
uint64_t scalars_assume_guards_in_graph(uint64_t *g, size_t g_length, const uint64_t *conditions, size_t conditions_length,
                                        const uint64_t *answers, size_t answers_length);

// As scalars_retain. Refused 6: its lists may have any content and length.
uint64_t scalars_retain_in_graph(uint64_t *g, size_t g_length, uint64_t *m, size_t m_length, const uint8_t *keep, size_t keep_length,
                                 uint64_t *mapping, size_t mapping_length);

// As scalars_mark. Refused 9.
uint64_t scalars_mark_in_graph(const uint64_t *g, size_t g_length, uint64_t *m, size_t m_length);

// As scalars_return_to. Refused 10.
uint64_t scalars_return_to_in_graph(uint64_t *g, size_t g_length, uint64_t *m, size_t m_length, uint64_t mark);

// ---- Calls that read
//
// The region is not changed. All but scalars_is_graph and scalars_is_marked may be refused 1; the comments name the other refusals.

// Question 1: is the region a graph? It asks for the length, the layout, at most SCALARS_NODES nodes, widths at most SCALARS_WIDEST,
// slice offsets at most 127, operands below their node, aliases above their node and below the number of nodes, and ranges that
// are not empty and inside their type. Answers 1 or 0.
uint64_t scalars_is_graph(const uint64_t *g, size_t g_length);

// Question 1 of a graph with its marks, which the calls that take both regions ask: is the region a graph, has the marks' region its
// length, do at most SCALARS_MARKS marks stand, has no mark more nodes than the next one or, the last, than the graph, and is each
// alias word of a mark 0 or that of a node above its own and below the mark's number of nodes? Answers 1 or 0.
uint64_t scalars_is_marked(const uint64_t *g, size_t g_length, const uint64_t *m, size_t m_length);

// The value of a constant, into a slice of SCALARS_VALUE_WORDS. The node itself is read, not what it resolves to. Refused 3. Answers 1,
// or SCALARS_NONE if the node is no constant.
uint64_t scalars_literal(const uint64_t *g, size_t g_length, uint64_t id, uint64_t *out, size_t out_length);

// The node that stands for a node now: the end of its aliases, itself if it has none. Refused 3. Answers an id.
uint64_t scalars_resolve(const uint64_t *g, size_t g_length, uint64_t id);

// The words of a node, into a slice of SCALARS_NODE_WORDS. Refused 3. Answers 1.
uint64_t scalars_node(const uint64_t *g, size_t g_length, uint64_t id, uint64_t *out, size_t out_length);

// The comparison that decides whether a condition, a Bool node, has the value expected (0 or 1), into a slice of SCALARS_GUARD_WORDS.
// BoolNots before the comparison are taken off, each turning what is expected. The operands are given as they are stored, not
// resolved. With host64 a signed operator is given as the unsigned one. Refused 3, 4. Answers 1, or SCALARS_NONE if there is no
// comparison behind the BoolNots.
uint64_t scalars_guard(const uint64_t *g, size_t g_length, uint64_t condition, uint64_t expected,
                       uint64_t *out, size_t out_length);

// ---- Twins of the calls that read: they require a graph
//
// As for the twins above: on a region that is no graph, memory safety is at risk.

// As scalars_literal. Refused 3.
uint64_t scalars_literal_in_graph(const uint64_t *g, size_t g_length, uint64_t id, uint64_t *out, size_t out_length);

// As scalars_resolve. Refused 3.
uint64_t scalars_resolve_in_graph(const uint64_t *g, size_t g_length, uint64_t id);

// As scalars_node. Refused 3.
uint64_t scalars_node_in_graph(const uint64_t *g, size_t g_length, uint64_t id, uint64_t *out, size_t out_length);

// As scalars_guard. Refused 3, 4.
uint64_t scalars_guard_in_graph(const uint64_t *g, size_t g_length, uint64_t condition, uint64_t expected,
                                uint64_t *out, size_t out_length);

// ---- Calls that take no region

// Do two values match a guard by scalars_guard: does the comparison of them give what is expected? With a host64 of 1 the low halves
// alone are looked at. Refused 4 if a number names nothing, the operator is no comparison, or it is a signed one with host64.
// Answers 1 or 0.
uint64_t scalars_matches(uint64_t op, uint64_t expected, uint64_t host64, uint64_t left_low, uint64_t left_high,
                         uint64_t right_low, uint64_t right_high);

// What a unary operator gives on a value, into a slice of SCALARS_VALUE_WORDS. It is the whole pattern of 128 bits: BitNot and
// SignExtend do not drop bits above a width. Refused 2, 4. Answers 1, or SCALARS_NONE where the operator gives nothing.
uint64_t scalars_evaluate_unary(uint64_t op, uint64_t parameter, uint64_t low, uint64_t high, uint64_t *out, size_t out_length);

// What a binary operator gives on two values in a node of that type, into a slice of SCALARS_VALUE_WORDS. Refused 2, 4. Answers 1, or
// SCALARS_NONE where the operator gives nothing.
uint64_t scalars_evaluate_binary(uint64_t op, uint64_t code, uint64_t width, uint64_t left_low, uint64_t left_high,
                                 uint64_t right_low, uint64_t right_high, uint64_t *out, size_t out_length);

// The largest number of that many bits, into a slice of SCALARS_VALUE_WORDS. Refused 2. Answers 1.
uint64_t scalars_mask(uint64_t width, uint64_t *out, size_t out_length);

#ifdef __cplusplus
}
#endif

#endif
