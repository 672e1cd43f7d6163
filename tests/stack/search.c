// Searches for calls that need more stack: random small graphs, aliases set at random in them, and every builder on them.
// The stack below the caller is painted before a call, and what is no longer paint afterwards was used.
#include "lists.h"
#include <stdio.h>
#include <stdlib.h>

#define PAINTED (2u << 20)
#define PAINT 0xa5
#define STEP 64

static word seed;
static word before[REGION];
// An address as a number: the painted room is gone by the time that it is read.
static uintptr_t bottom;

static word next_random(void) {
    seed ^= seed << 13;
    seed ^= seed >> 7;
    seed ^= seed << 17;
    return seed;
}

static word below(word limit) { return next_random() % limit; }

__attribute__((noinline)) static void paint(void) {
    volatile unsigned char room[PAINTED];
    for (size_t i = 0; i < PAINTED; i += STEP) room[i] = PAINT;
    bottom = (uintptr_t)room;
}

__attribute__((noinline)) static size_t used(void) {
    const volatile unsigned char *room = (const volatile unsigned char *)bottom;
    size_t i = 0;
    while (i < PAINTED && room[i] == PAINT) i += STEP;
    return PAINTED - i;
}

static void grow(word width) {
    memset(region, 0, sizeof region);
    scalars_input(region, REGION, 0, BITS, width, 0, 0, 0, 0, 0);
    scalars_input(region, REGION, 1, BITS, width, 0, 0, 0, 0, 0);
    for (word calls = 8 + below(14); calls > 0; calls--) {
        word nodes = region[0];
        switch (below(5)) {
        case 0: scalars_constant(region, REGION, BITS, width, below(256), 0); break;
        case 1: scalars_slice(region, REGION, below(nodes), below(width), 1 + below(width)); break;
        case 2: scalars_concat(region, REGION, below(nodes), below(nodes), 1 + below(width - 1), width); break;
        default: scalars_binary(region, REGION, BITS, width, ADD + below(8), below(nodes), below(nodes));
        }
    }
}

// Aliases to any node: question 1 refuses many of them, and a cycle of nodes passes it.
static void set_aliases(void) {
    for (word aliases = 1 + below(3); aliases > 0; aliases--) {
        word nodes = region[0];
        word from = below(2) ? 0 : below(nodes);
        word last = nodes < 4 ? nodes : 4;
        word to = below(2) ? nodes - 1 - below(last) : below(nodes);
        region[1 + WORDS * from + ALIAS] = 1 + to;
    }
}

typedef struct {
    word kind, first, second, operator, offset, width, all;
} Call;

static Call any_call(word width) {
    word nodes = region[0];
    return (Call){below(6), below(nodes), below(nodes), below(8), below(2) * below(width), 1 + below(width), width};
}

static word perform(Call c) {
    switch (c.kind) {
    case 0: return scalars_binary(region, REGION, BITS, c.all, ADD + c.operator, c.first, c.second);
    case 1: return scalars_slice(region, REGION, c.first, c.offset, c.width);
    case 2: return scalars_unary(region, REGION, BITS, c.width, TRUNCATE, c.width, c.first);
    case 3: return scalars_concat(region, REGION, c.first, c.second, c.width, c.all < 2 * c.width ? 2 * c.width : c.all);
    default: return scalars_binary(region, REGION, BOOL, 0, EQUAL + c.kind - 4, c.first, c.second);
    }
}

static size_t measured(Call c) {
    memcpy(region, before, sizeof region);
    paint();
    perform(c);
    return used();
}

int main(int count, char **words) {
    if (count != 3) return 2;
    long rounds = atol(words[1]), spent = 0;
    seed = 88172645463325252ull ^ strtoull(words[2], 0, 10) * 0x9e3779b97f4a7c15ull;
    size_t worst = 0;
    for (long round = 0; round < rounds; round++) {
        word width = (word[]){8, 16, 64}[below(3)];
        grow(width);
        set_aliases();
        memcpy(before, region, sizeof region);
        for (int k = 0; k < 12; k++) {
            memcpy(region, before, sizeof region);
            Call call = any_call(width);
            int is_spent = perform(call) == UNITS;
            spent += is_spent;
            if (!is_spent && below(16)) continue;
            size_t bytes = measured(call);
            if (bytes > worst) worst = bytes;
        }
    }
    printf("%ld calls without units left, at most %zu bytes\n", spent, worst);
    return 0;
}
