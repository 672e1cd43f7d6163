// Links every function that include/scalars.h declares, and writes their names, one a line; tests/c/run compares these with the source.
// The argument is how many functions the source exports: another number of functions here is an error.
#include "scalars.h"
#include <stdio.h>
#include <stdlib.h>

// Any function; a table has one type.
typedef void (*function)(void);

#define ENTRY(name) {#name, (function)name}
#define WITH_TWIN(name) ENTRY(name), ENTRY(name##_in_graph)

static const struct {
    const char *name;
    function address;
} FUNCTIONS[] = {
    WITH_TWIN(scalars_constant),
    WITH_TWIN(scalars_input),
    WITH_TWIN(scalars_effect),
    WITH_TWIN(scalars_unary),
    WITH_TWIN(scalars_binary),
    WITH_TWIN(scalars_slice),
    WITH_TWIN(scalars_concat),
    WITH_TWIN(scalars_unsigned_range),
    WITH_TWIN(scalars_assume_guard),
    WITH_TWIN(scalars_assume_guards),
    WITH_TWIN(scalars_retain),
    WITH_TWIN(scalars_mark),
    WITH_TWIN(scalars_return_to),
    WITH_TWIN(scalars_literal),
    WITH_TWIN(scalars_resolve),
    WITH_TWIN(scalars_node),
    WITH_TWIN(scalars_guard),
    ENTRY(scalars_is_graph),
    ENTRY(scalars_is_marked),
    ENTRY(scalars_matches),
    ENTRY(scalars_evaluate_unary),
    ENTRY(scalars_evaluate_binary),
    ENTRY(scalars_mask),
};

int main(int count, char **words) {
    size_t functions = sizeof FUNCTIONS / sizeof *FUNCTIONS;
    if (count != 2 || strtoul(words[1], NULL, 10) != functions) {
        fprintf(stderr, "header.c has %zu functions, the source exports %s\n", functions, count == 2 ? words[1] : "(argument missing)");
        return 1;
    }
    for (size_t k = 0; k < functions; k++) {
        if (!FUNCTIONS[k].address) return 1;
        puts(FUNCTIONS[k].name);
    }
    return 0;
}
