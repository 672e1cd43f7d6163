// Runs one of the worst lists, by its number: `run` calls it under ever smaller stacks.
#include "lists.h"
#include <stdio.h>
#include <stdlib.h>

int main(int count, char **words) {
    size_t list = count == 2 ? (size_t)atoi(words[1]) : COUNT;
    if (list >= COUNT) return 2;
    word answer = LISTS[list]();
    if (answer == UNITS) printf("%s: refused, no units left\n", NAMES[list]);
    else printf("%s: id %d of %d nodes\n", NAMES[list], (int)answer, (int)region[0]);
    return 0;
}
