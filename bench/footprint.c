/* The table of the deepest stack of each call. The sorts of a call are one line, with the deepest of them. */
#include <stdio.h>
#include "stack.h"

static unsigned greater(unsigned a, unsigned b) { return a < b ? b : a; }

int main(void) {
    printf("%-34s %8s %8s %8s\n", "deepest stack, bytes", "chains", "days", "at most");
    for (unsigned k = 0; k < call_count;) {
        const char *name = calls[k].name;
        struct depths most = {0};
        for (unsigned first = k; k < call_count && calls[k].make == calls[first].make; k++) {
            struct depths d = stack_of(&calls[k]);
            most.on_chains = greater(most.on_chains, d.on_chains);
            most.on_days = greater(most.on_days, d.on_days);
        }
        printf("%-34s %8u %8u %8u\n", name, most.on_chains, most.on_days, MOST_STACK);
    }
    return 0;
}
