/* The deepest stack of each call of the library. */
#ifndef STACK_H
#define STACK_H

#include "ours.h"

/* How many bytes of the stack a call may take on any day. Every call is held to it. */
enum { MOST_STACK = 6144 };

/* How many bytes a call took at the most: on chains of the most groups with all rows at their end, and on the full-size days of days.h. */
struct depths {
    unsigned on_chains, on_days;
};
struct depths stack_of(const struct call *call);

#endif
