/*
 * The deepest stack of a call: it runs on a stack of its own, painted before, and what is no longer paint was used. What the C function
 * takes that makes the call is in it.
 */
#define _GNU_SOURCE
#include <string.h>
#include <ucontext.h>
#include "stack.h"

enum { STACK = 1 << 17, PAINT = 0xa5 };

static uint8_t stack[STACK];
static ucontext_t home, away;

/* What is made next on the painted stack: the call, the day and the selection. */
static const struct call *made;
static struct file day;
static uint8_t selection[MOST_ROWS];

static void make(void) { made->make(made->by, &day, selection); }

static void make_on_paint(void) {
    getcontext(&away);
    away.uc_stack.ss_sp = stack;
    away.uc_stack.ss_size = STACK;
    away.uc_link = &home;
    makecontext(&away, make, 0);
    swapcontext(&home, &away);
}

/* In the layout that the call takes, with no row selected, with the rows that settle keeps, and with all rows. */
static void make_on_day(const struct day *d) {
    static struct outcome kept;
    unsigned layout = made->by == NULL ? WEEK : made->by->layout;
    write_day(d, layout, &day);
    ours_keep(layout, &day, &kept);
    memset(selection, 0, sizeof selection);
    make_on_paint();
    memcpy(selection, kept.choice, sizeof selection);
    make_on_paint();
    memset(selection, 1, sizeof selection);
    make_on_paint();
}

/*
 * Limits under which every row fits, half of the rows, and none. Then the same with every limit but the first the largest there is: the
 * calls for stored files lower them through the whole chain, and those for new files refuse it.
 */
static void make_on_chains(void) {
    static const unsigned limits[] = {TOP, MOST_ROWS / 2, 0};
    for (unsigned k = 0; k < sizeof limits / sizeof *limits; k++) {
        struct day d = chain_day(limits[k]), high = chain_day(TOP);
        for (unsigned side = 0; side < 2; side++) high.limit[side][0] = d.limit[side][0];
        make_on_day(&d);
        make_on_day(&high);
    }
}

static void make_on_days(void) {
    for (unsigned family = 0; family < FAMILIES; family++)
        for (unsigned number = 0; number < DAYS; number++) {
            struct day d = tables_of(family, MOST_ROWS, number);
            make_on_day(&d);
        }
}

/* How many bytes of the painted stack a call used. */
static unsigned depth_of(const struct call *call, void (*on)(void)) {
    unsigned untouched = 0;
    memset(stack, PAINT, STACK);
    made = call;
    on();
    while (untouched < STACK && stack[untouched] == PAINT) untouched++;
    return STACK - untouched;
}

static void make_nothing(const struct sort *by, const struct file *file, const uint8_t *selected) {
    (void)by;
    (void)file;
    (void)selected;
}

/* What the change of stacks takes by itself is not counted. */
struct depths stack_of(const struct call *call) {
    static const struct call nothing = {"nothing", make_nothing, NULL};
    unsigned base = depth_of(&nothing, make_on_paint);
    return (struct depths){depth_of(call, make_on_chains) - base, depth_of(call, make_on_days) - base};
}
