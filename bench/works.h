/*
 * What the library does beside settling, and plain C for the same: reading a file, fits and rank, and accept. It is measured on the
 * full-size days of the families in the mean. Under the second terms nothing is measured and nothing printed.
 */
#ifndef WORKS_H
#define WORKS_H

void measure_works(void);

/* The means, and the targets for them. */
void print_works(void);
void print_work_targets(void);

#endif
