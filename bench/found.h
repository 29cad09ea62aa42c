/* Claim files from a folder: the days that were found to be slow stand in bench/found. */
#ifndef FOUND_H
#define FOUND_H

#include "contest.h"

enum { MOST_FOUND = 64 };

/* Reads a new claim file of the week layout, and its day as tables. Where it is none, says so and ends the program. */
void read_file(const char *path, struct file *file, struct day *tables);

/* Its name without the folders and the ending, as a text that the next call overwrites. */
const char *name_of(const char *path);

#endif
