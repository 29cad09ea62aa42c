/* Claim files from a folder. */
#include "found.h"

#include <stdio.h>
#include <stdlib.h>
#include <string.h>

/* The buffer has one byte more than the longest file, so that a longer one is refused. */
void read_file(const char *path, struct file *file, struct day *tables) {
    FILE *from = fopen(path, "rb");
    if (from != NULL) {
        file->length = fread(file->bytes, 1, sizeof file->bytes, from);
        fclose(from);
    }
    if (from == NULL || read_day(file->bytes, file->length, week_file, tables) != 0) {
        fprintf(stderr, "%s: no new claim file of the week layout\n", path);
        exit(2);
    }
}

const char *name_of(const char *path) {
    static char name[64];
    const char *slash = strrchr(path, '/');
    snprintf(name, sizeof name, "%s", slash == NULL ? path : slash + 1);
    name[strcspn(name, ".")] = 0;
    return name;
}
