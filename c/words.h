/*
 * What the examples and accept.c share: what each refusal means, the number that a word names, and for the examples how the day and a file are
 * read. c/example.c says how to read C.
 */
#ifndef WORDS_H
#define WORDS_H

#include <stdbool.h>
#include <stdio.h>
#include "claims.h"

/* What each refusal means, by its number: the words of README's table. */
static const char *const meaning[] = {
    [CLAIMS_CUT_OFF] = "the file ends before or inside a count or record that is due",
    [CLAIMS_GROUP_COUNT] = "a group count is over 256",
    [CLAIMS_PARENT] = "a parent is neither smaller than the group's own number nor 65535",
    [CLAIMS_CLAIM_COUNT] = "the claim count is over 512",
    [CLAIMS_NO_SUCH_GROUP] = "a claim names a group that its section lacks",
    [CLAIMS_KIND] = "a kind is neither 0 nor 1",
    [CLAIMS_TRAILING] = "bytes follow the last claim",
    [CLAIMS_SHORT] = "a lent buffer or selection is shorter than needed",
    [CLAIMS_VALUE] = "a selection byte is over 1, a side is over 1, a row is not below N, or the side lacks the group",
    [CLAIMS_SELECTED] = "the row is already in the selection",
    [CLAIMS_LIMIT_ABOVE] = "a group's limit is above its parent's on any of the seven days",
    [CLAIMS_DAY] = "the day is over 6",
    [CLAIMS_UNFIT] = "the choice does not fit",
    [CLAIMS_UNCOVERED] = "a claim is not covered",
    [CLAIMS_UNEQUAL] = "the totals differ",
    [CLAIMS_FILES] = "no file, more than eight, or lengths that do not add up to the buffer's",
    [CLAIMS_LARGE] = "the joined file would pass 256 groups on a side or 512 claims",
    [CLAIMS_INSIDE] = "putting in a row that is in",
    [CLAIMS_OUTSIDE] = "taking out a row that is not in",
    [CLAIMS_FULL] = "putting in a row that would pass a limit",
};

/*
 * Reads a number from a word: digits alone, and no more than a number of 32 bits holds. Says whether the word is such a number; whether
 * there is such a day, or such a row, is judged by the library.
 */
static inline bool number_named(const char *word, uint32_t *named) {
    uint64_t number = 0;
    for (size_t at = 0; word[at] != '\0'; at++) {
        if (word[at] < '0' || word[at] > '9')
            return false;
        number = 10 * number + (uint64_t)(word[at] - '0');
        if (number > UINT32_MAX)
            return false;
    }
    *named = (uint32_t)number;
    return word[0] != '\0';
}

/* Reads a named file to a place, at most as many bytes as there is room for. Says whether it could be read; else it prints why not. */
static inline bool read_file(const char *name, uint8_t *place, size_t room, uint32_t *length) {
    FILE *in = fopen(name, "rb");
    bool read = in != NULL;
    if (read) {
        *length = (uint32_t)fread(place, 1, room, in);
        read = !ferror(in);
    }
    if (!read)
        perror(name);
    if (in != NULL)
        fclose(in);
    return read;
}

/*
 * Reads what an example is given: the day from the word after the program's own name, 0 where there is none, and the claim file from the
 * standard input, at most as many bytes as there is room for. Answers 0, or says what is wrong and answers the exit status: 2 where the
 * file cannot be read, 3 where the day is no number.
 */
static inline int read_given(int count, char **words, uint32_t *day, uint8_t *file, size_t room, size_t *length) {
    *day = 0;
    if (count > 2 || (count == 2 && !number_named(words[1], day))) {
        fprintf(stderr, "the day has to be one whole number, 0 to 6: %s [DAY] < FILE\n", words[0]);
        return 3;
    }
    *length = fread(file, 1, room, stdin);
    if (ferror(stdin)) {
        perror("the claim file");
        return 2;
    }
    return 0;
}

#endif
