/*
 * A small till for several counters under one oven: it settles their claim files together by the limits of a day, and prints which rows of
 * each counter are kept. c/example.c is the one for a single counter, and says how to read C.
 *
 *     gcc -O2 -Ic c/example_joined.c crates/till/out/libtill.a -o example_joined
 *     ./example_joined 9 0 samples/oven/counter_*.claims       an oven for 9 rows, on day 0: all counters have room
 *     ./example_joined 5 0 samples/oven/counter_*.claims       an oven for 5 rows
 *
 * The exit status is 0 where the files are settled, 1 where they are refused, 2 where one cannot be read and 3 where a word is wrong.
 */
#include <stdio.h>
#include "claims.h"
#include "words.h"

/*
 * The files stand end to end. There is room for one file more than the most, and in each for one byte more than the longest one has, so that
 * too many files and a file that is too long are seen.
 */
enum { MOST = CLAIMS_MOST_FILES + 1, LONGEST = CLAIMS_LONGEST_FILE + 1 };
static uint8_t files[MOST * LONGEST];
static uint32_t lengths[MOST];

/* The memory that is lent to the library, enough for all files that can be settled together. */
static uint8_t choice[CLAIMS_LONGEST_CHOICE];
static uint32_t sheet[CLAIMS_LONGEST_SHEET];
static uint32_t scratch[CLAIMS_LONGEST_SCRATCH];

/* The count that stands at a place, low byte first. */
static size_t count_at(const uint8_t *place) { return place[0] + 256u * place[1]; }

/* How many claims a good file has: their count comes after the two group sections, which have 16 bytes a group. */
static size_t claims_of(const uint8_t *file) {
    size_t shops = 2 + 16 * count_at(file);
    return count_at(file + shops + 2 + 16 * count_at(file + shops));
}

/* Prints what a counter keeps: `kept` is its part of the choice, one byte a row. */
static void print_counter(unsigned counter, size_t claims, const uint8_t *kept) {
    unsigned sum = 0;
    for (size_t row = 0; row < claims; row++) {
        printf("counter %u row %u is %s\n", counter, (unsigned)row, kept[row] == 1 ? "kept" : "turned down");
        sum += kept[row];
    }
    printf("counter %u keeps %u of %u rows\n", counter, sum, (unsigned)claims);
}

int main(int count, char **words) {
    /* The words after the program's own name are the oven limit, the day, and the names of the files. */
    uint32_t oven = 0, day = 0;
    if (count < 3 || !number_named(words[1], &oven) || oven > UINT16_MAX || !number_named(words[2], &day)) {
        fprintf(stderr, "the oven limit has to be one whole number, 0 to 65535, and the day one, 0 to 6: %s OVEN DAY FILE ...\n", words[0]);
        return 3;
    }

    unsigned counters = 0;
    size_t length = 0;
    for (; counters < MOST && 3 + counters < (unsigned)count; counters++) {
        if (!read_file(words[3 + counters], files + length, LONGEST, &lengths[counters]))
            return 2;
        length += lengths[counters];
    }

    /* The call: the files with their length, the list of lengths with its own, the oven limit, the day, and then the lent buffers. */
    struct claims_settle_joined_answer answer = claims_settle_joined(
        files, length,
        lengths, counters,
        (uint16_t)oven,
        day,
        choice, CLAIMS_LONGEST_CHOICE,
        sheet, CLAIMS_LONGEST_SHEET,
        scratch, CLAIMS_LONGEST_SCRATCH);

    /* Numbers 1 to 7 and 11 are faults of a file, and the answer has its place. */
    if (answer.refusal != 0) {
        printf("refused %u: %s\n", (unsigned)answer.refusal, meaning[answer.refusal]);
        if (answer.refusal < CLAIMS_SHORT || answer.refusal == CLAIMS_LIMIT_ABOVE)
            printf("the fault is in the file of counter %u\n", (unsigned)answer.file);
        return 1;
    }

    /* The files are good. In the choice the rows of each follow those of the file before it. */
    const uint8_t *file = files, *kept = choice;
    for (unsigned counter = 0; counter < counters; counter++) {
        print_counter(counter, claims_of(file), kept);
        kept += claims_of(file);
        file += lengths[counter];
    }
    printf("earned %u kept %u total %u\n", (unsigned)answer.earned, (unsigned)answer.kept, (unsigned)answer.total);
    return 0;
}
