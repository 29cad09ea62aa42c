/*
 * A small till of the second terms: it settles one claim file with four kinds of claims by the limits of a day, and prints which rows are
 * kept and how many of each kind. c/example.c is the one of the first terms, and says how to read C.
 *
 *     gcc -O2 -Ic c/example_kinds.c crates/till_kinds/out/libtill_kinds.a -o example_kinds
 *     ./example_kinds < samples/kinds/four.claims         settles it for day 0
 *     ./example_kinds 6 < samples/kinds/four.claims       settles it for day 6
 *
 * The exit status is 0 where the file is settled, 1 where it is refused, 2 where there is none to read and 3 where the day is no number.
 */
#include <inttypes.h>
#include <stdio.h>
#include "claims.h"
#include "words.h"

/*
 * The memory that is lent to the library, enough for every file there can be. The numbers of the sheet and of the scratch have 64 bits
 * here. The file has one byte more than the longest one, so that a file that is too long is seen.
 */
static uint8_t file[CLAIMS_LONGEST_FILE + 1];
static uint8_t choice[CLAIMS_LONGEST_CHOICE];
static uint64_t sheet[CLAIMS_LONGEST_SHEET];
static uint64_t scratch[CLAIMS_LONGEST_SCRATCH];

/* The count that stands at a place of the file, low byte first. */
static size_t count_at(size_t place) { return file[place] + 256u * file[place + 1]; }

int main(int count, char **words) {
    /* The word after the program's own name is the day; where there is none, it is day 0. The file comes by standard input. */
    uint32_t day;
    size_t length;
    int status = read_given(count, words, &day, file, sizeof file, &length);
    if (status != 0)
        return status;

    /* The call: the file with its length, the day, and then each lent buffer with its length. */
    struct claims_settle_kinds_answer answer = claims_settle_kinds(
        file, length,
        day,
        choice, CLAIMS_LONGEST_CHOICE,
        sheet, CLAIMS_LONGEST_SHEET,
        scratch, CLAIMS_LONGEST_SCRATCH);

    /* Refusal 6 has another meaning than under the first terms. */
    if (answer.refusal != 0) {
        const char *why = answer.refusal == CLAIMS_KIND ? "a kind is over 3" : meaning[answer.refusal];
        printf("refused %u: %s\n", (unsigned)answer.refusal, why);
        return 1;
    }

    /*
     * The file is good: a count and as many records of 16 bytes for the card groups, the same for the shop groups, and then the claims,
     * with 5 bytes each. The last byte of a claim is its kind. The choice holds 1 for each kept row.
     */
    size_t cards = count_at(0), shops = count_at(2 + 16 * cards), claims = 4 + 16 * (cards + shops);
    for (size_t row = 0; row < count_at(claims); row++)
        printf("row %u of kind %u is %s\n", (unsigned)row, file[claims + 6 + 5 * row], choice[row] == 1 ? "kept" : "turned down");

    printf("kind 3: %u kept\n", (unsigned)answer.kind3);
    printf("kind 2: %u kept\n", (unsigned)answer.kind2);
    printf("kind 1: %u kept\n", (unsigned)answer.kind1);
    printf("kind 0: %u kept\n", (unsigned)answer.kind0);
    printf("kept %u total %" PRIu64 "\n", (unsigned)answer.kept, answer.total);
    return 0;
}
