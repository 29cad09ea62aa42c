/*
 * A small till: it settles one claim file, a new one in the week layout, by the limits of a day, and prints which rows are kept and, where
 * an earned row is turned down, which limits to raise.
 *
 *     gcc -O2 -Ic c/example.c crates/till/out/libtill.a -o example
 *     ./example < samples/week.claims         settles it for day 0
 *     ./example 5 < samples/week.claims       settles it for day 5
 *
 * How to read it. What stands between these marks is a comment. `#include` brings in the names that another file declares: claims.h has
 * the library's, and words.h has what each refusal means and how the day and the file are read. The program begins at `main` and goes from
 * line to line; `if` and `for` say which lines, and how often. `x[n]` is a list of n cells where it is declared, and cell n of it, counted
 * from 0, elsewhere. `printf` prints a text; each %u in it stands for a number and each %s for a word.
 *
 * The exit status is 0 where the file is settled, 1 where it is refused, 2 where there is none to read and 3 where the day is no number.
 */
#include <stdio.h>
#include "claims.h"
#include "words.h"

/*
 * The memory that is lent to the library, enough for every file there can be. It is set aside before the program begins and holds zeros
 * then. The file has one byte more than the longest one, so that a file that is too long is seen.
 */
static uint8_t file[CLAIMS_LONGEST_FILE + 1];
static uint8_t choice[CLAIMS_LONGEST_CHOICE];
static uint8_t codes[CLAIMS_LONGEST_CODES];
static uint32_t sheet[CLAIMS_LONGEST_SHEET];
static uint32_t scratch[CLAIMS_LONGEST_SCRATCH];

/* What is said of a row that is turned down, by its code. */
static const char *const turned_down[] = {
    [CLAIMS_CODE_ORDINARY] = "turned down",
    [CLAIMS_CODE_SHOP] = "turned down: raise a shop limit",
    [CLAIMS_CODE_CARD] = "turned down: raise a card limit",
    [CLAIMS_CODE_REST] = "turned down: raise a shop limit and a card limit",
};

int main(int count, char **words) {
    /* This program was written for one version of the library, and may be linked with another. */
    if (claims_version() != CLAIMS_VERSION) {
        fprintf(stderr, "the library has version %u, and this program needs %u\n", (unsigned)claims_version(), CLAIMS_VERSION);
        return 2;
    }

    /* The word after the program's own name is the day; where there is none, it is day 0. The file comes by standard input. */
    uint32_t day;
    size_t length;
    int status = read_given(count, words, &day, file, sizeof file, &length);
    if (status != 0)
        return status;

    /* The call: the file with its length, the day, and then each lent buffer with its length. */
    struct claims_settle_answer answer = claims_settle(
        file, length,
        day,
        choice, CLAIMS_LONGEST_CHOICE,
        sheet, CLAIMS_LONGEST_SHEET,
        scratch, CLAIMS_LONGEST_SCRATCH);

    if (answer.refusal != 0) {
        printf("refused %u: %s\n", (unsigned)answer.refusal, meaning[answer.refusal]);
        return 1;
    }

    /*
     * The codes of the rows on the same day. The file, the day and the memory are good, so that this call is not turned away; its answer
     * has the number of rows.
     */
    struct claims_write_codes_answer written = claims_write_codes(
        file, length,
        day,
        codes, CLAIMS_LONGEST_CODES,
        scratch, CLAIMS_LONGEST_SCRATCH);

    /* The choice holds 1 for each kept row. The code of a row says which line is printed where it is turned down. */
    for (unsigned row = 0; row < written.length; row++)
        printf("row %u is %s\n", row, choice[row] == 1 ? "kept" : turned_down[codes[row]]);
    printf("earned %u kept %u total %u\n", (unsigned)answer.earned, (unsigned)answer.kept, (unsigned)answer.total);
    return 0;
}
