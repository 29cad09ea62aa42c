/*
 * A small till during one day: claims come in and are withdrawn, and its screen shows the count of each group beside the limit. At the end
 * the day is settled. c/example.c says how to read C.
 *
 *     gcc -O2 -Ic c/example_tally.c crates/till/out/libtill.a -o example_tally
 *     ./example_tally samples/week.claims 0 < samples/tally/claims.lines       on day 0; each line is `in` or `out` and a row
 *
 * The exit status is 0 where the day is settled, 1 where the file is refused, 2 where it cannot be read and 3 where a word is wrong.
 */
#include <stdio.h>
#include <string.h>
#include "claims.h"
#include "words.h"

static uint8_t file[CLAIMS_LONGEST_FILE + 1];
static struct claims_tally tally;

/* The memory that settling is lent at the end of the day. */
static uint8_t choice[CLAIMS_LONGEST_CHOICE];
static uint32_t sheet[CLAIMS_LONGEST_SHEET], scratch[CLAIMS_LONGEST_SCRATCH];

/* A line of the screen: the count of each group of a side, and its limit. */
static void print_side(const char *name, uint32_t side, uint64_t groups, const uint16_t *limits) {
    printf("    %s", name);
    for (uint32_t group = 0; group < groups; group++)
        printf("  %u of %u", (unsigned)claims_tally_count(&tally, side, group).count, (unsigned)limits[group]);
    printf("\n");
}

/* The refusal, where there is one, and the screen. The limits of the shop groups follow those of the card groups. */
static void print_screen(uint32_t refusal) {
    if (refusal != 0)
        printf("refused %u: %s\n", (unsigned)refusal, meaning[refusal]);
    print_side("card groups:", CLAIMS_CARD, tally.cards, tally.limits);
    print_side("shop groups:", CLAIMS_SHOP, tally.shops, tally.limits + tally.cards);
}

int main(int count, char **words) {
    uint32_t day = 0, row = 0, length = 0;
    if (count != 3 || !number_named(words[2], &day)) {
        fprintf(stderr, "the day has to be one whole number, 0 to 6: %s FILE DAY < LINES\n", words[0]);
        return 3;
    }
    if (!read_file(words[1], file, sizeof file, &length))
        return 2;
    uint32_t refusal = claims_tally_begin(file, length, day, &tally);
    print_screen(refusal);
    if (refusal != 0)
        return 1;

    char line[32], way[5], number[12], more;
    while (fgets(line, sizeof line, stdin) != NULL) {
        int found = sscanf(line, "%4s %11s %c", way, number, &more);
        if (found != 2 || (strcmp(way, "in") != 0 && strcmp(way, "out") != 0) || !number_named(number, &row)) {
            fprintf(stderr, "a line has to be `in` or `out` and a row, and not %s\n", line);
            return 3;
        }
        printf("%s row %u\n", way, (unsigned)row);
        print_screen(way[0] == 'i' ? claims_tally_put_in(&tally, row) : claims_tally_take_out(&tally, row));
    }

    /* The file and the day are good, so that settling is not refused. It weighs all claims of the file, in whichever order they came. */
    struct claims_settle_answer answer = claims_settle(
        file, length, day, choice, CLAIMS_LONGEST_CHOICE, sheet, CLAIMS_LONGEST_SHEET, scratch, CLAIMS_LONGEST_SCRATCH);
    for (row = 0; row < tally.rows; row++)
        printf("row %u was %s and is %s\n", (unsigned)row, tally.selection[row] ? "in" : "out", choice[row] ? "kept" : "turned down");
    printf("earned %u kept %u total %u\n", (unsigned)answer.earned, (unsigned)answer.kept, (unsigned)answer.total);
    return 0;
}
