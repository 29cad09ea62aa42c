/*
 * Whether head office accepts a closing: a claim file with a choice and a sheet of marks, for a day. Another maker tries closings with it
 * before sending them.
 *
 *     gcc -O2 -Ic c/accept.c crates/till/out/libtill.a -o accept
 *     ./accept FILE CHOICE SHEET DAY              a new file in the week layout, for a day from 0 to 6
 *     ./accept FILE CHOICE SHEET DAY stored       a stored file; `old` and `old_stored` for files in the old layout
 *
 * FILE, CHOICE and SHEET are the names of three files. FILE is the claim file. CHOICE has one byte a row: 1 where the row is kept, else 0.
 * SHEET has four bytes a mark, low byte first: the marks of the card groups, the shop groups and the claims. What comes after the last
 * row's byte or mark is not read.
 *
 * It prints one line: `accepted`, or `refused`, the number and what it means. The exit status is 0 where the closing is accepted, 1 where
 * it is refused, and 2 where it could not be judged: a word is missing or wrong, a file cannot be read, the sheet's length is no multiple
 * of four or is over a mebibyte, the library has another version, or the answer cannot be written. What is wrong then stands on the
 * standard error output.
 *
 * How to read it: c/example.c says so. `fopen` opens a named file, `fread` reads bytes from it, and `exit` ends the program.
 */
#include <errno.h>
#include <stdio.h>
#include <stdlib.h>
#include <string.h>
#include "claims.h"
#include "words.h"

enum { ACCEPTED = 0, REFUSED = 1, NOT_JUDGED = 2, MARK = 4, MOST_BYTES = 1 << 20 };

/* The closing, with room for the longest one. The file has one byte more, so that a file that is too long is seen. */
static uint8_t file[CLAIMS_LONGEST_FILE + 1];
static uint8_t choice[CLAIMS_LONGEST_CHOICE];
static uint8_t marks[MARK * CLAIMS_LONGEST_SHEET];
static uint32_t sheet[CLAIMS_LONGEST_SHEET];

/* The word that may follow the day, and the call for that sort of file. */
static const struct {
    const char *word;
    claims_accept_call *accept;
} sorts[] = {
    {"stored", claims_accept_stored},
    {"old", claims_accept_old},
    {"old_stored", claims_accept_old_stored},
};

static claims_accept_call *sort_of(const char *word) {
    for (size_t k = 0; k < sizeof sorts / sizeof *sorts; k++)
        if (strcmp(word, sorts[k].word) == 0) return sorts[k].accept;
    fprintf(stderr, "'%s' is no sort of file: stored, old, old_stored, or nothing for a new file in the week layout\n", word);
    exit(NOT_JUDGED);
}

/* Says why a file cannot be read, and ends. */
static void unreadable(const char *name) {
    fprintf(stderr, "%s cannot be read: %s\n", name, strerror(errno));
    exit(NOT_JUDGED);
}

/* Reads the first bytes of a named file into a buffer, as many as it has room for. Answers the file's length, counted up to `most`. */
static size_t read_into(const char *name, uint8_t *into, size_t room, size_t most) {
    FILE *from = fopen(name, "rb");
    if (from == NULL) unreadable(name);
    size_t length = fread(into, 1, room, from);
    while (length >= room && length < most && getc(from) != EOF) length++;
    if (ferror(from)) unreadable(name);
    fclose(from);
    return length;
}

/* Reads the marks, and answers how many there are. A longer sheet is accepted, but its bytes have to be marks too. */
static size_t read_sheet(const char *name) {
    size_t length = read_into(name, marks, sizeof marks, MOST_BYTES + 1);
    if (length > MOST_BYTES) {
        fprintf(stderr, "%s has more than %d bytes, and no day needs such a sheet\n", name, MOST_BYTES);
        exit(NOT_JUDGED);
    }
    if (length % MARK != 0) {
        fprintf(stderr, "%s has %zu bytes, and a sheet has %d for each mark\n", name, length, MARK);
        exit(NOT_JUDGED);
    }
    size_t count = length < sizeof marks ? length / MARK : CLAIMS_LONGEST_SHEET;
    for (size_t i = 0; i < count; i++) {
        const uint8_t *at = marks + MARK * i;
        sheet[i] = at[0] | (uint32_t)at[1] << 8 | (uint32_t)at[2] << 16 | (uint32_t)at[3] << 24;
    }
    return count;
}

/* Prints a refusal. Two of them have narrower words here, and where the choice or the sheet is short, their lengths follow. */
static void print_refusal(uint32_t refusal, size_t rows, size_t mark_count) {
    const char *means = meaning[refusal];
    if (refusal == CLAIMS_SHORT) means = "the choice or the sheet is shorter than needed";
    if (refusal == CLAIMS_VALUE) means = "a choice byte is over 1";
    printf("refused %u: %s", (unsigned)refusal, means);
    if (refusal == CLAIMS_SHORT) printf(" (the choice has %zu bytes, the sheet %zu marks)", rows, mark_count);
    puts("");
}

int main(int count, char **words) {
    if (claims_version() != CLAIMS_VERSION) {
        fprintf(stderr, "the library has version %u, and this program needs %u\n", (unsigned)claims_version(), CLAIMS_VERSION);
        return NOT_JUDGED;
    }
    if (count < 5 || count > 6) {
        fprintf(stderr, "usage: %s FILE CHOICE SHEET DAY [stored | old | old_stored]\n", words[0]);
        return NOT_JUDGED;
    }

    claims_accept_call *accept = count == 6 ? sort_of(words[5]) : claims_accept;
    uint32_t day;
    if (!number_named(words[4], &day)) {
        fprintf(stderr, "the day has to be one whole number, 0 to 6, and not '%s'\n", words[4]);
        return NOT_JUDGED;
    }
    size_t length = read_into(words[1], file, sizeof file, sizeof file);
    size_t rows = read_into(words[2], choice, sizeof choice, sizeof choice);
    size_t mark_count = read_sheet(words[3]);

    /* The call: file, choice and sheet with their lengths, and the day. It answers a number and changes nothing. */
    uint32_t refusal = accept(file, length, choice, rows, sheet, mark_count, day);
    if (refusal != 0)
        print_refusal(refusal, rows, mark_count);
    else
        puts("accepted");
    if (fflush(stdout) != 0) {
        fprintf(stderr, "the answer cannot be written: %s\n", strerror(errno));
        return NOT_JUDGED;
    }
    return refusal != 0 ? REFUSED : ACCEPTED;
}
