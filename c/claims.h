/*
 * A day of bread claims: the calls for the till's own program. c/example.c is a whole program that uses them, c/example_tally.c is one that
 * shows the counts during the day, c/example_joined.c is one for several counters, c/example_kinds.c is one for the second terms, and
 * c/accept.c is one for other makers of tills.
 *
 * The claim file has three sections, each after its count: card groups, shop groups and claims. Every count and field is unsigned and 16
 * bits wide, low byte first, except the kind, which is one byte. Groups are numbered from 0 within their section, and claims, the file's
 * rows, from 0 too.
 *
 *     group record, week layout   16 bytes: parent, then seven limits, for days 0 to 6
 *     group record, old layout     4 bytes: parent, then one limit
 *     claim record                 5 bytes: card group, shop group, kind (0 ordinary, 1 earned; 0 to 3 under the second terms)
 *
 * A parent is a smaller group number of the same section, or 65535 for a group at the top. A limit is any number from 0 to 65535.
 *
 * A call names the day, 0 to 6, and a group's limit is that day's. The canonical form is that of the whole week and names none; a tally is
 * begun for a day, and the other calls on it name none. A file in the old layout acts as one in the week layout that has each limit seven
 * times: its answers are the same on every day.
 *
 * There are four sorts of file, and each call on one file of the first terms stands here four times, with the same arguments and the same
 * form of answer. What stands at the end of its name says which sort it takes:
 *
 *     nothing        a new file in the week layout
 *     _stored        a stored file in the week layout
 *     _old           a new file in the old layout
 *     _old_stored    a stored file in the old layout
 *
 * The call for several counters takes new files in the week layout, and its name ends in _joined. The two calls under the second terms take
 * a new file in the week layout, and their names end in _kinds. A tally is begun from a file, by a call that stands here four times; the
 * other calls on a tally take no file and stand here once.
 *
 * In a new file no group's limit may be above its parent's, on any of the seven days, whichever is named. A stored file is one taken from
 * the shelf, which was written when any limit was allowed. Its limits are lowered, on each day by itself: from the first group to the
 * last, each limit that is above its parent's is read as its parent's, which is lowered already by then. So a group with limit 40 in a
 * group with limit 20 is read with limit 20. A new file may be given to the call for stored files of its layout, and the answer is the
 * same.
 *
 * Each claim names a card group and a shop group. On the shop side it counts in the group that it names and in every group above that one.
 * On the card side an ordinary claim does so too; an earned claim does not count in the card group that it names, only in the groups above
 * that one. So an earned claim that names a card group at the top counts in no card group.
 *
 * There are two terms, the first with two kinds of claims and the second with four, and an archive for each:
 *
 *     libtill.a          every call under the first terms, and claims_version
 *     libtill_kinds.a    the two calls under the second terms: claims_settle_kinds and claims_fits_and_rank_kinds
 *
 * The first terms settle in numbers of 32 bits and the second in numbers of 64 bits. Each archive has the solver compiled for its own
 * width, so that a till of the first terms settles as fast as without the second. Link with the archive whose calls the program makes, or
 * with both: they export no name in common.
 *
 * The archives are built for Linux (ELF, System V calling convention) on x86-64, any such processor, and may be linked at any address. Of
 * the C library they need memset and memcpy at most. They have no variables of their own and use no heap; docs/PERFORMANCE.md says how
 * much code they have and how much stack they take.
 *
 * The calls keep no state: a tally is memory of the program's own, as every buffer is. Only settle, under both terms and for several
 * counters, the slip, the canonical form, the codes, and the calls that begin a tally, put a row in and take a row out change memory that
 * is lent to them, for each sort of file, and only where they answer no refusal; the beginning of a tally alone writes it in any case.
 * Calls may be made from several threads at once, where what they are lent to change is not shared. A tally is lent to one call at a time.
 *
 * A pointer must not be null, even where the length beside it is 0, and as many elements must stand there as the length says. What is lent
 * to one call does not overlap.
 */
#ifndef CLAIMS_H
#define CLAIMS_H

#include <stddef.h>
#include <stdint.h>

#ifdef __cplusplus
extern "C" {
#endif

/*
 * The version: which library this header describes. It rises by one with each release that changes a call, a needed length or an answer.
 * claims_version() tells the version of the library that a program is linked with. It is in libtill.a alone; both archives of a release
 * have the same version.
 */
#define CLAIMS_VERSION 13u

/* The most that a file may hold. */
#define CLAIMS_MOST_GROUPS 256u       /* in one section, card groups or shop groups */
#define CLAIMS_MOST_CLAIMS 512u       /* rows */
#define CLAIMS_LONGEST_FILE 10758u    /* bytes in the week layout: all three sections are full */
#define CLAIMS_LONGEST_FILE_OLD 4614u /* the same in the old layout */

/* The most files that are settled together. */
#define CLAIMS_MOST_FILES 8u

/* How many days a week has. A day is a number below it. */
#define CLAIMS_DAYS 7u

/* How many bytes a file has in the week layout, and in the old one. `groups` and `claims` are as below. */
#define CLAIMS_FILE_LENGTH(groups, claims) (6u + 16u * (groups) + 5u * (claims))
#define CLAIMS_FILE_LENGTH_OLD(groups, claims) (6u + 4u * (groups) + 5u * (claims))

/*
 * The lengths that a call needs, counted in elements: bytes of a selection, of the choice, of the slip, of the canonical file and of the
 * codes, numbers of the sheet and of the scratch. These numbers have 32 bits, and 64 bits under the second terms. The lengths are the same
 * for all sorts of file and under both terms. `claims` is the file's number of claims, `groups` that of its card groups and shop groups
 * together, and `kept` that of the selection's bytes that are 1. Where several files are settled together, `claims` is the number of claims
 * of all files, and `groups` that of the groups of all files and one more, for the oven.
 */
#define CLAIMS_SELECTION_LENGTH(claims) (claims)
#define CLAIMS_CHOICE_LENGTH(claims) (claims)
#define CLAIMS_SHEET_LENGTH(groups, claims) ((groups) + (claims))
#define CLAIMS_SCRATCH_LENGTH(groups, claims) (6u * (groups) + 3u * (claims))
#define CLAIMS_SLIP_LENGTH(kept) (33u * ((kept) + 1u))
#define CLAIMS_CANONICAL_LENGTH(groups, claims) CLAIMS_FILE_LENGTH(groups, claims)
#define CLAIMS_CODES_LENGTH(claims) (claims)

/* The needed lengths at most: buffers of these lengths serve every file. */
#define CLAIMS_LONGEST_SELECTION 512u
#define CLAIMS_LONGEST_CHOICE 512u
#define CLAIMS_LONGEST_SHEET 1024u
#define CLAIMS_LONGEST_SCRATCH 4608u
#define CLAIMS_LONGEST_SLIP 16929u
#define CLAIMS_LONGEST_CANONICAL 10758u
#define CLAIMS_LONGEST_CODES 512u

/* The two sides of a day. */
#define CLAIMS_CARD 0u
#define CLAIMS_SHOP 1u

/* The codes of rows. The section on the codes says what they mean. */
#define CLAIMS_CODE_ORDINARY 0u /* the row is ordinary */
#define CLAIMS_CODE_SHOP 1u     /* an earned row that shop limits hold */
#define CLAIMS_CODE_CARD 2u     /* an earned row that card limits hold */
#define CLAIMS_CODE_REST 3u     /* any other earned row */

/*
 * Why a call is turned away: the numbers of documents 01 and 02. The file is judged first, from its front, and the first fault met is the
 * one told (1 to 7, and 11). Of one group record 3 is judged first and then 11; the calls for stored files do not judge 11. Then comes the
 * length of the selection or of the lent buffers (8), then the day (12), then the values (9), and 10, or 13, 14 and 15, last. Where several
 * files are settled together, 16 comes before all files, then the files are judged, the lowest first, and 17 comes after them and before 8.
 * Where a tally is begun, the file is judged and then the day. On a tally 9 comes first, and then 18, 19 and 20 in this order.
 */
#define CLAIMS_CUT_OFF 1u       /* the file ends before or inside a count or record that is due */
#define CLAIMS_GROUP_COUNT 2u   /* a group count is over 256 */
#define CLAIMS_PARENT 3u        /* a parent is neither smaller than the group's own number nor 65535 */
#define CLAIMS_CLAIM_COUNT 4u   /* the claim count is over 512 */
#define CLAIMS_NO_SUCH_GROUP 5u /* a claim names a group that its section lacks */
#define CLAIMS_KIND 6u          /* a kind is neither 0 nor 1; under the second terms: a kind is over 3 */
#define CLAIMS_TRAILING 7u      /* bytes follow the last claim */
#define CLAIMS_SHORT 8u         /* a lent buffer or selection is shorter than needed */
#define CLAIMS_VALUE 9u         /* a selection byte or the side is over 1, or the file has no such row or group */
#define CLAIMS_SELECTED 10u     /* spare places only: the row is already in the selection */
#define CLAIMS_LIMIT_ABOVE 11u  /* new files only: a group's limit is above its parent's on any of the seven days */
#define CLAIMS_DAY 12u          /* every call that names a day: the day is over 6 */
#define CLAIMS_UNFIT 13u        /* accept only: the choice does not fit */
#define CLAIMS_UNCOVERED 14u    /* accept only: a claim is not covered */
#define CLAIMS_UNEQUAL 15u      /* accept only: the totals differ */
#define CLAIMS_FILES 16u        /* several counters only: no file, more than eight, or lengths that do not add up to the buffer's */
#define CLAIMS_LARGE 17u        /* several counters only: the joined file would pass 256 groups on a side or 512 claims */
#define CLAIMS_INSIDE 18u       /* putting a row into a tally: the row is in */
#define CLAIMS_OUTSIDE 19u      /* taking a row out of a tally: the row is not in */
#define CLAIMS_FULL 20u         /* putting a row into a tally: with the row a group would count more rows than its limit */

/* What fits and rank answers. */
struct claims_fits_and_rank_answer {
    uint32_t refusal; /* 0, or the number of the reason why the call is turned away; the other fields are 0 then */
    uint32_t fits;    /* 1 where no group of the side counts more of the selected rows than its limit, else 0 */
    uint32_t rank;    /* how many of the selected rows fit the side together, at most */
};

/* What spare places answers. */
struct claims_spare_places_answer {
    uint32_t refusal; /* 0, or the number of the reason why the call is turned away; the other field is 0 then */
    uint32_t places;  /* how many further claims like the row would fit beside the selection, 0 to 65535 */
};

/* What settle answers. */
struct claims_settle_answer {
    uint32_t refusal; /* 0, or the number of the reason why the call is turned away; the other fields are 0 then */
    uint64_t earned;  /* how many of the kept rows are earned */
    uint64_t kept;    /* how many rows are kept */
    uint64_t total;   /* the sheet's total, which is the weight of the kept rows */
};

/* What settle answers for several counters together. */
struct claims_settle_joined_answer {
    uint32_t refusal; /* 0, or the number of the reason why the call is turned away; earned, kept and total are 0 then */
    uint32_t file;    /* the place, from 0, of the lowest file at fault, where the number is a file's own: 1 to 7, or 11; else 0 */
    uint64_t earned;  /* how many of the kept rows are earned */
    uint64_t kept;    /* how many rows are kept */
    uint64_t total;   /* the sheet's total, which is the weight of the kept rows */
};

/* What settle answers under the second terms. */
struct claims_settle_kinds_answer {
    uint32_t refusal; /* 0, or the number of the reason why the call is turned away; the other fields are 0 then */
    uint64_t kind0;   /* how many of the kept rows are of kind 0 */
    uint64_t kind1;   /* of kind 1 */
    uint64_t kind2;   /* of kind 2 */
    uint64_t kind3;   /* of kind 3 */
    uint64_t kept;    /* how many rows are kept */
    uint64_t total;   /* the sheet's total, which is the weight of the kept rows */
};

/* What the slip answers. */
struct claims_write_slip_answer {
    uint32_t refusal; /* 0, or the number of the reason why the call is turned away; the other field is 0 then */
    uint64_t length;  /* how many bytes were written: 33 for each kept row and for the first line */
};

/* What the canonical form answers. */
struct claims_write_canonical_answer {
    uint32_t refusal; /* 0, or the number of the reason why the call is turned away; the other field is 0 then */
    uint64_t length;  /* how many bytes were written, at most as many as the file would have in the week layout */
};

/* What the codes answer. */
struct claims_write_codes_answer {
    uint32_t refusal; /* 0, or the number of the reason why the call is turned away; the other field is 0 then */
    uint64_t length;  /* how many bytes were written: one for each claim */
};

/* What the count of a group of a tally answers. */
struct claims_tally_count_answer {
    uint32_t refusal; /* 0, or the number of the reason why the call is turned away; the other field is 0 then */
    uint32_t count;   /* how many of the rows that are in count in the group */
};

/* The version of the library. Where it is not CLAIMS_VERSION, this header describes another one. In libtill.a. */
uint32_t claims_version(void);

/*
 * Each section that follows is one call, except that the second terms have one section for both their calls, and the tally has one for its
 * four. It says what the call does and what its arguments are; then comes its form as a type, which ends in _call, and then a line for each
 * sort of file. The line
 * `claims_settle_call claims_settle_old;` declares the function claims_settle_old with the arguments and the answer of the type
 * claims_settle_call.
 */

/* ---- Fits and rank ---- */

/*
 * Whether a selection of a file's rows fits a side by the limits of a day, and its rank there. For a stored file both are the same by the
 * limits as they stand in it and by the lowered ones.
 *
 * file, file_length              the claim file
 * selection, selection_length    one byte a row: 1 where the row is selected, else 0. Bytes past the last row are not read
 * side                           CLAIMS_CARD or CLAIMS_SHOP
 * day                            0 to 6
 */
typedef struct claims_fits_and_rank_answer claims_fits_and_rank_call(
    const uint8_t *file, size_t file_length,
    const uint8_t *selection, size_t selection_length,
    uint32_t side,
    uint32_t day);
claims_fits_and_rank_call claims_fits_and_rank;
claims_fits_and_rank_call claims_fits_and_rank_stored;
claims_fits_and_rank_call claims_fits_and_rank_old;
claims_fits_and_rank_call claims_fits_and_rank_old_stored;

/* ---- Spare places ---- */

/*
 * How many further claims like a row would fit beside a selection of a file's rows by the limits of a day: the smallest, over all groups
 * that the row counts in on both sides, of the group's limit less the selected rows that count there. Where the row counts in no card
 * group, its shop groups alone decide. It is 0 where the selection itself does not fit both sides. A number of 1 or more says that the
 * selection with the row added fits both sides, and 0 that it does not. For a stored file it is the same by the limits as they stand in it
 * and by the lowered ones.
 *
 * file, file_length              the claim file
 * selection, selection_length    one byte a row, as above
 * row                            a row that is not selected, counted from 0; for one that is selected the answer is refusal 10
 * day                            0 to 6
 */
typedef struct claims_spare_places_answer claims_spare_places_call(
    const uint8_t *file, size_t file_length,
    const uint8_t *selection, size_t selection_length,
    uint32_t row,
    uint32_t day);
claims_spare_places_call claims_spare_places;
claims_spare_places_call claims_spare_places_stored;
claims_spare_places_call claims_spare_places_old;
claims_spare_places_call claims_spare_places_old_stored;

/* ---- Settle ---- */

/*
 * Settles a file by the limits of a day: which claims are kept, with the sheet of marks that shows that no choice is better. With N claims
 * and G groups, card and shop groups together, the needed lengths are as said below. Longer buffers are accepted; what lies past the
 * needed length is neither read nor changed. What the buffers hold before does not matter. Where a refusal is answered, no buffer is
 * changed.
 *
 * Of a stored file the kept rows are the same by the limits as they stand in it and by the lowered ones. The marks and the total are those
 * of the lowered limits: whoever adds up the sheet takes each group's lowered limit, since with a higher one the sum may be too great.
 *
 * file, file_length         the claim file
 * day                       0 to 6
 * choice, choice_length     N bytes at least: afterwards 1 for each kept row and 0 for each other row
 * sheet, sheet_length       G + N numbers at least: afterwards the marks, of the card groups, the shop groups and the claims
 * scratch, scratch_length   6 * G + 3 * N numbers at least: afterwards zero
 */
typedef struct claims_settle_answer claims_settle_call(
    const uint8_t *file, size_t file_length,
    uint32_t day,
    uint8_t *choice, size_t choice_length,
    uint32_t *sheet, size_t sheet_length,
    uint32_t *scratch, size_t scratch_length);
claims_settle_call claims_settle;
claims_settle_call claims_settle_stored;
claims_settle_call claims_settle_old;
claims_settle_call claims_settle_old_stored;

/* ---- Several counters, one oven ---- */

/*
 * Settles the files of up to eight counters together, by the limits of a day, under one oven limit: in all no more rows than that are
 * kept. Each file is a new one in the week layout under the first terms. They stand end to end in one buffer, beside a list of their
 * lengths; the files are numbered from 0 in that order.
 *
 * What is answered and left is what claims_settle_stored answers and leaves for one joined file, which is written nowhere. Its shop group 0
 * is the oven, with the oven limit on all seven days. The files' groups follow in file order, each top shop group as a group in the oven,
 * and so do their rows. A shop limit that is above the oven limit is lowered to it, as in a stored file. With N claims and G groups in all
 * files, card and shop groups together, the buffers are laid out so:
 *
 *     choice   the rows of file 0, then those of file 1, and so on
 *     sheet    the marks of the card groups of file 0, of file 1 and so on; then of the oven; then of the shop groups of file 0, of file 1
 *              and so on; then of the rows, in the order of the choice
 *
 * An earned row weighs N + 1 here too, with the claims of all files in N. Whoever adds up the sheet takes the oven limit for the oven and
 * each shop group's lowered limit.
 *
 * Where nothing is refused and the oven limit is N or more, each counter keeps exactly what claims_settle keeps of its file alone,
 * whichever files the others send.
 *
 * First it is judged how many files there are, and whether their lengths add up to the buffer's, as a true sum (16); then the files, lowest
 * first, and the first fault met is told with that file's place (1 to 7, and 11); then whether the joined file would be too large, the oven
 * counted as a shop group (17); then the lengths of the lent buffers (8), and then the day (12). A file of length 0 is cut off (1). Longer
 * buffers are accepted; what lies past the needed length is neither read nor changed. What the buffers hold before does not matter. Where a
 * refusal is answered, no buffer is changed.
 *
 * files, files_length       the files, end to end
 * lengths, lengths_length   how many bytes each file has: 1 to 8 numbers
 * oven                      the oven limit, 0 to 65535
 * day                       0 to 6
 * choice, choice_length     N bytes at least: afterwards 1 for each kept row and 0 for each other row
 * sheet, sheet_length       G + 1 + N numbers at least: afterwards the marks
 * scratch, scratch_length   6 * (G + 1) + 3 * N numbers at least: afterwards zero
 */
typedef struct claims_settle_joined_answer claims_settle_joined_call(
    const uint8_t *files, size_t files_length,
    const uint32_t *lengths, size_t lengths_length,
    uint16_t oven,
    uint32_t day,
    uint8_t *choice, size_t choice_length,
    uint32_t *sheet, size_t sheet_length,
    uint32_t *scratch, size_t scratch_length);
claims_settle_joined_call claims_settle_joined;

/* ---- The second terms ---- */

/*
 * Settling, and fits and rank, for bakeries that signed the second terms. They have four kinds of claims, 0 to 3, in new files of the week
 * layout only, so there is one sort of each call. Both calls are in libtill_kinds.a. All other calls take files of the first terms only
 * and refuse a kind of 2 or 3 with 6; these two refuse a kind over 3 with 6.
 *
 * A claim of kind 1, 2 or 3 counts on the card side as an earned one. The most claims of kind 3 are kept; with that number the most of
 * kind 2, then of kind 1, then of kind 0; equal choices go by row order. With N claims in the file, one of kind k weighs N + 1 to the
 * power k.
 *
 * The arguments, the needed lengths and the order of refusals are those of claims_fits_and_rank and of claims_settle, except that the
 * numbers of the sheet and of the scratch have 64 bits. A mark is at most N + 1 to the power 3, as a whole number of 64 bits: its high
 * half is 0, whatever it held. The scratch is zero afterwards. The total is at most 69122916864, for 512 kept claims of kind 3.
 *
 * A file with kinds 0 and 1 alone keeps the same rows by claims_settle and by claims_settle_kinds, and is refused with the same number.
 *
 * file, file_length         the claim file
 * day                       0 to 6
 * choice, choice_length     N bytes at least: afterwards 1 for each kept row and 0 for each other row
 * sheet, sheet_length       G + N numbers at least: afterwards the marks, of the card groups, the shop groups and the claims
 * scratch, scratch_length   6 * G + 3 * N numbers at least: afterwards zero
 */
claims_fits_and_rank_call claims_fits_and_rank_kinds;
typedef struct claims_settle_kinds_answer claims_settle_kinds_call(
    const uint8_t *file, size_t file_length,
    uint32_t day,
    uint8_t *choice, size_t choice_length,
    uint64_t *sheet, size_t sheet_length,
    uint64_t *scratch, size_t scratch_length);
claims_settle_kinds_call claims_settle_kinds;

/* ---- The slip ---- */

/*
 * Writes the slip for the counter, a text for a roll of 32 columns: which rows a selection keeps. The selection need not fit any limit.
 * Every line has 32 printable ASCII characters and a line feed; no byte 0 follows the text. The first line has the number of claims, of
 * kept earned rows and of kept rows; then comes a line for each kept row, in row order, with the row, the card group and the shop group
 * that it names, and EARNED or PLAIN. Of three claims with rows 0 and 1 kept:
 *
 *     CLAIMS    3EARNED    1KEPT     2
 *            0       0       0  EARNED
 *            1       0       1   PLAIN
 *
 * The length of the selection and that of the slip are judged first (8), then the day (12), which the text does not show, and then the
 * selection's bytes (9). A longer slip is accepted; what lies past the written length is neither read nor changed. Where a refusal is
 * answered, no byte is changed.
 *
 * file, file_length              the claim file
 * selection, selection_length    one byte a row: 1 where the row is kept, else 0. Bytes past the last row are not read
 * day                            0 to 6
 * slip, slip_length              CLAIMS_SLIP_LENGTH(kept) bytes at least, where kept is how many bytes of the selection, one a row, are 1
 */
typedef struct claims_write_slip_answer claims_write_slip_call(
    const uint8_t *file, size_t file_length,
    const uint8_t *selection, size_t selection_length,
    uint32_t day,
    uint8_t *slip, size_t slip_length);
claims_write_slip_call claims_write_slip;
claims_write_slip_call claims_write_slip_stored;
claims_write_slip_call claims_write_slip_old;
claims_write_slip_call claims_write_slip_old_stored;

/* ---- The canonical form ---- */

/*
 * Writes the canonical form of a file: one file for all that differ only in how their groups are numbered and in groups that no claim
 * uses. A claim uses the groups that it names and all groups above these, be it earned or not. Groups that no claim uses are dropped. The
 * others are numbered by the lowest row that uses them, a parent before its child where these are equal. Rows keep their order and kinds.
 * The form is in the week layout, whatever the layout of the file, and has the limits of all seven days; no day is named. Two files give
 * the same bytes exactly where they are the same week in this sense, be they of one layout or of two. The written file is accepted by
 * every call for the week layout, and settled it keeps the same rows on each day. A stored file is compared and written with its limits
 * lowered, so that what is written is a new file. A longer buffer is accepted; what lies past the written length is neither read nor
 * changed. Where a refusal is answered, no byte is changed.
 *
 * file, file_length              the claim file
 * canonical, canonical_length    CLAIMS_CANONICAL_LENGTH(groups, claims) bytes at least: as many as the file has, or would have in the
 *                                week layout
 */
typedef struct claims_write_canonical_answer claims_write_canonical_call(
    const uint8_t *file, size_t file_length,
    uint8_t *canonical, size_t canonical_length);
claims_write_canonical_call claims_write_canonical;
claims_write_canonical_call claims_write_canonical_stored;
claims_write_canonical_call claims_write_canonical_old;
claims_write_canonical_call claims_write_canonical_old_stored;

/* ---- The codes ---- */

/*
 * Writes a code for each row of a file. For an earned row that settle turns down on the same day it says which of that day's limits to
 * raise:
 *
 *     1   a shop limit. Where the limit of each shop group that the row counts in is raised by one, one earned row more is kept
 *     2   a card limit. The same is true of the card groups that the row counts in, which are those above the one that it names
 *     3   a limit on both sides. Where the limit of each group that the row counts in, on both sides, is raised by one, at least one
 *         earned row more is kept
 *
 * The row that is kept then may be another one, since row order decides among equal choices. A limit of 65535 need not be raised.
 *
 * The other side's limits do not help. Of the rows with code 1 as many are kept as fit the shop side, and of those with code 2 as many as
 * fit the card side. However far card limits alone are raised, no more rows with code 1 are kept than before, and no more with codes 1 and
 * 3 together. However far shop limits alone are raised, no more rows with code 2 are kept, and no more with codes 2 and 3 together. Limits
 * of one side may keep more earned rows with another code, or one row with code 3 in the place of another. Where no row has code 1, shop
 * limits alone bring no earned row more; where none has code 2, card limits alone bring none.
 *
 * An ordinary row has code 0, and an earned row that is kept has one of the others too. The codes come from a largest choice of earned
 * rows that fits both sides and are the same whichever is taken, so that they depend neither on row order nor on ordinary rows. For a
 * stored file they are the same by the limits as they stand in it and by the lowered ones.
 *
 * Longer buffers are accepted; what lies past the needed length is neither read nor changed. What the buffers hold before does not matter.
 * Where a refusal is answered, no buffer is changed.
 *
 * file, file_length         the claim file
 * day                       0 to 6
 * codes, codes_length       CLAIMS_CODES_LENGTH(claims) bytes at least: afterwards the code of each row
 * scratch, scratch_length   CLAIMS_SCRATCH_LENGTH(groups, claims) numbers at least, as for settle: afterwards zero
 */
typedef struct claims_write_codes_answer claims_write_codes_call(
    const uint8_t *file, size_t file_length,
    uint32_t day,
    uint8_t *codes, size_t codes_length,
    uint32_t *scratch, size_t scratch_length);
claims_write_codes_call claims_write_codes;
claims_write_codes_call claims_write_codes_stored;
claims_write_codes_call claims_write_codes_old;
claims_write_codes_call claims_write_codes_old_stored;

/* ---- Accept ---- */

/*
 * Whether head office accepts a closing, whichever program made it: a file with a choice and a sheet of marks, for a day. With N claims an
 * earned row weighs N + 1 and an ordinary one 1. The closing is accepted exactly where
 *
 *     the choice fits both sides                                                                                          else 13
 *     every claim is covered: its own mark and the marks of all groups that it counts in come to its weight at least      else 14
 *     the sheet's total, each group's limit times its mark and all claims' marks, is what the chosen rows weigh           else 15
 *
 * and what is told is the first of these that is not so. Before them come the faults of the file, the length of the choice or of the sheet
 * (8), the day (12) and the bytes of the choice (9). Marks may be any numbers of 32 bits, and sums are true sums. For a stored file the
 * limits are the lowered ones.
 *
 * Where a closing is accepted, no choice that fits has more earned rows than this one, and none with as many has more rows. Which of
 * several such choices it is, is not judged. What settle leaves is accepted for the same file and day, by the call for the same sort of
 * file. A longer choice or sheet may be given; what lies past the needed length is not read. Nothing is changed.
 *
 * file, file_length         the claim file
 * choice, choice_length     CLAIMS_CHOICE_LENGTH(claims) bytes at least: 1 for each kept row and 0 for each other row
 * sheet, sheet_length       CLAIMS_SHEET_LENGTH(groups, claims) numbers at least: the marks of the card groups, the shop groups and the
 *                           claims
 * day                       0 to 6
 *
 * The answer is 0 where the closing is accepted, else the number of the reason why not.
 */
typedef uint32_t claims_accept_call(
    const uint8_t *file, size_t file_length,
    const uint8_t *choice, size_t choice_length,
    const uint32_t *sheet, size_t sheet_length,
    uint32_t day);
claims_accept_call claims_accept;
claims_accept_call claims_accept_stored;
claims_accept_call claims_accept_old;
claims_accept_call claims_accept_old_stored;

/* ---- The tally during the day ---- */

/*
 * The counts for a till's screen, while claims come in and are withdrawn. A tally holds which rows of a file are in, and of each group how
 * many of these rows count in it. It is memory of the program's own, which is lent to each of the four calls:
 *
 *     begin       from a file and a day. No row is in at first. The file is not needed afterwards
 *     put in      a row comes in, where with it no group would count more rows than its limit
 *     take out    a row that is in goes out
 *     count       how many of the rows that are in count in a group. It changes nothing
 *
 * After any number of these calls, a group's count is the number of rows that were put in, were not taken out since, and count in the
 * group. The rows that are in always fit both sides: no count is above the group's limit. The limits are those of the day, and for a stored
 * file the lowered ones.
 *
 * To draw its screen a till asks for the count of each group and shows the group's limit beside it, which stands in the tally: that of card
 * group g is limits[g], and that of shop group h is limits[cards + h].
 *
 * A row that is not in is refused with 20 exactly where claims_spare_places answers 0 places for it and the tally's selection. This
 * selection may be given, with length CLAIMS_LONGEST_SELECTION, to every call that takes one, for the same file and day: the slip of it has
 * the rows that are in.
 *
 * A tally decides by the order in which rows come in, and settle by all claims of the file at once; neither looks at the other, so that the
 * rows that are in and the rows that settle keeps may differ.
 *
 * The program may read a tally and copy it, and each copy goes on by itself. It must not change anything in it. A tally that was not begun, or was
 * changed otherwise than by these calls, may answer anything, but every call on it ends, and reads and writes nothing outside it.
 */
/* In a tally: no node, but what is above the groups at the top. A row with it as its card node counts in no card group. */
#define CLAIMS_TALLY_TOP 512u

struct claims_tally {
    /*
     * Card group g is node g, and shop group h is node cards + h. What lies past the last node or past the last row is 0. The first four
     * lists and the three numbers stay as they were begun.
     */
    uint16_t parents[2 * CLAIMS_MOST_GROUPS];    /* of each node: the node above it, and CLAIMS_TALLY_TOP at the top */
    uint16_t limits[2 * CLAIMS_MOST_GROUPS];     /* of each node: its limit on the day, lowered */
    uint16_t card_nodes[CLAIMS_MOST_CLAIMS];     /* of each row: the node where it begins to count on the card side, or the top */
    uint16_t shop_nodes[CLAIMS_MOST_CLAIMS];     /* of each row: the node where it begins to count on the shop side */
    uint64_t cards, shops, rows;                 /* how many card groups, shop groups and rows there are */
    uint16_t counts[2 * CLAIMS_MOST_GROUPS];     /* of each node: how many of the rows that are in count in it */
    uint8_t selection[CLAIMS_LONGEST_SELECTION]; /* of each row: 1 where it is in, else 0 */
};

/*
 * Begins a tally, whatever the memory held before. The answer is 0, and no row is in; or it is the number of the reason why not, and the
 * tally has no rows and no groups: every byte is 0, and the other calls on it answer 9. No length is needed, so 8 is not told.
 *
 * file, file_length   the claim file
 * day                 0 to 6
 * tally               afterwards begun
 */
typedef uint32_t claims_tally_begin_call(
    const uint8_t *file, size_t file_length,
    uint32_t day,
    struct claims_tally *tally);
claims_tally_begin_call claims_tally_begin;
claims_tally_begin_call claims_tally_begin_stored;
claims_tally_begin_call claims_tally_begin_old;
claims_tally_begin_call claims_tally_begin_old_stored;

/*
 * Puts a row in, counted from 0. The answer is 0, and the row is in; or it is a number, and nothing is changed: 9 where there is no such
 * row, else 18 where the row is in, else 20 where with the row a group would count more rows than its limit.
 */
uint32_t claims_tally_put_in(struct claims_tally *tally, uint32_t row);

/*
 * Takes a row out, counted from 0. The answer is 0, and the row is not in; or it is a number, and nothing is changed: 9 where there is no
 * such row, else 19 where the row is not in.
 */
uint32_t claims_tally_take_out(struct claims_tally *tally, uint32_t row);

/*
 * How many of the rows that are in count in a group of a side, CLAIMS_CARD or CLAIMS_SHOP; or 9 where there is no such side or group.
 * Nothing is changed.
 */
struct claims_tally_count_answer claims_tally_count(struct claims_tally *tally, uint32_t side, uint32_t group);

#ifdef __cplusplus
}
#endif

#endif
