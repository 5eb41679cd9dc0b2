/*
 * Film sheets for plot tallies: the C interface of the proved library (link crates/capi/out/libcapi.a, made by `rt lib` in crates/capi).
 * "Document 01" is the specification, "Film sheets for plot tallies, and their mending", "document 02" is "Later changes to the base".
 *
 * Units: a cell, a byte of a payload, a listed species, and the start and the length of a listed run are one uint8_t each; every length counts bytes. A
 * count of a stand table is a uint32_t.
 *
 * Profile: n cells in a block (3 to 255), r check cells (2 to 64, below n), b the starting power (0 to 254), limit the longest run that may
 * be corrected (L, 0 to r - 1), depth the blocks in a sheet (D, 1 to 16). k = n - r, h = r / 2 rounded down.
 *
 * Result: 0 where accepted, or the documents' number of the refusal (the enum below); for the three functions on the lister's text a number of bytes.
 * Every number behind a pointer is written on each call, refused or accepted; where it has no meaning it is 0. The exceptions are the two counters
 * of a stand table, which tishwabe_begin_table and tishwabe_add_to_table change where they accept: a refusal leaves them, like the table, as they were.
 * A refusal leaves every buffer as it was, but for the scratch of tishwabe_read_sheet and of tishwabe_read_sheet_spots.
 *
 * What the caller owes: each pointer is valid for the length that follows it (with length 0 nothing is read or written through it), each
 * pointer to a number is valid, a pointer to a stand table is valid for its 340 counts, and nothing that is written overlaps anything else passed to
 * the same call. Every value of every number and every content of every buffer and table is allowed. No function allocates, keeps a pointer, or
 * has state; they may run on many threads at once.
 */
#ifndef TISHWABE_H
#define TISHWABE_H

#include <stddef.h>
#include <stdint.h>

#ifdef __cplusplus
extern "C" {
#endif

/* The documents' numbers, with their words for them: 1 to 10 are document 01's, 11 to 16 are document 02's. */
enum tishwabe_refusal {
    TISHWABE_ACCEPTED = 0,
    TISHWABE_BAD_PROFILE = 1,   /* misprint: a profile number is outside its range */
    TISHWABE_WRONG_LENGTH = 2,  /* wrong frame: a buffer hasn't exactly its length, or a payload exceeds 4,048 bytes */
    TISHWABE_UNCORRECTABLE = 3, /* torn: no run of up to L cells reaches a codeword; from tishwabe_fill_block: the run named reaches none */
    TISHWABE_AMBIGUOUS = 4,     /* tied: shortest runs reach two different codewords */
    TISHWABE_BAD_MARK = 5,      /* bad mark: mark wrong, or a byte after the first zero isn't zero */
    TISHWABE_CUT_SHORT = 6,     /* cut short: header or lines pass the payload's end */
    TISHWABE_BAD_TALLY = 7,     /* bad tally: more than 40 lines, plot number 0, range or rise of lines, lent lines not 0 to 120 in threes */
    TISHWABE_PLOT_ORDER = 8,    /* plot order: plot number not above the one before */
    TISHWABE_NO_SUCH_PLOT = 9,  /* no such plot: payload accepted, plot absent */
    TISHWABE_FULL = 10,         /* full: the record needs more bytes than are left after the last record */
    TISHWABE_TOO_MANY_ERRORS = 11, /* spotted: in spot mode, no codeword differs in at most h cells */
    TISHWABE_BAD_SPAN = 12,     /* bad span: start plus length exceeds n, or length exceeds r - 1 */
    TISHWABE_SPECIES_LIST = 13, /* species list: a listed number outside 1 to 99, a repeat, or more than 16 */
    TISHWABE_TRACT_FULL = 14,   /* tract full: a payload beyond 1,000, or a cell or counter handed in above 400,000,000 */
    TISHWABE_NO_PLOTS = 15,     /* no plots: of the trees per plot only, when no plot was added */
    TISHWABE_SPARSE = 16        /* thin: in scratch mode, the shortest run is longer than half of r, and at most half of its cells would be changed */
};

/* Document 02's figures: what fails first in the first bad line of a tally, beside TISHWABE_BAD_TALLY. */
enum tishwabe_figure {
    TISHWABE_FIGURE_NONE = 0,    /* no fault in a line */
    TISHWABE_FIGURE_SPECIES = 1, /* species number not 1 to 99 */
    TISHWABE_FIGURE_CLASS = 2,   /* diameter class not 1 to 200 */
    TISHWABE_FIGURE_COUNT = 3,   /* tree count 0 */
    TISHWABE_FIGURE_ORDER = 4    /* species, then class, not above the line before */
};

/* Longest payload that the functions on plots accept, in bytes. */
#define TISHWABE_LONGEST_PAYLOAD 4048

/* No text of tishwabe_list_input has more bytes. */
#define TISHWABE_LONGEST_TEXT 22968

/* Of a stand table: its rows and columns, the most species in a list, the most payloads in a table, and the most that a count or a counter handed in
 * may be. */
#define TISHWABE_TABLE_ROWS 17
#define TISHWABE_TABLE_COLUMNS 20
#define TISHWABE_MOST_LISTED 16
#define TISHWABE_MOST_PAYLOADS 1000
#define TISHWABE_MOST_COUNT 400000000

/* 0 if the five numbers are a profile, and 1 (misprint) if one of them is outside its range. *k is n - r (0 where r is above n), *h is r / 2
 * rounded down, in both cases. */
size_t tishwabe_profile(size_t n, size_t r, size_t b, size_t limit, size_t depth, size_t *k, size_t *h);

/* ---- blocks: refusals 1 and 2, 3, 4 and 16 of the corrector and of the look, 12 and 3 of the fill, and 11 of the corrector in spot mode; the list of
 * candidates has 1 and 2 alone; their place is 0 */

/* Writes the block of a message: k bytes in, n cells out. */
size_t tishwabe_write_block(size_t n, size_t r, size_t b, size_t limit, size_t depth,
                            const uint8_t *message, size_t message_length, /* k */
                            uint8_t *cells, size_t cells_length);          /* n */

/* *clean is 1 if the n cells are a codeword, and 0 if not or where refused. A block that is not clean is no refusal. */
size_t tishwabe_check_block(size_t n, size_t r, size_t b, size_t limit, size_t depth,
                            const uint8_t *read, size_t read_length, /* n */
                            size_t *clean);

/* Corrects a block in scratch mode: the codeword of the shortest run goes to out; *start and *length are that run, 0 and 0 for a clean block.
 * Refusals 1, 2, 3, 4 and 16, in this order: 16 where the shortest run has more than r / 2 cells (2 * length > r, odd r too) and at most half of them
 * would be changed (exactly half is refused); no longer run is taken in its place.
 * Earlier versions accepted such a run, and so did tishwabe_look_block, tishwabe_read_sheet and tishwabe_list_input, which have the same rule now: a caller
 * of any of them has to take 16 for a refusal like 3 and 4. With a limit of up to h it never comes, nor with r up to 4. A block that
 * is refused by 16 is what tishwabe_correct_spots corrects, to the codeword of that run; tishwabe_fill_block fills the run where it is named. */
size_t tishwabe_correct_block(size_t n, size_t r, size_t b, size_t limit, size_t depth,
                              const uint8_t *read, size_t read_length, /* n */
                              uint8_t *out, size_t out_length,         /* n */
                              size_t *start, size_t *length);

/* Looks at a block in scratch mode, and writes no cell: the answer, *start and *length are those of tishwabe_correct_block with an out of n bytes.
 * Refusals 1 to 4 and 16, of which 2 is for the length of read; after 16, as after the others, *start and *length are 0. Where it is accepted,
 * tishwabe_fill_block with that start and length then leaves in out what tishwabe_correct_block would. */
size_t tishwabe_look_block(size_t n, size_t r, size_t b, size_t limit, size_t depth,
                           const uint8_t *read, size_t read_length, /* n */
                           size_t *start, size_t *length);

/* Fills a run of a block: the codeword that agrees with the read cells outside the length cells from cell start on goes to out, all n cells of it;
 * there is at most one. Any run of up to r - 1 cells may be named, cell n with length 0 too: limit must be in its range and has no other effect, and
 * on a tied block the run named decides. How many of its cells would be changed has no effect either: there is no 16. Refusals 1, 2, 12 and 3, in
 * this order: 12 where start plus length exceeds n, as whole numbers that do not wrap, or length exceeds r - 1; 3 where this one run reaches no
 * codeword. */
size_t tishwabe_fill_block(size_t n, size_t r, size_t b, size_t limit, size_t depth,
                           const uint8_t *read, size_t read_length, /* n */
                           size_t start, size_t length,             /* the run */
                           uint8_t *out, size_t out_length);        /* n */

/* Lists every codeword that some run of at most limit of the n read cells reaches. Each is listed once, by the run from the first to the last cell in which
 * it differs from the read ones: its start and its length, one byte each, from pairs[0] on (start, length, start, length, ...). *count is the number of
 * runs listed. They are ordered by length, and those of one length by start. A block that is a codeword is listed by 0 and 0, and nothing else is. No two
 * runs begin in the same cell, so there are at most n runs and 2 * n bytes are always enough. The bytes behind the list are left as they were.
 * tishwabe_fill_block with a listed start and length leaves that codeword in out. How many cells of a run would be changed has no effect: there is no 16.
 * Refusals 1 and 2, in this order, of which 2 is for the length of read or of pairs; *count is then 0. There is no 3 and no 4: an empty list is an answer,
 * 0 with *count 0. All that tishwabe_look_block answers but 16 can be read off the list: 3 (torn) exactly where it is empty, 4 (tied) exactly where its
 * first length occurs twice, and otherwise its first run, accepted, or refused by 16 (thin), which the list does not tell. */
size_t tishwabe_block_candidates(size_t n, size_t r, size_t b, size_t limit, size_t depth,
                                 const uint8_t *read, size_t read_length, /* n */
                                 uint8_t *pairs, size_t pairs_length,     /* 2 * n */
                                 size_t *count);

/* Corrects a block in spot mode: the one codeword that differs from the read cells in at most h of them, wherever they lie, goes to out.
 * *count is the number of cells changed and *lowest the lowest of them, 0 and 0 for a clean block. limit must be in its range and has no
 * other effect. Refusals 1, 2 and 11. */
size_t tishwabe_correct_spots(size_t n, size_t r, size_t b, size_t limit, size_t depth,
                              const uint8_t *read, size_t read_length, /* n */
                              uint8_t *out, size_t out_length,         /* n */
                              size_t *count, size_t *lowest);

/* ---- sheets */

/* Writes a payload as a sheet. Refusals 1 and 2. */
size_t tishwabe_write_sheet(size_t n, size_t r, size_t b, size_t limit, size_t depth,
                            const uint8_t *payload, size_t payload_length, /* D * k */
                            uint8_t *sheet, size_t sheet_length);          /* D * n */

/* Reads a sheet in scratch mode: every block is judged before a byte of the payload is written. *changed is the number of blocks changed.
 * Refusals 1 to 4 and 16; *place is then the number of the lowest block that is refused by 3, 4 or 16, and else 0. The buffer scratch is all zero
 * after every result but refusals 1 and 2, which leave it as it was.
 * Earlier versions took a scratch of D * n bytes. A caller that still lends D * n, with D above 1, is told so by refusal 2. They accepted a sheet with a
 * block that is refused by 16 now; a scratch of up to D * h cells, limit being at least h, is read as ever. */
size_t tishwabe_read_sheet(size_t n, size_t r, size_t b, size_t limit, size_t depth,
                           const uint8_t *sheet, size_t sheet_length,   /* D * n */
                           uint8_t *scratch, size_t scratch_length,     /* n */
                           uint8_t *payload, size_t payload_length,     /* D * k */
                           size_t *changed, size_t *place);

/* Reads a sheet in spot mode: each block as by tishwabe_correct_spots, all else as in tishwabe_read_sheet, the length of scratch too. Refusals 1, 2
 * and 11; *place is the number of the lowest block that is refused by 11, and else 0. */
size_t tishwabe_read_sheet_spots(size_t n, size_t r, size_t b, size_t limit, size_t depth,
                                 const uint8_t *sheet, size_t sheet_length,   /* D * n */
                                 uint8_t *scratch, size_t scratch_length,     /* n */
                                 uint8_t *payload, size_t payload_length,     /* D * k */
                                 size_t *changed, size_t *place);

/* ---- plot records in a payload of 0 to 4,048 bytes
 *
 * Where refusal 7 is for a fault in a line, *figure is one of the figures above and *line the line's index in its record or among the lent lines;
 * the first line is 0. Both are 0 where 7 is for more than 40 lines, plot number 0 or the length of the lent lines, and with every other result, so
 * *line alone does not tell whether a line is at fault. */

/* Checks a payload. *place is the byte after the last record, or the refusal's place. Refusals 2 and 5 to 8. */
size_t tishwabe_check_payload(const uint8_t *payload, size_t payload_length, size_t *place, size_t *figure, size_t *line);

/* Asks for a plot, after a check of the whole payload: the record, mark to last line, is the *length bytes from payload + *place on. After
 * a refusal *place is its place and *length is 0. Refusals 2 and 5 to 9. */
size_t tishwabe_ask(const uint8_t *payload, size_t payload_length, uint16_t plot, size_t *place, size_t *length,
                    size_t *figure, size_t *line);

/* Adds a plot right after the last record. lines holds species, class and count of each line, 0 to 120 bytes. *place is the record's first
 * byte, or the refusal's place. Refusals 2, 5 to 8 and 10. */
size_t tishwabe_add(uint8_t *payload, size_t payload_length, uint16_t plot,
                    const uint8_t *lines, size_t lines_length, size_t *place, size_t *figure, size_t *line);

/* ---- the stand table of a tract: trees by species and diameter class, over payloads that are added one after another
 *
 * The caller keeps the species list, the table, and two counters, payloads and records, of what was added; all of them are handed to each call.
 * Rows: each listed species has one, in the list's order, which need not rise; row 16 takes all others, even if the list is shorter. The list may be
 * empty. Columns: ten classes each, 1 to 10 in column 0, 11 to 20 in column 1, and so on to 191 to 200 in column 19; so class 10 is in column 0, 11 in
 * column 1, 200 in column 19.
 *
 * In a table that was begun and only added to, each count is that of its trees in all payloads added. A payload that is accepted counts though it holds
 * no record, and one plot number in two payloads is two records.
 *
 * Refusal 13 is for the list. 14 is for a count or a counter above 400,000,000, all 340 counts being looked at: what is handed in decides and not what
 * comes out, so exactly 400,000,000 is accepted. A refusal leaves table and counters as they were; the place of 13, 14 and 15 is 0. */

/* Begins a table, whatever table and counters held before: no tree, no payload, no record. Refusal 13. */
size_t tishwabe_begin_table(const uint8_t *species, size_t species_length,
                            uint32_t table[TISHWABE_TABLE_ROWS][TISHWABE_TABLE_COLUMNS], uint32_t *payloads, uint32_t *records);

/* Adds the trees of every record of a payload of 0 to 4,048 bytes. Refusals 2, 13, 14 and then the payload's 5 to 8, in this order; 14 here also where
 * 1,000 payloads or more were added before. *place is the refusal's place, and 0 where accepted; *figure and *line are as above for plot records. */
size_t tishwabe_add_to_table(const uint8_t *species, size_t species_length,
                             uint32_t table[TISHWABE_TABLE_ROWS][TISHWABE_TABLE_COLUMNS], uint32_t *payloads, uint32_t *records,
                             const uint8_t *payload, size_t payload_length, size_t *place, size_t *figure, size_t *line);

/* The total, the sum of all counts. Refusals 13 and 14, in this order. The table is only read: pass table[0], the 340 counts row by row. */
size_t tishwabe_table_total(const uint8_t *species, size_t species_length,
                            const uint32_t *table, uint32_t payloads, uint32_t records, uint64_t *total);

/* Trees per plot: the total over the number of records, as the whole *quotient and the exact *remainder. Refusals 13, 14 and 15, in this order; 15 goes
 * by the number of records, not by trees. The table as in tishwabe_table_total. */
size_t tishwabe_trees_per_plot(const uint8_t *species, size_t species_length,
                               const uint32_t *table, uint32_t payloads, uint32_t records, uint64_t *quotient, uint64_t *remainder);

/* ---- the text of the plot lister, written from text[0] on as far as text_length goes, with no byte 0 at its end: the number of bytes written.
 * Other bytes of text are left. A text takes at most 60 bytes and 6 more for each byte of the payload. */

/* The text for the payload of a sheet with this many blocks changed, or for the payload's refusal. */
size_t tishwabe_list(const uint8_t *payload, size_t payload_length, size_t changed, uint8_t *text, size_t text_length);

/* The text for a refusal: `refused,number,place` and the byte 0A that ends the line, which is written and counted too. */
size_t tishwabe_list_refusal(uint8_t number, size_t place, uint8_t *text, size_t text_length);

/* The whole answer of the plot lister: the text for its standard input, the bytes n, r, b, L and D and then the sheet's D * n cells. The
 * sheet is read in scratch mode, and the text is that of its payload with the number of blocks changed, or that of the refusal, such as
 * `refused,16,3` where block 3 is the lowest that is refused, and thin; fewer than five bytes are refusal 1, another number of cells refusal 2. The
 * scratch and the payload buffer that it lends the reader are on the stack, 4,303 bytes. */
size_t tishwabe_list_input(const uint8_t *input, size_t input_length, uint8_t *text, size_t text_length);

#ifdef __cplusplus
}
#endif

#endif
