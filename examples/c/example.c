/* Writes a sheet with two plots, a third being refused for the class in one of its lines; shows what the check says of tallies with one bad value;
 * damages the sheet, reads it back, asks for a plot, and lists the sheet as the plot lister does; then the same sheet with mould is read in spot
 * mode; then a block is looked at before anything is written, and filled within runs that are named; then a long run of which few cells are wrong is
 * refused; then every codeword that a short run of a block reaches is listed, of a clean block, of two damaged ones and of a torn one, and a buffer of
 * a wrong length is refused; then a stand table is made of two payloads. */
#include <inttypes.h>
#include <stdio.h>
#include <string.h>

#include "tishwabe.h"

/* 20 cells in a block, 8 of them check cells, starting power 1, runs of up to 4 cells, 3 blocks in a sheet. */
#define PROFILE N, R, 1, 4, D
enum { N = 20, R = 8, K = N - R, D = 3 };

/* The same with runs of up to 7 cells, the most that 8 check cells allow. */
#define LONG_RUNS N, R, 1, R - 1, D

/* Ends a printed answer: where a line is at fault, with the line and what fails first in it. */
static void print_fault(size_t figure, size_t line) {
    static const char *const figures[] = {
        [TISHWABE_FIGURE_SPECIES] = "species",
        [TISHWABE_FIGURE_CLASS] = "class",
        [TISHWABE_FIGURE_COUNT] = "count",
        [TISHWABE_FIGURE_ORDER] = "species and class not above the line before",
    };
    if (figure != TISHWABE_FIGURE_NONE) {
        printf(", line %zu (the first is 0): %s", line, figures[figure]);
    }
    printf("\n");
}

/* Adds a plot and prints the answer. */
static void add(uint8_t *payload, uint16_t plot, const uint8_t *lines, size_t lines_length) {
    size_t place, figure, line;
    size_t number = tishwabe_add(payload, D * K, plot, lines, lines_length, &place, &figure, &line);
    printf("plot %d: answer %zu, place %zu", plot, number, place);
    print_fault(figure, line);
}

/* Checks the payload with one byte changed, asks it for plot 7, and prints both answers. */
static void check_with(const uint8_t *payload, size_t byte, uint8_t value) {
    uint8_t changed[D * K];
    size_t number, place, length, figure, line;
    memcpy(changed, payload, D * K);
    changed[byte] = value;
    number = tishwabe_check_payload(changed, D * K, &place, &figure, &line);
    printf("byte %zu is %d: answer %zu, place %zu", byte, value, number, place);
    print_fault(figure, line);
    number = tishwabe_ask(changed, D * K, 7, &place, &length, &figure, &line);
    printf("  plot 7: answer %zu, place %zu, %zu bytes", number, place, length);
    print_fault(figure, line);
}

static void print_record(const uint8_t *record, size_t length) {
    size_t i;
    for (i = 5; i + 3 <= length; i += 3) {
        printf("  species %d, class %d cm: %d trees\n", record[i], record[i + 1], record[i + 2]);
    }
}

/* tishwabe_read_sheet or tishwabe_read_sheet_spots. */
typedef size_t reader(size_t n, size_t r, size_t b, size_t limit, size_t depth, const uint8_t *sheet, size_t sheet_length,
                      uint8_t *scratch, size_t scratch_length, uint8_t *payload, size_t payload_length,
                      size_t *changed, size_t *place);

/* Reads the sheet and prints plot 300. */
static void read_back(reader *read, const uint8_t *sheet) {
    uint8_t scratch[N], payload[D * K] = {0};
    size_t changed, place, length, figure, line;
    size_t number = read(PROFILE, sheet, D * N, scratch, N, payload, D * K, &changed, &place);
    if (number != TISHWABE_ACCEPTED) {
        printf("refused: %zu, place %zu\n", number, place);
        return;
    }
    printf("read, %zu blocks changed\n", changed);
    number = tishwabe_ask(payload, D * K, 300, &place, &length, &figure, &line);
    printf("plot 300: answer %zu, place %zu, %zu bytes\n", number, place, length);
    print_record(payload + place, length);
}

/* A scratch of D * N bytes, as earlier versions took it, is a wrong length. */
static void read_with_long_scratch(const uint8_t *sheet) {
    uint8_t scratch[D * N], payload[D * K];
    size_t changed, place;
    size_t number = tishwabe_read_sheet(PROFILE, sheet, D * N, scratch, D * N, payload, D * K, &changed, &place);
    printf("read with a scratch of %d bytes: answer %zu, place %zu\n", D * N, number, place);
}

/* The plot lister's answer: its input is the profile's five bytes and then the sheet. */
static void list_sheet(const uint8_t *sheet) {
    uint8_t input[5 + D * N] = {PROFILE}, text[TISHWABE_LONGEST_TEXT];
    memcpy(input + 5, sheet, D * N);
    fwrite(text, 1, tishwabe_list_input(input, sizeof input, text, sizeof text), stdout);
}

/* R / 2 spots in every block, five cells apart: scratch mode refuses the sheet, spot mode reads it. */
static void read_with_mould(uint8_t *sheet) {
    uint8_t block[N], codeword[N];
    size_t i, number, count, lowest;
    for (i = 2; i < N; i += N / (R / 2)) {
        sheet[i * D] ^= 1;
        sheet[i * D + 1] ^= 85;
        sheet[i * D + 2] ^= 255;
    }
    read_back(tishwabe_read_sheet, sheet);
    read_back(tishwabe_read_sheet_spots, sheet);
    for (i = 0; i < N; i++) {
        block[i] = sheet[i * D];
    }
    number = tishwabe_correct_spots(PROFILE, block, N, codeword, N, &count, &lowest);
    printf("block 0: answer %zu, %zu cells changed, the lowest is cell %zu\n", number, count, lowest);
    block[0] ^= 1; /* one spot too many */
    number = tishwabe_correct_spots(PROFILE, block, N, codeword, N, &count, &lowest);
    printf("block 0 with one more: answer %zu, %zu, %zu\n", number, count, lowest);
}

/* Looks at a block and prints the answer: where the shortest run lies, if there is one. */
static void look(const uint8_t *block, size_t *start, size_t *length) {
    size_t number = tishwabe_look_block(PROFILE, block, N, start, length);
    printf("look: answer %zu, start %zu, length %zu\n", number, *start, *length);
}

/* Fills a run of a block and prints the answer, and whether the cells are those that were written. */
static void fill(const uint8_t *block, size_t start, size_t length, const uint8_t *written) {
    uint8_t filled[N];
    size_t number = tishwabe_fill_block(PROFILE, block, N, start, length, filled, N);
    printf("fill from %zu on, %zu cells: answer %zu", start, length, number);
    if (number == TISHWABE_ACCEPTED) {
        printf(memcmp(filled, written, N) == 0 ? ", as written" : ", another codeword");
    }
    printf("\n");
}

/* A short scratch is filled where the look found it, a longer one where the caller saw it. */
static void look_and_fill(void) {
    static const uint8_t message[K] = {1, 2, 3, 4, 5, 6, 7, 8, 9, 10, 11, 12};
    uint8_t written[N], block[N];
    size_t start, length;
    tishwabe_write_block(PROFILE, message, K, written, N);
    memcpy(block, written, N);
    look(block, &start, &length);
    memset(block + 9, 255, 4);
    look(block, &start, &length);
    fill(block, start, length, written);
    memset(block + 8, 255, 6); /* more cells than the limit */
    look(block, &start, &length);
    fill(block, 8, 6, written);
    fill(block, 7, R - 1, written); /* a wider run gives the same */
    fill(block, 9, 6, written);     /* cell 8 is outside */
    fill(block, 8, R, written);     /* at most R - 1 cells */
    fill(block, N - 5, 6, written); /* past the last cell */
    block[N - 1] ^= 1;
    fill(block, 8, 6, written); /* a spot outside the run */
}

/* A run of more than R / 2 cells is corrected if more than half of it is wrong. If not, it may be filled where it is named, and spot mode
 * corrects the block to the same codeword. */
static void look_at_sparse_run(void) {
    static const uint8_t message[K] = {1, 2, 3, 4, 5, 6, 7, 8, 9, 10, 11, 12};
    uint8_t written[N], block[N], codeword[N];
    size_t number, start, length, count, lowest;
    tishwabe_write_block(LONG_RUNS, message, K, written, N);
    memcpy(block, written, N);
    block[9] ^= 1;
    block[11] ^= 85;
    block[13] ^= 255;
    number = tishwabe_look_block(LONG_RUNS, block, N, &start, &length);
    printf("look, 3 of 5 cells wrong: answer %zu, start %zu, length %zu\n", number, start, length);
    block[11] = written[11];
    number = tishwabe_look_block(LONG_RUNS, block, N, &start, &length);
    printf("look, 2 of 5 cells wrong: answer %zu, start %zu, length %zu\n", number, start, length);
    if (number == TISHWABE_SPARSE) {
        fill(block, 9, 5, written);
        number = tishwabe_correct_spots(LONG_RUNS, block, N, codeword, N, &count, &lowest);
        printf("spot mode: answer %zu, %zu cells changed, the lowest is cell %zu\n", number, count, lowest);
    }
}

/* Lists every codeword within a run of up to R - 1 cells of a block, and fills each of these runs. */
static void list_candidates(const uint8_t *block, const uint8_t *written) {
    uint8_t pairs[2 * N];
    size_t i, count;
    size_t number = tishwabe_block_candidates(LONG_RUNS, block, N, pairs, sizeof pairs, &count);
    printf("candidates: answer %zu, count %zu\n", number, count);
    for (i = 0; i < count; i++) {
        fill(block, pairs[2 * i], pairs[2 * i + 1], written);
    }
}

/* A buffer of N bytes is a wrong length: a list takes two bytes for each run, and 2 * N are always enough. */
static void list_in_short_buffer(const uint8_t *block) {
    uint8_t pairs[N];
    size_t count;
    size_t number = tishwabe_block_candidates(LONG_RUNS, block, N, pairs, sizeof pairs, &count);
    printf("candidates in a buffer of %d bytes: answer %zu, count %zu\n", N, number, count);
}

/* A clean block, then blocks between two codewords that differ in cells 0 to R: what was written, and zero in every cell. */
static void list_blocks(void) {
    static const uint8_t message[K] = {1};
    uint8_t written[N], block[N];
    size_t number, start, length;
    tishwabe_write_block(LONG_RUNS, message, K, written, N);
    list_candidates(written, written); /* clean: itself, by 0 and 0 */
    list_in_short_buffer(written);
    memcpy(block, written, N);
    memset(block + 5, 0, R - 4);
    list_candidates(block, written); /* nearer to what was written */
    block[4] ^= 1;
    list_candidates(block, written); /* tied */
    number = tishwabe_look_block(LONG_RUNS, block, N, &start, &length);
    printf("look at it: answer %zu, start %zu, length %zu\n", number, start, length);
    block[N - 1] ^= 2;
    list_candidates(block, written); /* torn: no run is short enough */
}

/* What the caller keeps of a stand table. */
struct stand {
    const uint8_t *species;
    size_t listed;
    uint32_t table[TISHWABE_TABLE_ROWS][TISHWABE_TABLE_COLUMNS];
    uint32_t payloads, records;
};

/* Begins a table with these species and prints the answer. */
static void begin_table(struct stand *stand, const uint8_t *species, size_t listed) {
    size_t number = tishwabe_begin_table(species, listed, stand->table, &stand->payloads, &stand->records);
    printf("table of %zu listed species: answer %zu\n", listed, number);
    if (number == TISHWABE_ACCEPTED) {
        stand->species = species;
        stand->listed = listed;
    }
}

/* Adds a payload to the table and prints the answer. */
static void add_to_table(struct stand *stand, const uint8_t *payload) {
    size_t place, figure, line;
    size_t number = tishwabe_add_to_table(stand->species, stand->listed, stand->table, &stand->payloads, &stand->records, payload, D * K,
                                          &place, &figure, &line);
    printf("added to the table: answer %zu, place %zu", number, place);
    print_fault(figure, line);
}

/* Prints the rows of the listed species and of the others, as far as class 40. */
static void print_rows(const struct stand *stand) {
    size_t row;
    for (row = 0; row < TISHWABE_TABLE_ROWS; row++) {
        const uint32_t *counts = stand->table[row];
        if (row < stand->listed || row == TISHWABE_TABLE_ROWS - 1) {
            printf("  row %zu: %" PRIu32 " %" PRIu32 " %" PRIu32 " %" PRIu32 "\n", row, counts[0], counts[1], counts[2], counts[3]);
        }
    }
}

/* Prints the total and the trees per plot. */
static void print_sums(const struct stand *stand) {
    uint64_t total, quotient, remainder;
    size_t number = tishwabe_table_total(stand->species, stand->listed, stand->table[0], stand->payloads, stand->records, &total);
    printf("%" PRIu32 " payloads, %" PRIu32 " records: answer %zu, %" PRIu64 " trees\n", stand->payloads, stand->records, number, total);
    number = tishwabe_trees_per_plot(stand->species, stand->listed, stand->table[0], stand->payloads, stand->records, &quotient, &remainder);
    printf("trees per plot: answer %zu, %" PRIu64 ", and %" PRIu64 " over\n", number, quotient, remainder);
}

/* The trees of two payloads by species and class; plot 7 is in both, which is two records. */
static void stand_table(const uint8_t *payload) {
    static const uint8_t species[] = {3}, repeat[] = {3, 1, 3}, lines[] = {1, 11, 6};
    uint8_t other[D * K] = {0};
    struct stand stand;
    begin_table(&stand, species, sizeof species);
    print_sums(&stand); /* no plots yet */
    add(other, 7, lines, sizeof lines);
    add_to_table(&stand, payload);
    add_to_table(&stand, other);
    print_rows(&stand);
    print_sums(&stand);
    other[6] = 201; /* classes are 1 to 200 */
    add_to_table(&stand, other);
    begin_table(&stand, repeat, sizeof repeat);
    print_sums(&stand); /* both left it as it was */
}

static void show_blocks(void) {
    look_and_fill();
    look_at_sparse_run();
    list_blocks();
}

int main(void) {
    static const uint8_t pines[] = {3, 32, 2};
    static const uint8_t mixed[] = {1, 10, 255, 3, 31, 4, 3, 32, 1};
    static const uint8_t class_201[] = {1, 10, 255, 3, 201, 4}; /* classes are 1 to 200 */
    uint8_t payload[D * K] = {0}, sheet[D * N], text[60 + 6 * D * K];
    size_t number;

    add(payload, 7, pines, sizeof pines);
    add(payload, 300, mixed, sizeof mixed);
    add(payload, 300, mixed, sizeof mixed);
    add(payload, 301, class_201, sizeof class_201);
    fwrite(text, 1, tishwabe_list(payload, D * K, 0, text, sizeof text), stdout);

    /* the lines of plot 300 begin at byte 13 */
    check_with(payload, 13, 1);   /* as it is */
    check_with(payload, 16, 100); /* species are 1 to 99 */
    check_with(payload, 17, 201);
    check_with(payload, 21, 0);  /* no trees */
    check_with(payload, 20, 31); /* the class of the line before */
    check_with(payload, 12, 41); /* at most 40 lines */

    number = tishwabe_write_sheet(PROFILE, payload, D * K, sheet, D * N);
    printf("written: answer %zu\n", number);
    read_with_long_scratch(sheet);
    read_back(tishwabe_read_sheet, sheet);
    memset(sheet + 10, 255, D * (R / 2)); /* a scratch of D * h cells */
    read_back(tishwabe_read_sheet, sheet);
    list_sheet(sheet);
    memset(sheet + 40, 255, D * N - 40); /* a second scratch */
    read_back(tishwabe_read_sheet, sheet);
    list_sheet(sheet);

    number = tishwabe_write_sheet(PROFILE, payload, D * K, sheet, D * N);
    printf("written again: answer %zu\n", number);
    read_with_mould(sheet);

    show_blocks();
    stand_table(payload);
    return 0;
}
