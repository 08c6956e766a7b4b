/* Partitions a map that is drawn below, then reads a sheet and says what it holds. Compiled as examples/kept.c, for which README.md has the command.
   Run it as `partition SHEET`, for instance with examples/case_j.sheet. */
#include <inttypes.h>
#include <stdio.h>

#include "jenwyllt.h"

/* ---- a map: `.` is walkable, `#` is not */

#define WIDTH 12
#define HEIGHT 5
#define CELLS (WIDTH * HEIGHT)
#define SPANS 2
#define ROWS 8

static const char drawn[HEIGHT][WIDTH + 1] = {
    "....#.......",
    "............",
    "............",
    "....#####.##",
    "....#.......",
};

/* x, y, x, y in pixels, 8 a cell: across the door of the left room, and across the way down. */
static const uint64_t drawn_spans[JENWYLLT_SPAN_NUMBERS * SPANS] = {
    32, 8, 32, 24,
    72, 24, 80, 24,
};

static int refused(const char *what, uint64_t number, uint64_t place) {
    printf("%s: refused %" PRIu64 " at %" PRIu64 "\n", what, number, place);
    return 1;
}

static int partition_drawn_map(void) {
    uint8_t cells[CELLS];
    for (size_t y = 0; y < HEIGHT; y++)
        for (size_t x = 0; x < WIDTH; x++)
            cells[y * WIDTH + x] = drawn[y][x] == '.';

    uint32_t labels[CELLS], queue[CELLS], tallies[JENWYLLT_TALLY_NUMBERS * SPANS];
    uint16_t masks[CELLS];
    /* Rows behind the last pair stay as they were, and no label of a pair is 0. */
    uint32_t pairs[JENWYLLT_PAIR_NUMBERS * ROWS] = {0};
    struct jenwyllt_answer answer = jenwyllt_partition(
        WIDTH, HEIGHT, cells, CELLS, drawn_spans, JENWYLLT_SPAN_NUMBERS * SPANS,
        labels, CELLS, masks, CELLS, queue, CELLS, tallies, JENWYLLT_TALLY_NUMBERS * SPANS, pairs, JENWYLLT_PAIR_NUMBERS * ROWS);
    if (answer.number != JENWYLLT_ACCEPTED)
        return refused("the drawn map", answer.number, answer.value);

    printf("%" PRIu64 " regions\n", answer.value);
    for (size_t y = 0; y < HEIGHT; y++) {
        for (size_t x = 0; x < WIDTH; x++)
            printf(" %" PRIu32, labels[y * WIDTH + x]);
        printf("\n");
    }
    for (size_t span = 0; span < SPANS; span++)
        printf("span %zu: %" PRIu32 " steps removed, %" PRIu32 " between two regions\n", span, tallies[2 * span], tallies[2 * span + 1]);
    for (size_t row = 0; row < ROWS && pairs[3 * row + 1] != 0; row++)
        printf("span %" PRIu32 " parts regions %" PRIu32 " and %" PRIu32 "\n", pairs[3 * row], pairs[3 * row + 1], pairs[3 * row + 2]);
    return 0;
}

/* ---- a sheet */

#define SHEET_BYTES 65536
#define SPAN_NUMBERS (JENWYLLT_SPAN_NUMBERS * JENWYLLT_MOST_ENTRIES)
#define BOUNDARY_NUMBERS (JENWYLLT_BOUNDARY_NUMBERS * JENWYLLT_MOST_ENTRIES)
#define ANCHOR_NUMBERS (JENWYLLT_ANCHOR_NUMBERS * JENWYLLT_MOST_ENTRIES)

static int say_what_a_sheet_holds(const char *path) {
    /* With lists of these lengths no sheet of so many bytes is refused 10. */
    static uint8_t bytes[SHEET_BYTES], cells[SHEET_BYTES];
    static uint64_t spans[SPAN_NUMBERS], boundaries[BOUNDARY_NUMBERS], anchors[ANCHOR_NUMBERS];
    FILE *file = fopen(path, "rb");
    if (file == NULL) {
        perror(path);
        return 1;
    }
    size_t length = fread(bytes, 1, SHEET_BYTES, file);
    int unread = ferror(file) || fgetc(file) != EOF;
    fclose(file);
    if (unread) {
        fprintf(stderr, "%s: cannot be read, or has over %d bytes\n", path, SHEET_BYTES);
        return 1;
    }

    struct jenwyllt_sheet sheet = jenwyllt_read_sheet(
        bytes, length, cells, SHEET_BYTES, spans, SPAN_NUMBERS, boundaries, BOUNDARY_NUMBERS, anchors, ANCHOR_NUMBERS);
    if (sheet.number != JENWYLLT_ACCEPTED)
        return refused(path, sheet.number, sheet.place);

    printf("%s: pass %" PRIu64 ", %" PRIu64 " by %" PRIu64 " cells, %" PRIu64 " spans, %" PRIu64 " boundaries, %" PRIu64 " anchors\n",
           path, sheet.pass, sheet.width, sheet.height, sheet.spans, sheet.boundaries, sheet.anchors);
    for (size_t y = 0; y < sheet.height; y++) {
        for (size_t x = 0; x < sheet.width; x++)
            putchar(cells[y * sheet.width + x] & 1 ? '.' : '#');
        putchar('\n');
    }
    for (size_t span = 0; span < sheet.spans; span++) {
        const uint64_t *at = spans + JENWYLLT_SPAN_NUMBERS * span;
        printf("span %zu from %" PRIu64 " %" PRIu64 " to %" PRIu64 " %" PRIu64 "\n", span, at[0], at[1], at[2], at[3]);
    }
    return 0;
}

int main(int argc, char **argv) {
    if (argc != 2) {
        fprintf(stderr, "usage: %s SHEET\n", argv[0]);
        return 2;
    }
    int failed = partition_drawn_map();
    return say_what_a_sheet_holds(argv[1]) || failed;
}
