/* Reads a sheet of at most 4,096 cells, runs its pass, and prints the boundaries that are kept as `keptlist` does. README.md has the command that compiles it.
   Run it as `kept SHEET`, for instance with examples/case_j.sheet: it prints examples/case_j.kept. */
#include <inttypes.h>
#include <stdio.h>

#include "jenwyllt.h"

/* The limits of `keptlist`, and the lengths of the lists in numbers. */
#define SHEET_BYTES 65536
#define CELLS 4096
#define REGIONS 512
#define PAIRS (JENWYLLT_PAIR_NUMBERS * 2048)
#define SPANS (JENWYLLT_SPAN_NUMBERS * JENWYLLT_MOST_ENTRIES)
#define BOUNDARIES (JENWYLLT_BOUNDARY_NUMBERS * JENWYLLT_MOST_ENTRIES)
#define ANCHORS (JENWYLLT_ANCHOR_NUMBERS * JENWYLLT_MOST_ENTRIES)
#define TALLIES (JENWYLLT_TALLY_NUMBERS * JENWYLLT_MOST_ENTRIES)
#define OUTPUT (JENWYLLT_ROW_NUMBERS * JENWYLLT_MOST_ENTRIES)

/* What a sheet is read to. */
static uint8_t bytes[SHEET_BYTES + 1], cells[CELLS];
static uint64_t spans[SPANS], boundaries[BOUNDARIES], anchors[ANCHORS];

/* What the call fills. */
static uint32_t labels[CELLS], queue[CELLS], tallies[TALLIES], pairs[PAIRS];
static uint16_t masks[CELLS];
static struct jenwyllt_region records[REGIONS];
static uint64_t output[OUTPUT];

static int refused(uint64_t number, uint64_t place) {
    printf("refused %" PRIu64 " at %" PRIu64 "\n", number, place);
    return 1;
}

static int print_kept(size_t length) {
    struct jenwyllt_sheet sheet = jenwyllt_read_sheet(
        bytes, length, cells, CELLS, spans, SPANS, boundaries, BOUNDARIES, anchors, ANCHORS);
    if (sheet.number != JENWYLLT_ACCEPTED)
        return refused(sheet.number, sheet.place);

    struct jenwyllt_answer answer = jenwyllt_kept_boundaries(
        sheet.pass, sheet.width, sheet.height, cells, sheet.width * sheet.height,
        spans, JENWYLLT_SPAN_NUMBERS * sheet.spans, boundaries, JENWYLLT_BOUNDARY_NUMBERS * sheet.boundaries,
        anchors, JENWYLLT_ANCHOR_NUMBERS * sheet.anchors,
        labels, CELLS, masks, CELLS, queue, CELLS, tallies, TALLIES, pairs, PAIRS, records, REGIONS, output, OUTPUT);
    if (answer.number != JENWYLLT_ACCEPTED)
        return refused(answer.number, answer.value);

    printf("kept %" PRIu64 " of %" PRIu64 "\n", answer.value, sheet.boundaries);
    for (size_t row = 0; row < answer.value; row++) {
        const uint64_t *at = output + JENWYLLT_ROW_NUMBERS * row;
        printf("%" PRIu64 " %" PRIu64 " %" PRIu64 " %" PRIu64 " %" PRIu64 "\n", at[0], at[1], at[2], at[3], at[4]);
    }
    return 0;
}

int main(int argc, char **argv) {
    if (argc != 2) {
        fprintf(stderr, "usage: %s SHEET\n", argv[0]);
        return 2;
    }
    FILE *file = fopen(argv[1], "rb");
    if (file == NULL) {
        perror(argv[1]);
        return 1;
    }
    size_t length = fread(bytes, 1, SHEET_BYTES + 1, file);
    int unread = ferror(file);
    fclose(file);
    if (unread || length > SHEET_BYTES) {
        fprintf(stderr, "%s: cannot be read, or has over %d bytes\n", argv[1], SHEET_BYTES);
        return 1;
    }
    return print_kept(length);
}
