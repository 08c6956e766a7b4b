/* Reads a sheet and prints the separation of each two of its boundaries: in pixels, and the exact square as a fraction.

   tools/build_library.sh
   cc -I include examples/separations.c target/lib/libjenwyllt.a -o target/separations
   target/separations examples/case_j.sheet */
#include <inttypes.h>
#include <stdio.h>
#include <stdlib.h>
#include <string.h>

#include "jenwyllt.h"

enum {
    MOST_BYTES = 1 << 22,
    MOST_CELLS = JENWYLLT_MOST_SIDE * JENWYLLT_MOST_SIDE,
    MOST_PAIRS = JENWYLLT_MOST_ENTRIES * (JENWYLLT_MOST_ENTRIES - 1) / 2
};

static uint8_t bytes[MOST_BYTES], cells[MOST_CELLS];
static uint64_t spans[JENWYLLT_SPAN_NUMBERS * JENWYLLT_MOST_ENTRIES];
static uint64_t boundaries[JENWYLLT_BOUNDARY_NUMBERS * JENWYLLT_MOST_ENTRIES];
static uint64_t anchors[JENWYLLT_ANCHOR_NUMBERS * JENWYLLT_MOST_ENTRIES];
static uint64_t output[JENWYLLT_SEPARATION_NUMBERS * MOST_PAIRS];

static int refused(uint64_t number, uint64_t place)
{
    printf("refused %" PRIu64 " at %" PRIu64 "\n", number, place);
    return EXIT_FAILURE;
}

static double double_of(uint64_t bits)
{
    double value;
    memcpy(&value, &bits, sizeof value);
    return value;
}

int main(int count, char **words)
{
    FILE *file = count == 2 ? fopen(words[1], "rb") : NULL;
    if (file == NULL) {
        fprintf(stderr, "usage: separations SHEET\n");
        return EXIT_FAILURE;
    }
    size_t length = fread(bytes, 1, sizeof bytes, file);
    fclose(file);

    struct jenwyllt_sheet sheet = jenwyllt_read_sheet(
        bytes, length, cells, MOST_CELLS, spans, sizeof spans / sizeof *spans, boundaries, sizeof boundaries / sizeof *boundaries, anchors,
        sizeof anchors / sizeof *anchors);
    if (sheet.number != JENWYLLT_ACCEPTED)
        return refused(sheet.number, sheet.place);

    struct jenwyllt_answer answer = jenwyllt_separations(
        sheet.width, sheet.height, boundaries, JENWYLLT_BOUNDARY_NUMBERS * sheet.boundaries, output, sizeof output / sizeof *output);
    if (answer.number != JENWYLLT_ACCEPTED)
        return refused(answer.number, answer.value);
    for (uint64_t k = 0; k < answer.value; k++) {
        const uint64_t *row = output + JENWYLLT_SEPARATION_NUMBERS * k;
        printf("%" PRIu64 " and %" PRIu64 ": %.17g pixels, exact square %" PRIu64 "/%" PRIu64 "\n", row[0], row[1], double_of(row[2]), row[3], row[4]);
    }
    return EXIT_SUCCESS;
}
