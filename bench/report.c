/* Times a run that is added to a report beside the call alone on the same lists, and what is added beside a plain loop in C over the same rows. 256 boundaries,
   all of which are kept: the most that there is to add. The least time of the rounds counts; the figures must be equal.

   tools/build_library.sh
   cc -O3 -I include bench/report.c target/lib/libjenwyllt.a -o target/bench_report && target/bench_report [ROUNDS] */
#define _POSIX_C_SOURCE 199309L
#include <inttypes.h>
#include <stdio.h>
#include <stdlib.h>
#include <string.h>
#include <time.h>

#include "jenwyllt.h"

enum { BOUNDARIES = 256, BOUNDARY_SIZE = 9, ROW_SIZE = 5, MOST_SIDE = 512, MOST_CELLS = MOST_SIDE * MOST_SIDE, REGIONS = 1, CELL_PIXELS = 8, LAST = 3 };

static uint8_t cells[MOST_CELLS];
static uint64_t boundaries[BOUNDARIES * BOUNDARY_SIZE], output[BOUNDARIES * ROW_SIZE], none[1];
static uint32_t labels[MOST_CELLS], queue[MOST_CELLS], tallies[1], pairs[1];
static uint16_t masks[MOST_CELLS];
static struct jenwyllt_region records[REGIONS];

static double seconds(void) {
    struct timespec t;
    clock_gettime(CLOCK_PROCESS_CPUTIME_ID, &t);
    return (double)t.tv_sec + (double)t.tv_nsec / 1e9;
}

/* Boundary i goes across cell i. */
static void draw(uint64_t side) {
    double width = CELL_PIXELS;
    memset(cells, 1, sizeof cells);
    for (uint64_t i = 0; i < BOUNDARIES; i++) {
        uint64_t x = CELL_PIXELS * (i % side), y = CELL_PIXELS * (i / side), drawn[] = {x, y, x + CELL_PIXELS, y + CELL_PIXELS};
        memcpy(boundaries + BOUNDARY_SIZE * i, drawn, sizeof drawn);
        memcpy(boundaries + BOUNDARY_SIZE * i + 4, &width, sizeof width);
    }
}

static struct jenwyllt_answer call(uint64_t side) {
    return jenwyllt_kept_boundaries(
        LAST, side, side, cells, side * side, none, 0, boundaries, BOUNDARIES * BOUNDARY_SIZE, none, 0, labels, MOST_CELLS, masks, MOST_CELLS, queue,
        MOST_CELLS, tallies, 0, pairs, 0, records, REGIONS, output, BOUNDARIES * ROW_SIZE);
}

static struct jenwyllt_reported reported(struct jenwyllt_report report, uint64_t side) {
    return jenwyllt_report_run(
        report, LAST, side, side, cells, side * side, none, 0, boundaries, BOUNDARIES * BOUNDARY_SIZE, none, 0, labels, MOST_CELLS, masks, MOST_CELLS,
        queue, MOST_CELLS, tallies, 0, pairs, 0, records, REGIONS, output, BOUNDARIES * ROW_SIZE);
}

/* What the rows add: a mark for each number that a row has, then a count of those without. */
static __attribute__((noinline)) void plain(struct jenwyllt_report *report, uint64_t kept) {
    bool named[BOUNDARIES] = {false};
    struct jenwyllt_figures *figures = &report->pass_3;
    for (uint64_t k = 0; k < kept; k++) {
        const uint64_t *row = output + ROW_SIZE * k;
        uint64_t across = row[3] - row[1], down = row[4] - row[2];
        named[row[0]] = true;
        report->squared += across * across + down * down;
    }
    for (uint64_t i = 0; i < BOUNDARIES; i++) figures->removed += !named[i];
    figures->accepted++;
    figures->boundaries += BOUNDARIES;
    figures->kept += kept;
    report->runs++;
}

static int compare(uint64_t side, int rounds) {
    double best[3] = {1e9, 1e9, 1e9};
    draw(side);
    for (int round = 0; round < rounds; round++) {
        struct jenwyllt_report counted = jenwyllt_empty_report();
        double start = seconds();
        struct jenwyllt_answer answer = call(side);
        double called = seconds();
        plain(&counted, answer.value);
        double added = seconds();
        struct jenwyllt_reported run = reported(jenwyllt_empty_report(), side);
        double taken[3] = {called - start, added - called, seconds() - added};
        for (int k = 0; k < 3; k++)
            if (taken[k] < best[k]) best[k] = taken[k];
        if (answer.number || run.number || run.value != answer.value || memcmp(&run.report, &counted, sizeof counted)) {
            printf("the reports differ: numbers %" PRIu64 " and %" PRIu64 "\n", answer.number, run.number);
            return 1;
        }
    }
    printf("%4" PRIu64 " by %4" PRIu64 " cells: the call %.1f us, with a plain loop %.1f, report_run %.1f, ratio %.3f\n", side, side, best[0] * 1e6,
           (best[0] + best[1]) * 1e6, best[2] * 1e6, best[2] / (best[0] + best[1]));
    return 0;
}

int main(int argc, char **argv) {
    int rounds = argc > 1 ? atoi(argv[1]) : 200;
    const uint64_t sides[] = {16, 64, MOST_SIDE};
    int status = 0;
    for (size_t k = 0; k < sizeof sides / sizeof *sides; k++) status |= compare(sides[k], rounds);
    return status;
}
