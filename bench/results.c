/* Times the writer and the reader of result sheets beside plain loops in C that write and read the same groups: 1,024 by 1,024 labels of 300 regions. The
   least time of the rounds counts, of the processor. Prints the times and their ratios; the bytes, and the labels that were read, must be equal.

   cc -O3 -I include bench/results.c target/lib/libjenwyllt.a -o target/bench_results && target/bench_results */
#include <stdint.h>
#include <stdio.h>
#include <stdlib.h>
#include <string.h>
#include <time.h>
#include "jenwyllt.h"

enum { CELLS = 1024 * 1024, REGIONS = 300, MOST_GROUPS = 10, ROUNDS = 100 };

static double now(void) {
    struct timespec t;
    clock_gettime(CLOCK_PROCESS_CPUTIME_ID, &t);
    return t.tv_sec + t.tv_nsec * 1e-9;
}

static uint8_t *put(uint8_t *to, uint64_t n) {
    while (n > 127) {
        *to++ = (uint8_t)(n | 128);
        n >>= 7;
    }
    *to++ = (uint8_t)n;
    return to;
}

/* The same sheet, without the rules and without asking for room. */
static size_t plain(const uint64_t *labels, uint8_t *out) {
    uint8_t *to = put(put(put(out, 2), REGIONS), CELLS);
    for (size_t i = 0; i < CELLS; i++) to = put(to, labels[i]);
    return (size_t)(put(put(put(to, 0), 0), 0) - out);
}

static const uint8_t *get(const uint8_t *from, uint64_t *n) {
    uint64_t value = 0;
    unsigned shift = 0;
    while (*from > 127) {
        value |= (uint64_t)(*from++ & 127) << shift;
        shift += 7;
    }
    *n = value | (uint64_t)*from++ << shift;
    return from;
}

/* The same labels, without a rule, a limit, an end or room. */
static size_t plain_read(const uint8_t *from, uint64_t *labels) {
    uint64_t kind, regions, count;
    from = get(get(get(from, &kind), &regions), &count);
    for (size_t i = 0; i < count; i++) from = get(from, labels + i);
    return count;
}

int main(void) {
    size_t room = MOST_GROUPS * (CELLS + 6);
    uint64_t *labels = malloc(CELLS * sizeof *labels), *read = malloc(CELLS * sizeof *read), none[1] = {0};
    uint8_t *ours = malloc(room), *theirs = malloc(room);
    if (!labels || !read || !ours || !theirs) return 2;
    for (size_t i = 0; i < CELLS; i++) labels[i] = i < REGIONS ? i + 1 : i * 7919 % (REGIONS + 1);
    double best = 1e9, best_plain = 1e9, best_read = 1e9, best_plain_read = 1e9;
    for (int round = 0; round < ROUNDS; round++) {
        double start = now();
        struct jenwyllt_answer answer = jenwyllt_write_result(REGIONS, labels, CELLS, none, 0, none, 0, none, 0, ours, room);
        double between = now();
        size_t size = plain(labels, theirs);
        double end = now();
        if (answer.number != 0 || answer.value != size || memcmp(ours, theirs, size)) return 1;
        if (between - start < best) best = between - start;
        if (end - between < best_plain) best_plain = end - between;
        memset(read, 255, CELLS * sizeof *read);
        start = now();
        struct jenwyllt_result result = jenwyllt_read_result(ours, size, read, CELLS, none, 0, none, 0, none, 0);
        between = now();
        if (result.number != 0 || result.regions != REGIONS || result.labels != CELLS || memcmp(read, labels, CELLS * sizeof *read)) return 1;
        memset(read, 255, CELLS * sizeof *read);
        double again = now();
        size_t count = plain_read(theirs, read);
        end = now();
        if (count != CELLS || memcmp(read, labels, CELLS * sizeof *read)) return 1;
        if (between - start < best_read) best_read = between - start;
        if (end - again < best_plain_read) best_plain_read = end - again;
    }
    printf("reader %.3f ms, plain %.3f ms, ratio %.2f\n", best_read * 1e3, best_plain_read * 1e3, best_read / best_plain_read);
    printf("writer %.3f ms, plain %.3f ms, ratio %.2f\n", best * 1e3, best_plain * 1e3, best / best_plain);
    return 0;
}
