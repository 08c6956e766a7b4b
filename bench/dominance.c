/* Times the dominance of counts beside a plain function in C on the same counts, and compares the answers.

   tools/build_library.sh
   cc -O3 -I include bench/dominance.c target/lib/libjenwyllt.a -o target/bench_dominance && target/bench_dominance [ROUNDS] */
#define _POSIX_C_SOURCE 199309L
#include <inttypes.h>
#include <stdio.h>
#include <stdlib.h>
#include <time.h>

#include "jenwyllt.h"

enum { REGIONS = 1 << 16 };

static uint32_t counts[REGIONS][4];

static __attribute__((noinline)) struct jenwyllt_dominance plain(uint32_t cells, const uint32_t *of) {
    uint64_t e = 0;
    for (uint64_t k = 1; k < 4; k++)
        if (of[k] > of[e]) e = k;
    struct jenwyllt_dominance r = {e, cells != 0, 0, 0};
    if (cells != 0) {
        uint64_t hundredfold = (uint64_t)of[e] * 100;
        r.percent = hundredfold / cells;
        r.remainder = hundredfold % cells;
    }
    return r;
}

static double seconds(void) {
    struct timespec t;
    clock_gettime(CLOCK_PROCESS_CPUTIME_ID, &t);
    return (double)t.tv_sec + (double)t.tv_nsec / 1e9;
}

/* all regions once; the sum of what is answered */
static uint64_t run(bool ours) {
    uint64_t sum = 0;
    for (size_t i = 0; i < REGIONS; i++) {
        const uint32_t *of = counts[i];
        uint32_t cells = of[0] + of[1] + of[2] + of[3];
        struct jenwyllt_dominance r = ours ? jenwyllt_dominance(cells, of[0], of[1], of[2], of[3]) : plain(cells, of);
        sum = sum * 31 + r.elevation + 4 * r.has_share + 8 * r.percent + r.remainder;
    }
    return sum;
}

int main(int argc, char **argv) {
    int rounds = argc > 1 ? atoi(argv[1]) : 100;
    uint32_t x = 1;
    for (size_t i = 0; i < REGIONS; i++)
        for (int k = 0; k < 4; k++) {
            x = x * 1664525u + 1013904223u;
            counts[i][k] = i % 64 ? x >> 14 : 0;
        }
    double best[2] = {1e9, 1e9};
    uint64_t sums[2] = {0, 0};
    for (int round = 0; round < rounds; round++)
        for (int ours = 0; ours < 2; ours++) {
            double start = seconds();
            sums[ours] = run(ours);
            double taken = seconds() - start;
            if (taken < best[ours]) best[ours] = taken;
        }
    printf("a region: plain %.1f ns, ours %.1f ns, ratio %.2f\n", best[0] / REGIONS * 1e9, best[1] / REGIONS * 1e9, best[1] / best[0]);
    if (sums[0] != sums[1]) {
        puts("the answers differ");
        return 1;
    }
    return 0;
}
