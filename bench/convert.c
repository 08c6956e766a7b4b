/* Times the converter of sheets beside a plain loop in C that copies the same bytes, with neither a check nor a look at an end: maps of 64 by 64 to 1,024 by 1,024 cells
   of one byte and of two, and 256 boundaries. The least time of the rounds counts. Prints the times, what a byte of the sheet takes, and the ratio; the bytes must be equal.

   cc -O3 -I include bench/convert.c target/lib/libjenwyllt.a -o target/bench_convert && target/bench_convert */
#include <stdint.h>
#include <stdio.h>
#include <stdlib.h>
#include <string.h>
#include <time.h>
#include "jenwyllt.h"

enum { MOST_CELLS = 1024 * 1024, BOUNDARIES = 256, ROUNDS = 15 };

static double now(void) {
    struct timespec t;
    clock_gettime(CLOCK_MONOTONIC, &t);
    return t.tv_sec + t.tv_nsec * 1e-9;
}

static uint8_t *put(uint8_t *to, uint64_t n) {
    while (n > 127) {
        *to++ = (uint8_t)(n | 128);
        n >>= 7;
    }
    *to++ = (uint8_t)n;
    return to;
}

static const uint8_t *get(const uint8_t *from, uint64_t *n) {
    uint64_t value = 0;
    unsigned shift = 0;
    while (*from > 127) {
        value |= (uint64_t)(*from++ & 127) << shift;
        shift += 7;
    }
    *n = value | (uint64_t)*from++ << shift;
    return from;
}

/* A sheet of kind 1 whose spans are its boundaries' endpoints. */
static size_t sheet(uint64_t side, uint8_t cell, uint8_t *out) {
    uint8_t *to = put(put(put(put(out, 1), 3), side), side);
    for (size_t i = 0; i < side * side; i++) to = put(to, cell);
    to = put(to, BOUNDARIES);
    for (uint64_t i = 0; i < BOUNDARIES; i++) to = put(put(put(put(to, i), 0), i), 8);
    to = put(to, BOUNDARIES);
    for (uint64_t i = 0; i < BOUNDARIES; i++) {
        to = put(put(put(put(put(to, i), 0), i), 8), 0x4020000000000000);
        to = put(put(put(put(to, 0), 0), 0), 0);
    }
    return (size_t)(put(to, 0) - out);
}

/* The same bytes: numbers are walked as far as the end of the spans, and the rest is copied. */
static size_t plain(const uint8_t *from, size_t size, uint8_t *out) {
    uint64_t kind, pass, width, height, n, spans;
    const uint8_t *at = get(get(get(get(from, &kind), &pass), &width), &height);
    for (size_t i = 0; i < width * height; i++) at = get(at, &n);
    size_t front = (size_t)(at - from);
    at = get(at, &spans);
    for (size_t i = 0; i < 4 * spans; i++) at = get(at, &n);
    size_t back = (size_t)(at - from);
    memcpy(out, from, front);
    out[0] = 3;
    memcpy(out + front, from + back, size - back);
    return size - (back - front);
}

int main(void) {
    size_t room = 2 * MOST_CELLS + 40 * BOUNDARIES;
    uint8_t *from = malloc(room), *ours = malloc(room), *theirs = malloc(room);
    if (!from || !ours || !theirs) return 2;
    for (uint64_t side = 64; side <= 1024; side *= 4) {
        for (int two = 0; two < 2; two++) {
            size_t size = sheet(side, two ? 254 : 1, from), made = 0;
            double a = 1e9, b = 1e9;
            for (int round = 0; round < ROUNDS; round++) {
                double t = now();
                struct jenwyllt_answer answer = jenwyllt_convert_sheet(from, size, ours, room);
                double u = now();
                made = plain(from, size, theirs);
                double v = now();
                if (answer.number || answer.value != made || memcmp(ours, theirs, made)) return 1;
                if (u - t < a) a = u - t;
                if (v - u < b) b = v - u;
            }
            printf("%4llu by %4llu, %d byte%s a cell: %8zu bytes, %9.1f us, %5.2f ns a byte; plain %9.1f us, ratio %.2f\n", (unsigned long long)side,
                   (unsigned long long)side, two + 1, two ? "s" : " ", size, a * 1e6, a * 1e9 / (double)size, b * 1e6, a / b);
        }
    }
    return 0;
}
