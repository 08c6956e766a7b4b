/* Times the list of separations beside a plain loop in C over the same boundaries, once with the C library's `hypot` and once with the correctly rounded
   hypotenuse, and compares the rows.

   tools/build_library.sh
   cc -O3 -I include bench/separations.c target/lib/libjenwyllt.a -lm -o target/bench_separations && target/bench_separations [ROUNDS] */
#define _POSIX_C_SOURCE 199309L
#include <inttypes.h>
#include <math.h>
#include <stdbool.h>
#include <stdio.h>
#include <stdlib.h>
#include <string.h>
#include <time.h>

#include "jenwyllt.h"

enum { COUNT = JENWYLLT_MOST_ENTRIES, NUMBERS = JENWYLLT_SEPARATION_NUMBERS, PAIRS = COUNT * (COUNT - 1) / 2 };

static uint64_t boundaries[JENWYLLT_BOUNDARY_NUMBERS * COUNT], ours[NUMBERS * PAIRS], plain[NUMBERS * PAIRS];

/* ---- the plain loop */

struct point {
    int64_t x, y;
};

struct segment {
    struct point a, b;
};

struct fraction {
    uint64_t num, den;
};

static struct segment segment_of(uint64_t i) {
    const uint64_t *nine = boundaries + JENWYLLT_BOUNDARY_NUMBERS * i;
    return (struct segment){{(int64_t)nine[0], (int64_t)nine[1]}, {(int64_t)nine[2], (int64_t)nine[3]}};
}

static int64_t cross(struct point a, struct point b, struct point p) {
    return (b.x - a.x) * (p.y - a.y) - (b.y - a.y) * (p.x - a.x);
}

static int signum(int64_t x) {
    return (x > 0) - (x < 0);
}

static bool between(int64_t a, int64_t b, int64_t p) {
    return a < b ? a <= p && p <= b : b <= p && p <= a;
}

static bool touches(int64_t side, struct segment s, struct point p) {
    return side == 0 && between(s.a.x, s.b.x, p.x) && between(s.a.y, s.b.y, p.y);
}

static bool intersects(struct segment s, struct segment t) {
    int64_t sa = cross(s.a, s.b, t.a), sb = cross(s.a, s.b, t.b), ta = cross(t.a, t.b, s.a), tb = cross(t.a, t.b, s.b);
    return touches(sa, s, t.a) || touches(sb, s, t.b) || touches(ta, t, s.a) || touches(tb, t, s.b)
        || (signum(sa) != signum(sb) && signum(ta) != signum(tb));
}

static double (*hypotenuse)(double, double) = hypot;

static double point_distance(struct point p, struct segment s) {
    double x = (double)(s.b.x - s.a.x), y = (double)(s.b.y - s.a.y), n = x * x + y * y;
    double t = n == 0 ? 0 : ((double)(p.x - s.a.x) * x + (double)(p.y - s.a.y) * y) / n;
    t = t < 0 ? 0 : t > 1 ? 1 : t;
    return hypotenuse((double)p.x - ((double)s.a.x + t * x), (double)p.y - ((double)s.a.y + t * y));
}

static uint64_t square(struct point p, struct point q) {
    int64_t x = p.x - q.x, y = p.y - q.y;
    return (uint64_t)(x * x + y * y);
}

static struct fraction point_square(struct point p, struct segment s) {
    int64_t n = (int64_t)square(s.a, s.b), k = (p.x - s.a.x) * (s.b.x - s.a.x) + (p.y - s.a.y) * (s.b.y - s.a.y), c = cross(s.a, s.b, p);
    if (k <= 0)
        return (struct fraction){square(p, s.a), 1};
    if (n <= k)
        return (struct fraction){square(p, s.b), 1};
    return (struct fraction){(uint64_t)(c * c), (uint64_t)n};
}

static struct fraction lesser(struct fraction f, struct fraction g) {
    return (unsigned __int128)f.num * g.den <= (unsigned __int128)g.num * f.den ? f : g;
}

static void plain_row(uint64_t i, uint64_t j, uint64_t *row) {
    struct segment s = segment_of(i), t = segment_of(j);
    double distance = 0;
    struct fraction least = {0, 1};
    if (!intersects(s, t)) {
        distance = fmin(fmin(point_distance(s.a, t), point_distance(s.b, t)), fmin(point_distance(t.a, s), point_distance(t.b, s)));
        least = lesser(lesser(lesser(point_square(s.a, t), point_square(s.b, t)), point_square(t.a, s)), point_square(t.b, s));
    }
    row[0] = i;
    row[1] = j;
    memcpy(row + 2, &distance, sizeof distance);
    row[3] = least.num;
    row[4] = least.den;
}

static void plain_rows(void) {
    uint64_t *row = plain;
    for (uint64_t j = 0; j < COUNT; j++)
        for (uint64_t i = 0; i < j; i++, row += NUMBERS)
            plain_row(i, j, row);
}

static void our_rows(void) {
    struct jenwyllt_answer answer = jenwyllt_separations(1024, 1024, boundaries, sizeof boundaries / sizeof *boundaries, ours, sizeof ours / sizeof *ours);
    if (answer.number != JENWYLLT_ACCEPTED || answer.value != PAIRS)
        abort();
}

/* ---- boundaries, and the time */

static uint64_t state = 10;

static uint64_t below(uint64_t most) {
    state = state * 6364136223846793005u + 1442695040888963407u;
    return (state >> 33) % most;
}

/* anywhere; 64 pixels long at most, as chokes are; from edge to edge, so that most cross */
static void draw(int kind) {
    memset(boundaries, 0, sizeof boundaries);
    for (uint64_t i = 0; i < COUNT; i++) {
        uint64_t *nine = boundaries + JENWYLLT_BOUNDARY_NUMBERS * i;
        nine[0] = kind == 2 ? 0 : below(8129);
        nine[1] = below(8129);
        nine[2] = kind == 2 ? 8192 : kind == 1 ? nine[0] + below(65) : below(8193);
        nine[3] = kind == 1 ? nine[1] + below(65) : below(8193);
    }
}

static double took(void (*rows)(void)) {
    struct timespec start, end;
    clock_gettime(CLOCK_PROCESS_CPUTIME_ID, &start);
    rows();
    clock_gettime(CLOCK_PROCESS_CPUTIME_ID, &end);
    return (double)(end.tv_sec - start.tv_sec) * 1e9 + (double)(end.tv_nsec - start.tv_nsec);
}

/* the least of many rounds, a pair */
static double least_of(int rounds, void (*rows)(void)) {
    double least = INFINITY;
    for (int round = 0; round < rounds; round++)
        least = fmin(least, took(rows));
    return least / PAIRS;
}

/* numbers of rows that are not ours: bits of separations, and others */
static void compare(int *bits, int *others) {
    *bits = *others = 0;
    for (size_t k = 0; k < sizeof ours / sizeof *ours; k++)
        if (ours[k] != plain[k])
            *(k % NUMBERS == 2 ? bits : others) += 1;
}

int main(int count, char **words) {
    static const char *const names[] = {"anywhere", "64 pixels long at most", "from edge to edge"};
    int rounds = count > 1 ? atoi(words[1]) : 60;
    printf("nanoseconds a pair of boundaries, least of %d rounds over %d pairs\n", rounds, PAIRS);
    for (int kind = 0; kind < 3; kind++) {
        draw(kind);
        int bits, others, rounded_bits, rounded_others;
        double our_time = least_of(rounds, our_rows);
        hypotenuse = hypot;
        double plain_time = least_of(rounds, plain_rows);
        compare(&bits, &others);
        hypotenuse = jenwyllt_hypot;
        double rounded_time = least_of(rounds, plain_rows);
        compare(&rounded_bits, &rounded_others);
        printf("%s: ours %.0f; plain %.0f, ratio %.2f, %d other bits; with the rounded hypotenuse %.0f, ratio %.2f, %d other bits; other numbers %d\n", names[kind],
               our_time, plain_time, our_time / plain_time, bits, rounded_time, our_time / rounded_time, rounded_bits, others + rounded_others);
    }
    return 0;
}
