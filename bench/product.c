/* The product of two grids in C, by the transforms that `decl` uses (crates/dl_transform): two primes of 62 bits, products by
   constants after Shoup, products of values after Montgomery, each sum from its two remainders after Garner, one floor and one
   ceiling a cell. Nothing is checked and nothing is proved here: this is what the proved product is measured beside.

     product CELLS [ROUNDS]

   Both lists are full: CELLS cells from 1 to 16,384. It prints the median time of a product of two grids (low and high ends),
   in microseconds, with tables and buffers ready, and the sum of the cells' low ends as a check. cc -O3 -o product product.c */
#include <stdint.h>
#include <stdio.h>
#include <stdlib.h>
#include <string.h>
#include <time.h>

typedef uint64_t word;
typedef unsigned __int128 wide;

enum { MOST = 1 << 15 };

struct table {
    word p, minus_inverse, root[MOST / 2], quotient[MOST / 2], inverse[MOST / 2], inverse_quotient[MOST / 2], scale, scale_quotient;
};

static word times_mod(word x, word y, word p) { return (wide)x * y % p; }

static word power(word x, word e, word p) {
    word result = 1;
    for (; e; e >>= 1, x = times_mod(x, x, p))
        if (e & 1)
            result = times_mod(result, x, p);
    return result;
}

static word quotient(word w, word p) { return ((wide)w << 64) / p; }

static void set_up(struct table *t, word p, int levels) {
    int size = 1 << levels;
    t->p = p;
    word inverse = 1;
    for (int k = 0; k < 6; k++)
        inverse *= 2 - p * inverse;
    t->minus_inverse = -inverse;
    t->root[0] = 1;
    for (int bit = 1, level = levels; bit < size / 2; bit *= 2, level--) {
        word step = power(3, (p - 1) >> (levels - level + 2), p);
        for (int k = bit; k < 2 * bit; k++)
            t->root[k] = times_mod(t->root[k - bit], step, p);
    }
    for (int k = 0; k < size / 2; k++) {
        t->quotient[k] = quotient(t->root[k], p);
        t->inverse[k] = power(t->root[k], p - 2, p);
        t->inverse_quotient[k] = quotient(t->inverse[k], p);
    }
    /* the products of values lack a factor 2^64, and the items come out 2^levels times */
    word lift = times_mod((word)1 << 32, (word)1 << 32, p);
    t->scale = times_mod(lift, power(power(2, levels, p), p - 2, p), p);
    t->scale_quotient = quotient(t->scale, p);
}

static inline word times(word x, word w, word q, word p) { return x * w - (word)((wide)x * q >> 64) * p; }

static inline word lowered(word x, word most) { return x >= most ? x - most : x; }

static void to_values(word *x, int size, const struct table *t) {
    word p = t->p;
    for (int half = size / 2, nodes = 1; half; half /= 2, nodes *= 2)
        for (int node = 0; node < nodes; node++) {
            word w = t->root[node], q = t->quotient[node], *low = x + 2 * half * node, *high = low + half;
            for (int i = 0; i < half; i++) {
                word a = lowered(low[i], 2 * p), b = times(high[i], w, q, p);
                low[i] = a + b;
                high[i] = a + 2 * p - b;
            }
        }
}

static void to_items(word *x, int size, const struct table *t) {
    word p = t->p;
    for (int half = 1, nodes = size / 2; nodes; half *= 2, nodes /= 2)
        for (int node = 0; node < nodes; node++) {
            word w = t->inverse[node], q = t->inverse_quotient[node], *low = x + 2 * half * node, *high = low + half;
            for (int i = 0; i < half; i++) {
                word u = low[i], v = high[i];
                low[i] = lowered(u + v, 2 * p);
                high[i] = times(u + 2 * p - v, w, q, p);
            }
        }
}

static void load(word *x, const wide *a, int cells, int size, word p) {
    for (int i = 0; i < cells; i++)
        x[i] = lowered((word)a[i], 2 * p);
    memset(x + cells, 0, (size_t)(size - cells) * sizeof *x);
}

static void remainders(word *x, word *y, const wide *a, const wide *b, int cells, int size, const struct table *t) {
    word p = t->p;
    load(x, a, cells, size, p);
    to_values(x, size, t);
    load(y, b, cells, size, p);
    to_values(y, size, t);
    for (int i = 0; i < size; i++) {
        word u = lowered(x[i], 2 * p), v = lowered(y[i], 2 * p);
        wide product = (wide)u * v;
        word m = (word)product * t->minus_inverse;
        x[i] = (product + (wide)m * p) >> 64;
    }
    to_items(x, size, t);
}

static struct table first, second;
static word x1[MOST], x2[MOST], spare[MOST], garner, garner_quotient;

static void sums(wide *out, const wide *a, const wide *b, int cells, int size) {
    remainders(x1, spare, a, b, cells, size, &first);
    remainders(x2, spare, a, b, cells, size, &second);
    word p1 = first.p, p2 = second.p;
    for (int s = 0; s < cells; s++) {
        word r1 = lowered(times(x1[s], first.scale, first.scale_quotient, p1), p1);
        word r2 = lowered(times(x2[s], second.scale, second.scale_quotient, p2), p2);
        out[s] = r1 + (wide)p1 * lowered(times(r2 + p2 - r1, garner, garner_quotient, p2), p2);
    }
}

static int by_size(const void *a, const void *b) {
    double x = *(const double *)a, y = *(const double *)b;
    return (x > y) - (x < y);
}

int main(int count, char **words) {
    int cells = count > 1 ? atoi(words[1]) : 0, rounds = count > 2 ? atoi(words[2]) : 21;
    if (cells < 1 || cells > MOST / 2 || rounds < 1)
        return 1;
    int levels = 1;
    while (1 << levels < 2 * cells)
        levels++;
    set_up(&first, 4611686018422669313u, levels);
    set_up(&second, 4611686018425815041u, levels);
    garner = power(first.p, second.p - 2, second.p);
    garner_quotient = quotient(garner, second.p);
    wide one = (wide)1 << 56, *lows = calloc((size_t)cells, sizeof *lows), *highs = calloc((size_t)cells, sizeof *highs);
    for (int s = 0; s < cells; s++)
        lows[s] = highs[s] = one / (unsigned)cells - (unsigned)s * 7919u % 1000u;
    double *taken = calloc((size_t)rounds, sizeof *taken);
    wide check = 0;
    for (int k = 0; k < rounds; k++) {
        struct timespec from, to;
        clock_gettime(CLOCK_MONOTONIC, &from);
        wide *low = malloc((size_t)cells * sizeof *low), *high = malloc((size_t)cells * sizeof *high);
        sums(low, lows, lows, cells, 1 << levels);
        sums(high, highs, highs, cells, 1 << levels);
        for (int s = 0; s < cells; s++) {
            low[s] >>= 56;
            high[s] = (high[s] + one - 1) >> 56;
            high[s] = high[s] < one ? high[s] : one;
        }
        clock_gettime(CLOCK_MONOTONIC, &to);
        taken[k] = 1e6 * (double)(to.tv_sec - from.tv_sec) + 1e-3 * (double)(to.tv_nsec - from.tv_nsec);
        check = 0;
        for (int s = 0; s < cells; s++)
            check += low[s];
        free(low);
        free(high);
    }
    qsort(taken, (size_t)rounds, sizeof *taken, by_size);
    printf("%d cells: median %.1f, least %.1f us; low ends sum to %llu\n", cells, taken[rounds / 2], taken[0], (unsigned long long)check);
    return 0;
}
