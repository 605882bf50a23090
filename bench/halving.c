/* The product by halves of lists of 128-bit words in plain C, beside the plain product with 64-bit
   operands: what the calls of dl_halves do, without contracts. Build: clang -O3 halving.c -o halving */
#include <stdint.h>
#include <stdio.h>
#include <stdlib.h>
#include <time.h>

typedef unsigned __int128 word;

static word column(const word *a, const word *b, size_t n, size_t s) {
    size_t first = s + 1 > n ? s + 1 - n : 0, last = s + 1 < n ? s + 1 : n;
    word sum = 0;
    for (size_t i = first; i < last; i++) sum += a[i] * b[s - i];
    return sum;
}

static void halved(size_t n, const word *a, const word *b, word *out, word *work) {
    if (n == 32) {
        for (size_t s = 0; s < 64; s++) out[s] = column(a, b, n, s);
        return;
    }
    size_t half = n / 2;
    word *left = work, *right = work + half, *middle = work + n, *spare = work + 2 * n;
    halved(half, a, b, out, work);
    halved(half, a + half, b + half, out + n, work);
    for (size_t i = 0; i < half; i++) left[i] = a[i] + a[half + i];
    for (size_t i = 0; i < half; i++) right[i] = b[i] + b[half + i];
    halved(half, left, right, middle, spare);
    for (size_t t = 0; t < n; t++) middle[t] = middle[t] - out[t] - out[n + t];
    for (size_t t = 0; t < n; t++) out[half + t] += middle[t];
}

static void plain_sums(size_t n, const word *a, const word *b, word *out) {
    for (size_t s = 0; s < n; s++) {
        word sum = 0;
        for (size_t i = 0; i <= s; i++) sum += (word)(uint64_t)a[i] * (uint64_t)b[s - i];
        out[s] = sum;
    }
}

#define HALVED_FROM 1536

static void halved_sums(size_t n, const word *a, const word *b, word *out, word *work) {
    if (n < HALVED_FROM) {
        plain_sums(n, a, b, out);
        return;
    }
    size_t half = 32;
    while (2 * half < n) half *= 2;
    halved(half, a, b, work, work + 2 * half);
    for (size_t s = 0; s < n; s++) out[s] = work[s];
    halved_sums(n - half, a + half, b, work, work + (n - half));
    for (size_t t = 0; t < n - half; t++) out[half + t] += work[t];
    halved_sums(n - half, a, b + half, work, work + (n - half));
    for (size_t t = 0; t < n - half; t++) out[half + t] += work[t];
}

static double seconds(void) {
    struct timespec t;
    clock_gettime(CLOCK_PROCESS_CPUTIME_ID, &t);
    return t.tv_sec + 1e-9 * t.tv_nsec;
}

int main(void) {
    size_t sizes[] = {512, 1000, 1024, 1500, 1536, 2048, 3000, 4096};
    for (size_t k = 0; k < sizeof sizes / sizeof *sizes; k++) {
        size_t n = sizes[k];
        word *a = malloc(16 * n), *b = malloc(16 * n), *out = malloc(16 * n), *work = malloc(96 * n);
        uint32_t x = (uint32_t)n;
        for (size_t i = 0; i < n; i++) {
            x = x * 1664525u + 1013904223u;
            a[i] = ((word)(x / 65536) << 40) / n;
            x = x * 1664525u + 1013904223u;
            b[i] = ((word)(x / 65536) << 40) / n;
        }
        double best = 1e9, best_plain = 1e9;
        for (int round = 0; round < 9; round++) {
            double t = seconds();
            for (int list = 0; list < 2; list++) halved_sums(n, a, b, out, work);
            if (seconds() - t < best) best = seconds() - t;
            t = seconds();
            for (int list = 0; list < 2; list++) plain_sums(n, a, b, out);
            if (seconds() - t < best_plain) best_plain = seconds() - t;
        }
        printf("%zu cells: by halves %.0f us, plain %.0f us (%u)\n", n, best * 1e6, best_plain * 1e6, (unsigned)out[n - 1]);
        free(a), free(b), free(out), free(work);
    }
}
