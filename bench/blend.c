/* The twin in C of the kernel of dissolves, and the measure of both, which take turns: the best of each and the median of the ratios.
   `bench/blend` builds and runs it. */

#define _POSIX_C_SOURCE 199309L

#include <stdint.h>
#include <stdio.h>
#include <stdlib.h>
#include <string.h>
#include <time.h>

enum { WIDTH = 1920, CACHED_ROWS = 2, PLANE_ROWS = 1080 * 16, ROUNDS = 21 };
enum { SAMPLES = 1 << 26 };

/* The call of the library in Rattle. A slice is a place and a length. */
void blend_c_row(const uint8_t *a, size_t a_len, const uint8_t *b, size_t b_len, uint8_t weight, uint8_t *into, size_t into_len);

/* Not inlined, as the other one isn't. */
__attribute__((noinline)) static void twin_row(
    const uint8_t *restrict a, const uint8_t *restrict b, uint8_t weight, uint8_t *restrict into, size_t len)
{
    for (size_t x = 0; x < len; x++)
        into[x] = (a[x] * (256 - weight) + b[x] * weight + 128) >> 8;
}

static uint8_t *a, *b, *ours, *theirs;

static uint8_t noise(void)
{
    static uint64_t x = 88172645463325252u;
    x ^= x << 13;
    x ^= x >> 7;
    x ^= x << 17;
    return x >> 32;
}

/* Seconds of processor time, so that other programs count less. */
static double now(void)
{
    struct timespec t;
    clock_gettime(CLOCK_PROCESS_CPUTIME_ID, &t);
    return t.tv_sec + t.tv_nsec / 1e9;
}

/* Rows of that many, over and over, until so many samples are blended. */
static double pass(int is_ours, size_t rows)
{
    double start = now();
    for (size_t done = 0; done < SAMPLES; done += WIDTH) {
        size_t at = done / WIDTH % rows * WIDTH;
        uint8_t weight = 1 + done / WIDTH % 255;
        if (is_ours)
            blend_c_row(a + at, WIDTH, b + at, WIDTH, weight, ours + at, WIDTH);
        else
            twin_row(a + at, b + at, weight, theirs + at, WIDTH);
    }
    return now() - start;
}

static int by_size(const void *p, const void *q)
{
    double x = *(const double *)p, y = *(const double *)q;
    return (x > y) - (x < y);
}

static void measure(const char *name, size_t rows)
{
    double best_ours = 1e9, best_twin = 1e9, ratios[ROUNDS];
    for (int round = 0; round < ROUNDS; round++) {
        double twin_time = pass(0, rows), our_time = pass(1, rows);
        best_twin = twin_time < best_twin ? twin_time : best_twin;
        best_ours = our_time < best_ours ? our_time : best_ours;
        ratios[round] = our_time / twin_time;
    }
    if (memcmp(ours, theirs, rows * WIDTH)) {
        fprintf(stderr, "bench/blend: %s: the two sides differ\n", name);
        exit(1);
    }
    qsort(ratios, ROUNDS, sizeof *ratios, by_size);
    printf("%-24s%12.0f%12.0f  M samples/s%8.2f\n", name, SAMPLES / best_ours / 1e6, SAMPLES / best_twin / 1e6, ratios[ROUNDS / 2]);
}

int main(void)
{
    size_t count = (size_t)PLANE_ROWS * WIDTH;
    a = malloc(count), b = malloc(count), ours = calloc(count, 1), theirs = calloc(count, 1);
    if (!a || !b || !ours || !theirs)
        abort();
    for (size_t i = 0; i < count; i++)
        a[i] = noise(), b[i] = noise();
    printf("rows of %d samples; %d rounds\n%-24s%12s%12s%21s\n", WIDTH, ROUNDS, "best of each", "Rattle", "C", "time");
    measure("rows in the cache", CACHED_ROWS);
    measure("sixteen planes of HD", PLANE_ROWS);
    return 0;
}
