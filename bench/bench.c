/* Times proved steps, and a whole call of the C entry, on a 256 x 256 grey frame against plain C of the same definitions. */
#define _POSIX_C_SOURCE 199309L
#include <stdint.h>
#include <stdio.h>
#include <stdlib.h>
#include <string.h>
#include <time.h>
#include "recipe_stage.h"

enum { W = 256, H = 256, N = W * H, FULL = 0x739C0 };

/* The exported functions: a slice comes as a pointer and a length. */
void erode_frame(uint8_t *block, size_t length, uint32_t mask);
void select_frame(uint8_t *block, size_t length, uint32_t mask);

static double now(void) {
    struct timespec t;
    clock_gettime(CLOCK_MONOTONIC, &t);
    return t.tv_sec + t.tv_nsec * 1e-9;
}

/* Erosion, row by row: the loop that the proved code has. */
__attribute__((noinline)) static void c_erode(uint8_t *block, uint32_t mask) {
    uint8_t *from = block, *to = block + N;
    for (int y = 0; y < H; y++) {
        uint8_t *out = to + y * W;
        memset(out, 255, W);
        for (int b = 0; b < 25; b++) {
            int row = y + b / 5 - 2, dx = b % 5 - 2;
            if (!(mask >> b & 1) || row < 0 || row >= H) continue;
            const uint8_t *in = from + row * W;
            int first = dx < 0 ? -dx : 0, last = dx > 0 ? W - dx : W;
            for (int x = first; x < last; x++) {
                uint8_t a = out[x], c = in[x + dx];
                out[x] = a < c ? a : c;
            }
        }
    }
}

typedef struct {
    uint64_t count, sum, squares, lowest, highest;
} window;

static window c_window(const uint8_t *plane, uint32_t mask, int x, int y) {
    window w = {0, 0, 0, UINT64_MAX, 0};
    for (int b = 0; b < 25; b++) {
        int cx = x - (b % 5 - 2), cy = y - (b / 5 - 2);
        if (!(mask >> b & 1) || cx < 0 || cx >= W || cy < 0 || cy >= H) continue;
        uint64_t r = plane[cy * W + cx];
        w.count++;
        w.sum += r;
        w.squares += r * r;
        if (r < w.lowest) w.lowest = r;
        if (r > w.highest) w.highest = r;
    }
    return w;
}

static int good(window a, window b) {
    uint64_t p = a.count * a.squares - a.sum * a.sum, q = b.count * b.squares - b.sum * b.sum;
    return p * (b.count * b.count) <= q * (a.count * a.count);
}

static uint64_t away(uint64_t rank, window w) {
    uint64_t at = rank * w.count;
    return w.sum < at ? at - w.sum : w.sum - at;
}

static int wins(uint64_t rank, window a, window b) {
    if (!good(a, b)) return 0;
    if (!good(b, a)) return 1;
    uint64_t p = away(rank, a) * b.count, q = away(rank, b) * a.count;
    if (p != q) return p < q;
    return a.sum * b.count < b.sum * a.count;
}

/* Select-low by least variance, by the definition: the window of each candidate of each place. */
__attribute__((noinline)) static void c_select(uint8_t *block, uint32_t mask) {
    uint8_t *plane = block, *scratch = block + N;
    for (int y = 0; y < H; y++)
        for (int x = 0; x < W; x++) {
            uint64_t rank = plane[y * W + x];
            window best = {0};
            for (int b = 0; b < 25; b++) {
                int cx = x + b % 5 - 2, cy = y + b / 5 - 2;
                if (!(mask >> b & 1) || cx < 0 || cx >= W || cy < 0 || cy >= H) continue;
                window w = c_window(plane, mask, cx, cy);
                if (best.count == 0 || wins(rank, w, best)) best = w;
            }
            scratch[y * W + x] = best.count ? (2 * best.sum + best.count - 1) / (2 * best.count) : rank;
        }
    memcpy(plane, scratch, N);
}

typedef void step(uint8_t *, uint32_t);

static void proved_erode(uint8_t *block, uint32_t mask) { erode_frame(block, 2 * N, mask); }
static void proved_select(uint8_t *block, uint32_t mask) { select_frame(block, 2 * N, mask); }

/* The best of some rounds, in seconds for one call. The frame is laid anew before each round. */
static double timed(step *f, const uint8_t *frame, uint8_t *block, int rounds, int calls) {
    double best = 1e9;
    for (int r = 0; r < rounds; r++) {
        memcpy(block, frame, N);
        double start = now();
        for (int i = 0; i < calls; i++) f(block, FULL);
        double t = (now() - start) / calls;
        if (t < best) best = t;
    }
    return best;
}

static int compare(const char *name, step *proved, step *plain, const uint8_t *frame, int rounds, int calls, double looks, double limit) {
    static uint8_t one[2 * N], two[2 * N];
    memcpy(one, frame, N);
    memcpy(two, frame, N);
    memset(one + N, 0, N);
    memset(two + N, 0, N);
    proved(one, FULL);
    plain(two, FULL);
    if (memcmp(one, two, sizeof one)) {
        printf("%s: the two differ\n", name);
        return 1;
    }
    /* taken in turn, so that a slow moment hits both */
    double p = 1e9, c = 1e9;
    for (int i = 0; i < 5; i++) {
        double t = timed(proved, frame, one, rounds, calls);
        if (t < p) p = t;
        t = timed(plain, frame, two, rounds, calls);
        if (t < c) c = t;
    }
    printf("%s: proved %.3f ns a look, C %.3f ns a look, ratio %.2f (limit %.1f)\n", name, p / looks * 1e9, c / looks * 1e9, p / c, limit);
    return p > limit * c;
}

/* ---- A whole call: a recipe of a frame and an erosion, from the frame to the output ---- */

typedef struct {
    uint8_t frame[N], block[3 * N], output[N];
} desk;

typedef void call(desk *);

static void proved_call(desk *d) {
    static const uint8_t recipe[] = {1, 0, 0, 0, 0, 0, 0, 0, 3, 0xC0, 0x39, 0x07, 0, 0, 0, 0};
    if (recipe_stage_grey_variance(recipe, sizeof recipe, W, H, d->frame, N, d->block, sizeof d->block, d->output, N)) abort();
}

/* The frame copied in, eroded, and the result copied out. */
static void c_call(desk *d) {
    memcpy(d->block, d->frame, N);
    c_erode(d->block, FULL);
    memcpy(d->output, d->block + N, N);
}

static double timed_call(call *f, desk *d, int rounds, int calls) {
    double best = 1e9;
    for (int r = 0; r < rounds; r++) {
        double start = now();
        for (int i = 0; i < calls; i++) f(d);
        double t = (now() - start) / calls;
        if (t < best) best = t;
    }
    return best;
}

static int compare_calls(const uint8_t *frame, double limit) {
    static desk one, two;
    memcpy(one.frame, frame, N);
    memcpy(two.frame, frame, N);
    proved_call(&one);
    c_call(&two);
    if (memcmp(one.output, two.output, N)) {
        printf("whole call: the two differ\n");
        return 1;
    }
    double p = 1e9, c = 1e9;
    for (int i = 0; i < 5; i++) {
        double t = timed_call(proved_call, &one, 20, 50);
        if (t < p) p = t;
        t = timed_call(c_call, &two, 20, 50);
        if (t < c) c = t;
    }
    printf("whole call, erode 3 x 3: proved %.1f us, C %.1f us, ratio %.2f (limit %.1f)\n", p * 1e6, c * 1e6, p / c, limit);
    return p > limit * c;
}

int main(void) {
    static uint8_t frame[N];
    srand(1);
    for (int i = 0; i < N; i++) frame[i] = rand() >> 7;
    int slow = compare("erode 3 x 3", proved_erode, c_erode, frame, 20, 50, 9.0 * N, 1.3);
    slow |= compare("select 3 x 3", proved_select, c_select, frame, 2, 2, 81.0 * N, 2.0);
    slow |= compare_calls(frame, 1.5);
    return slow;
}
