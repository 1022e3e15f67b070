/*
 * Compares the proved stage, through its C entry, with the model of bench/model.c on random recipes and frames, good and
 * damaged. Ends with status 1 where the two differ, or where a number that can come did not.
 *
 *     compare [cases [seed]]
 */
#include <stdint.h>
#include <stdio.h>
#include <stdlib.h>
#include <string.h>
#include "model.h"
#include "recipe_stage.h"

/* ---- Random numbers, the same on every machine ---- */

static uint64_t state;

static uint64_t any(void) {
    uint64_t z = (state += 0x9E3779B97F4A7C15u);
    z = (z ^ z >> 30) * 0xBF58476D1CE4E5B9u;
    z = (z ^ z >> 27) * 0x94D049BB133111EBu;
    return z ^ z >> 31;
}

/* From low to high, both included. */
static int64_t between(int64_t low, int64_t high) { return low + (int64_t)(any() % (uint64_t)(high - low + 1)); }

static int chance(int percent) { return between(1, 100) <= percent; }

/* ---- A case: what is put to both ---- */

enum { MOST_BYTES = 1024, MOST_LEVELS = 1 << 16, GUARD = 16 };

typedef struct {
    int high; /* heights, and not grey levels */
    enum model_rule rule;
    uint8_t recipe[MOST_BYTES];
    size_t recipe_length, width, height, frame_length, block_length, output_length;
    int32_t frame[MOST_LEVELS]; /* ranks */
} problem;

static int32_t top(const problem *p) { return p->high ? 65535 : 255; }

/* The levels of a plane; 0 for a size that no cell takes. */
static size_t places(const problem *p) {
    return p->width <= 256 && p->height <= 256 ? p->width * p->height : 0;
}

static void choose_size(problem *p) {
    int kind = (int)between(1, 100);
    int64_t most = kind <= 50 ? 8 : kind <= 85 ? 16 : 40;
    p->width = between(1, most);
    p->height = between(1, most);
    if (kind > 90 && kind <= 93) p->height = 1;
    if (kind > 93 && kind <= 95) p->width = 1;
    if (kind == 96) p->width = 256, p->height = between(1, 3);
    if (kind == 97) p->height = 256, p->width = between(1, 3);
    if (kind == 98) p->width = chance(50) ? 0 : 257;
    if (kind == 99) p->height = chance(50) ? 0 : 257;
    if (kind == 100) *(chance(50) ? &p->width : &p->height) = chance(50) ? SIZE_MAX : (size_t)any();
}

static uint32_t choose_element(void) {
    static const uint32_t named[] = {0x739C0, 0x23880, 0x3800, 0x2000, 0x1FFFFFF, 0x3000, 0x3400, 0x1000};
    uint32_t e = 0;
    switch (between(0, 4)) {
    case 0: return named[between(0, 7)];
    case 1: e = (uint32_t)any() & 0x739C0; break;
    case 2:
        for (int i = (int)between(1, 4); i > 0; i--) e |= 1u << between(0, 24);
        break;
    case 3: e = (uint32_t)(any() & any()) & 0x1FFFFFF; break;
    default: e = (uint32_t)any() & 0x1FFFFFF;
    }
    return e ? e : 0x1000;
}

static void add_record(problem *p, int kind, uint32_t element) {
    if (p->recipe_length + 8 > MOST_BYTES) return;
    uint8_t *r = p->recipe + p->recipe_length;
    memset(r, 0, 8);
    r[0] = (uint8_t)kind;
    for (int i = 0; i < 4; i++) r[1 + i] = (uint8_t)(element >> 8 * i);
    p->recipe_length += 8;
}

/* A recipe that keeps its stack right; now and then a long one, up to one record too many. */
static void choose_recipe(problem *p) {
    static const int changes[] = {2, 3, 4, 5, 6, 11, 12, 3, 4, 5, 6};
    p->recipe_length = 0;
    int records = (int)(chance(5) ? between(50, 65) : between(1, 12));
    int depth = 0;
    while ((int)p->recipe_length / 8 + depth <= records || !depth) {
        if (!depth || (depth < 4 && chance(25))) {
            add_record(p, 1, 0);
            depth++;
        } else if (depth > 1 && chance(35)) {
            add_record(p, (int)between(7, 10), 0);
            depth--;
        } else {
            int kind = changes[between(0, 10)];
            add_record(p, kind, kind == 2 ? 0 : choose_element());
        }
    }
    for (; depth > 1; depth--) add_record(p, (int)between(7, 10), 0);
}

/* Full range, few levels (so that windows tie), one level, ends only, or a slope. */
static void choose_frame(problem *p) {
    int32_t t = top(p), base = (int32_t)between(0, t), few = (int32_t)between(1, 4);
    int kind = (int)between(0, 4);
    size_t n = places(p);
    p->frame_length = n < MOST_LEVELS - 1 ? n : MOST_LEVELS - 1;
    for (size_t i = 0; i < MOST_LEVELS && i <= p->frame_length; i++) {
        int32_t r = (int32_t)between(0, t);
        if (kind == 1) r = base + (int32_t)between(0, few);
        if (kind == 2) r = base;
        if (kind == 3) r = r % 2 ? t : 0;
        if (kind == 4) r = base + (int32_t)(i * few);
        p->frame[i] = r % (t + 1);
    }
}

static uint8_t *some_record(problem *p) {
    return p->recipe + 8 * between(0, p->recipe_length >= 8 ? (int64_t)p->recipe_length / 8 - 1 : 0);
}

static void damage(problem *p, size_t need) {
    uint8_t *r = some_record(p);
    size_t n = places(p);
    switch (between(0, 15)) {
    case 0: p->recipe[between(0, MOST_BYTES - 1) % (p->recipe_length ? p->recipe_length : 1)] ^= 1 << between(0, 7); break;
    case 1: r[between(0, 7)] = (uint8_t)any(); break;
    case 2: p->recipe_length -= between(0, p->recipe_length < 9 ? (int64_t)p->recipe_length : 9); break;
    case 3: r[0] = chance(50) ? 0 : (uint8_t)between(13, 255); break;
    case 4: r[between(5, 7)] = (uint8_t)between(1, 255); break;
    case 5: memset(r + 1, 0, 4); break;
    case 6: r[4] |= 1 << between(1, 7); break;
    case 7: add_record(p, 1, 0); break;
    case 8:
        for (int i = 0; i < 5; i++) add_record(p, 1, 0);
        break;
    case 9: r[0] = (uint8_t)between(7, 10), memset(r + 1, 0, 4); break;
    case 10: p->frame_length += chance(50) || !p->frame_length ? 1 : -1; break;
    case 11: p->output_length += chance(50) || !p->output_length ? 1 : -1; break;
    case 12:
    case 13: p->block_length = need ? need - 1 : 0; break;
    case 14: p->block_length = n ? 3 * n - 1 : 0; break;
    default:
        if (chance(20)) p->recipe_length = 0;
        else p->recipe_length += between(1, 8);
    }
}

static void choose(problem *p, int number) {
    p->high = number & 1;
    p->rule = number & 2 ? LEAST_RANGE : LEAST_VARIANCE;
    memset(p->recipe, 0, sizeof p->recipe);
    choose_size(p);
    choose_recipe(p);
    choose_frame(p);
    p->output_length = p->frame_length;
    model_answer a = model_run(top(p), p->rule, p->recipe, p->recipe_length, p->width, p->height, p->frame, 0,
                               SIZE_MAX, 0);
    size_t need = (a.planes + 2) * places(p);
    p->block_length = chance(50) ? need : need + between(0, 9);
    if (chance(35))
        for (int i = chance(75) ? 1 : 2; i > 0; i--) damage(p, need);
}

/* ---- One comparison ---- */

typedef uint32_t grey_entry(const uint8_t *, size_t, size_t, size_t, const uint8_t *, size_t, uint8_t *, size_t, uint8_t *, size_t);
typedef uint32_t height_entry(const uint8_t *, size_t, size_t, size_t, const int16_t *, size_t, int16_t *, size_t, int16_t *, size_t);

static grey_entry *const grey_entries[] = {recipe_stage_grey_variance, recipe_stage_grey_range};
static height_entry *const height_entries[] = {recipe_stage_height_variance, recipe_stage_height_range};

/* Levels of either kind, with a guard behind them. */
typedef struct {
    uint8_t grey[6 * MOST_LEVELS + GUARD];
    int16_t height[6 * MOST_LEVELS + GUARD];
} levels;

static void put(levels *l, size_t i, int32_t rank) {
    l->grey[i] = (uint8_t)rank;
    l->height[i] = (int16_t)(rank - 32768);
}

static int32_t rank_at(const levels *l, int high, size_t i) { return high ? l->height[i] + 32768 : l->grey[i]; }

static int same(const levels *a, const levels *b, int high, size_t from, size_t to) {
    return high ? !memcmp(a->height + from, b->height + from, (to - from) * sizeof(int16_t))
                : !memcmp(a->grey + from, b->grey + from, to - from);
}

static void noise(levels *l, levels *copy, size_t n, int high) {
    for (size_t i = 0; i < n; i++) {
        int32_t r = (int32_t)(any() & 65535);
        if (high) l->height[i] = copy->height[i] = (int16_t)(r - 32768);
        else l->grey[i] = copy->grey[i] = (uint8_t)r;
    }
}

/* What differs, or null. The number is told to the caller. */
static const char *compare(const problem *p, uint32_t *number) {
    static levels frame, frame_before, block, block_before, output, output_before;
    uint8_t recipe[MOST_BYTES];
    int high = p->high;
    size_t frame_end = p->frame_length + GUARD, block_end = p->block_length + GUARD, output_end = p->output_length + GUARD;
    noise(&frame, &frame_before, frame_end, high);
    noise(&block, &block_before, block_end, high);
    noise(&output, &output_before, output_end, high);
    for (size_t i = 0; i < p->frame_length; i++) put(&frame, i, p->frame[i]), put(&frame_before, i, p->frame[i]);
    memcpy(recipe, p->recipe, sizeof recipe);

    uint32_t got = high ? height_entries[p->rule](recipe, p->recipe_length, p->width, p->height, frame.height, p->frame_length,
                                                  block.height, p->block_length, output.height, p->output_length)
                        : grey_entries[p->rule](recipe, p->recipe_length, p->width, p->height, frame.grey, p->frame_length,
                                                block.grey, p->block_length, output.grey, p->output_length);
    model_answer want = model_run(top(p), p->rule, p->recipe, p->recipe_length, p->width, p->height, p->frame,
                                  p->frame_length, p->block_length, p->output_length);
    *number = want.number;
    const char *differs = NULL;
    size_t written = 0, used = 0;
    if (got != want.number) differs = "the number";
    if (!want.number) {
        written = p->output_length;
        used = (want.planes + 2) * places(p);
        for (size_t i = 0; i < written && !differs; i++)
            if (rank_at(&output, high, i) != want.image[i]) differs = "the image";
    }
    if (!differs && !same(&output, &output_before, high, written, output_end)) differs = "the output, where nothing is to be written";
    if (!differs && !same(&block, &block_before, high, used, block_end)) differs = "the block, where nothing is to be written";
    if (!differs && !same(&frame, &frame_before, high, 0, frame_end)) differs = "the frame";
    if (!differs && memcmp(recipe, p->recipe, sizeof recipe)) differs = "the recipe";
    free(want.image);
    return differs;
}

/* The same of the sheet. */
static const char *compare_sheets(const problem *p) {
    uint8_t sheet[3] = {0xA5, 0x5A, 0xC3};
    model_sheet want = model_check(p->recipe, p->recipe_length);
    if (recipe_stage_sheet(p->recipe, p->recipe_length, sheet) != want.number) return "the number of the sheet";
    if (want.number) return sheet[0] == 0xA5 && sheet[1] == 0x5A && sheet[2] == 0xC3 ? NULL : "the sheet of a refused recipe";
    return sheet[0] == want.planes && sheet[1] == want.reach && sheet[2] == want.marks ? NULL : "the sheet";
}

int main(int argc, char **argv) {
    static const int expected[] = {0, 1, 11, 12, 13, 14, 16, 17, 18, 19, 20};
    static problem p;
    long cases = argc > 1 ? atol(argv[1]) : 100000, differences = 0, missing = 0;
    static long told[32], done[13]; /* by number; by kind of record, in accepted recipes */
    state = argc > 2 ? strtoull(argv[2], NULL, 10) : 1;
    for (long i = 0; i < cases; i++) {
        uint32_t number;
        choose(&p, (int)(i & 3));
        const char *differs = compare(&p, &number);
        if (!differs) differs = compare_sheets(&p);
        told[number]++;
        for (size_t r = 0; !number && r < p.recipe_length; r += 8) done[p.recipe[r]]++;
        if (differs && differences++ < 10)
            printf("case %ld: %s differs (%s, %s, %zu x %zu, model %u)\n", i, differs, p.high ? "height" : "grey",
                   p.rule == LEAST_RANGE ? "least range" : "least variance", p.width, p.height, number);
    }
    printf("%ld cases: %ld accepted, %ld refused\n", cases, told[0], cases - told[0]);
    for (size_t i = 1; i < sizeof expected / sizeof *expected; i++) printf("  refused %2d: %ld\n", expected[i], told[expected[i]]);
    printf("records run, of kinds 1 to 12:");
    for (int kind = 1; kind <= 12; kind++) printf(" %ld", done[kind]);
    printf("\n");
    for (size_t i = 0; i < sizeof expected / sizeof *expected; i++)
        if (cases >= 10000 && !told[expected[i]]) {
            printf("%d did not come\n", expected[i]);
            missing++;
        }
    printf("%ld differences\n", differences);
    return differences || missing;
}
