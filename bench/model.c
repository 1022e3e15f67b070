/*
 * A recipe is read into a tree: a node for each record, over the nodes that it works on. A node's image is worked out from
 * fresh copies of its children's images. Nothing here is shared with the proved code but docs/.
 */
#include "model.h"
#include <stdlib.h>

enum { FRAME = 1, NEGATE, ERODE, DILATE, OPEN, CLOSE, MEET, JOIN, MEAN_LOW, MEAN_HIGH, SELECT_LOW, SELECT_HIGH };

typedef struct node {
    int kind;
    uint32_t element;
    const struct node *lower, *upper; /* the plane that is changed is `upper`; a merge has both */
} node;

typedef struct {
    int width, height;
    int32_t top;
    enum model_rule rule;
    const int32_t *frame;
} scene;

/* ---- The check of a recipe ---- */

static int has_element(int kind) {
    return (kind >= ERODE && kind <= CLOSE) || kind == SELECT_LOW || kind == SELECT_HIGH;
}

static int is_merge(int kind) { return kind >= MEET && kind <= MEAN_HIGH; }

/* 12, 13, 14, or 0 where the record can be read. */
static uint32_t record_fault(const uint8_t *r) {
    if (r[0] == 0 || r[0] > 12) return 12;
    int zeros_from = has_element(r[0]) ? 5 : 1;
    for (int i = zeros_from; i < 8; i++)
        if (r[i]) return 13;
    if (!has_element(r[0])) return 0;
    int some = r[1] | r[2] | r[3] | r[4];
    return !some || r[4] > 1 ? 14 : 0; /* byte 4 has bits 24 to 31, of which 24 is an offset */
}

/* Reads the recipe into nodes; the root is its image. */
static uint32_t read_recipe(const uint8_t *recipe, size_t length, node nodes[64], const node **root, int *planes) {
    if (length < 8 || length > 512 || length % 8) return 11;
    const node *stack[4];
    int depth = 0;
    *planes = 0;
    for (size_t i = 0; i < length / 8; i++) {
        const uint8_t *r = recipe + 8 * i;
        uint32_t fault = record_fault(r);
        if (fault) return fault;
        node *n = &nodes[i];
        n->kind = r[0];
        n->element = r[1] | (uint32_t)r[2] << 8 | (uint32_t)r[3] << 16 | (uint32_t)r[4] << 24;
        n->lower = n->upper = NULL;
        int wants = n->kind == FRAME ? 0 : is_merge(n->kind) ? 2 : 1;
        if (depth < wants) return 16;
        if (n->kind == FRAME && depth == 4) return 17;
        if (wants >= 1) n->upper = stack[--depth];
        if (wants == 2) n->lower = stack[--depth];
        stack[depth++] = n;
        if (depth > *planes) *planes = depth;
    }
    if (depth > 1) return 18;
    *root = stack[0];
    return 0;
}

/* ---- The sheet ---- */

enum { B = 1, D = 2, K = 4, T = 8, S = 16, W = 32 };

typedef struct {
    int reach, marks; /* marks but S */
    int chain;        /* whether it is one */
    uint32_t of;      /* its element; 0 is any */
} entry;

static int radius(uint32_t element) {
    if (element & ~0x739C0u) return 2;
    return element & ~0x1000u ? 1 : 0;
}

static int lesser(int a, int b) { return a < b ? a : b; }

static int greater(int a, int b) { return a > b ? a : b; }

/* The row of the table for a node, from the entries of what it works on. */
static entry entry_of(const node *n) {
    entry e = {0, B | D | K | W, 1, 0}, u = {0, 0, 0, 0};
    if (n->kind == FRAME) return e;
    e = entry_of(n->upper);
    if (n->lower) u = entry_of(n->lower);
    int centre = n->element >> 12 & 1, r = radius(n->element);
    int both = e.marks & u.marks, either = e.marks | u.marks, chain = 0;
    switch (n->kind) {
    case NEGATE: e.marks = (e.marks & K ? T : 0) | (e.marks & T ? K : 0); break;
    case ERODE:
    case DILATE:
        e.reach += r;
        e.marks &= K | T | (centre ? W | (n->kind == ERODE ? B : D) : 0);
        break;
    case OPEN:
    case CLOSE:
        e.reach += 2 * r;
        e.marks &= K | T | (n->kind == OPEN ? B : D) | (centre ? W : 0);
        chain = e.chain && (e.of == 0 || e.of == n->element);
        e.of = n->element;
        break;
    case SELECT_LOW:
    case SELECT_HIGH:
        e.reach += 2 * r;
        e.marks &= W;
        break;
    default:
        e.reach = greater(e.reach, u.reach);
        e.marks = both | (n->kind == MEET ? either & B : 0) | (n->kind == JOIN ? either & D : 0);
    }
    e.reach = lesser(e.reach, 255);
    e.chain = chain;
    return e;
}

model_sheet model_check(const uint8_t *recipe, size_t recipe_length) {
    model_sheet s = {0, 0, 0, 0};
    node nodes[64];
    const node *root;
    s.number = read_recipe(recipe, recipe_length, nodes, &root, &s.planes);
    if (s.number) return s;
    entry e = entry_of(root);
    s.reach = e.reach;
    s.marks = e.marks | (e.chain ? S : 0);
    return s;
}

/* ---- Images ---- */

static int32_t *blank(const scene *s) { return malloc(sizeof(int32_t) * s->width * s->height); }

static int inside(const scene *s, int x, int y) { return x >= 0 && y >= 0 && x < s->width && y < s->height; }

/* Each place gets the lowest (or highest) of what it sees at x + way * b, for the offsets b of the element. */
static int32_t *extremes(const scene *s, const int32_t *f, uint32_t element, int way, int highest) {
    int32_t *g = blank(s);
    for (int y = 0; y < s->height; y++)
        for (int x = 0; x < s->width; x++) {
            int32_t seen = highest ? 0 : s->top;
            for (int dy = -2; dy <= 2; dy++)
                for (int dx = -2; dx <= 2; dx++) {
                    if (!(element >> (5 * (dy + 2) + dx + 2) & 1) || !inside(s, x + way * dx, y + way * dy)) continue;
                    int32_t r = f[(y + way * dy) * s->width + x + way * dx];
                    if (highest ? r > seen : r < seen) seen = r;
                }
            g[y * s->width + x] = seen;
        }
    return g;
}

/* Opening: lowest by the element turned, then highest by the element. Closing the other way round. */
static int32_t *twice(const scene *s, const int32_t *f, uint32_t element, int closing) {
    int32_t *half = extremes(s, f, element, -1, closing);
    int32_t *g = extremes(s, half, element, 1, !closing);
    free(half);
    return g;
}

/* ---- Selecting ---- */

/* How bad a window is, and its value, as fractions. */
typedef struct {
    int64_t bad, bad_over, value, over;
} window;

/* The window of a centre: all c - b inside. There may be none, and then `over` is 0. */
static window window_of(const scene *s, const int32_t *f, uint32_t element, int cx, int cy) {
    int64_t ranks[25];
    int n = 0;
    for (int dy = -2; dy <= 2; dy++)
        for (int dx = -2; dx <= 2; dx++)
            if ((element >> (5 * (dy + 2) + dx + 2) & 1) && inside(s, cx - dx, cy - dy))
                ranks[n++] = f[(cy - dy) * s->width + cx - dx];
    window w = {0, 1, 0, 0};
    if (!n) return w;
    if (s->rule == LEAST_VARIANCE) {
        /* n times the sum of squares less the square of the sum is the sum of all squared differences */
        for (int i = 0; i < n; i++) {
            w.value += ranks[i];
            for (int j = 0; j < i; j++) w.bad += (ranks[i] - ranks[j]) * (ranks[i] - ranks[j]);
        }
        w.bad_over = (int64_t)n * n;
        w.over = n;
    } else {
        int64_t low = ranks[0], high = ranks[0];
        for (int i = 1; i < n; i++) {
            if (ranks[i] < low) low = ranks[i];
            if (ranks[i] > high) high = ranks[i];
        }
        w.bad = high - low;
        w.value = low + high;
        w.over = 2;
    }
    return w;
}

static int order(int64_t a, int64_t b) { return (a > b) - (a < b); }

/* The value of the best of some windows for a place of a rank: sieved by badness, then by nearness, then by value. */
static int32_t chosen(window *w, int n, int32_t rank, int high) {
    for (int sieve = 0; sieve < 3; sieve++) {
        int kept = 0;
        for (int i = 0; i < n; i++) {
            int against = 0; /* compared with the best so far, w[0] */
            if (i > 0 && sieve == 0) against = order(w[i].bad * w[0].bad_over, w[0].bad * w[i].bad_over);
            if (i > 0 && sieve == 1)
                against = order(llabs(w[i].value - rank * w[i].over) * w[0].over,
                                llabs(w[0].value - rank * w[0].over) * w[i].over);
            if (i > 0 && sieve == 2) {
                against = order(w[i].value * w[0].over, w[0].value * w[i].over);
                if (high) against = -against;
            }
            if (against < 0) kept = 0;
            if (against <= 0) w[kept++] = w[i];
        }
        n = kept;
    }
    int64_t whole = w[0].value / w[0].over, rest = 2 * (w[0].value % w[0].over);
    int up = rest > w[0].over || (rest == w[0].over && high);
    return (int32_t)(whole + up);
}

static int32_t *selected(const scene *s, const int32_t *f, uint32_t element, int high) {
    int32_t *g = blank(s);
    window *of = malloc(sizeof(window) * s->width * s->height);
    for (int y = 0; y < s->height; y++)
        for (int x = 0; x < s->width; x++) of[y * s->width + x] = window_of(s, f, element, x, y);
    for (int y = 0; y < s->height; y++)
        for (int x = 0; x < s->width; x++) {
            window candidates[25];
            int n = 0;
            for (int dy = -2; dy <= 2; dy++)
                for (int dx = -2; dx <= 2; dx++)
                    if ((element >> (5 * (dy + 2) + dx + 2) & 1) && inside(s, x + dx, y + dy))
                        candidates[n++] = of[(y + dy) * s->width + x + dx];
            int32_t rank = f[y * s->width + x];
            g[y * s->width + x] = n ? chosen(candidates, n, rank, high) : rank;
        }
    free(of);
    return g;
}

/* ---- The image of a node ---- */

static int32_t merged(int kind, int32_t a, int32_t b) {
    switch (kind) {
    case MEET: return a < b ? a : b;
    case JOIN: return a > b ? a : b;
    case MEAN_LOW: return (a + b) / 2;
    default: return (a + b + 1) / 2;
    }
}

static int32_t *image_of(const scene *s, const node *n) {
    int32_t *f = n->upper ? image_of(s, n->upper) : NULL;
    int32_t *e = n->lower ? image_of(s, n->lower) : NULL;
    int32_t *g;
    switch (n->kind) {
    case ERODE: g = extremes(s, f, n->element, 1, 0); break;
    case DILATE: g = extremes(s, f, n->element, 1, 1); break;
    case OPEN: g = twice(s, f, n->element, 0); break;
    case CLOSE: g = twice(s, f, n->element, 1); break;
    case SELECT_LOW: g = selected(s, f, n->element, 0); break;
    case SELECT_HIGH: g = selected(s, f, n->element, 1); break;
    default:
        g = blank(s);
        for (int i = 0; i < s->width * s->height; i++)
            g[i] = n->kind == FRAME ? s->frame[i] : n->kind == NEGATE ? s->top - f[i] : merged(n->kind, e[i], f[i]);
    }
    free(e);
    free(f);
    return g;
}

model_answer model_run(int32_t top, enum model_rule rule, const uint8_t *recipe, size_t recipe_length, size_t width,
                       size_t height, const int32_t *frame, size_t frame_length, size_t block_length,
                       size_t output_length) {
    model_answer a = {0, 0, NULL};
    if (width < 1 || width > 256 || height < 1 || height > 256 || block_length < 3 * width * height) {
        a.number = 1;
        return a;
    }
    node nodes[64];
    const node *root;
    a.number = read_recipe(recipe, recipe_length, nodes, &root, &a.planes);
    if (a.number) return a;
    if (block_length < (a.planes + 2) * width * height) a.number = 19;
    else if (frame_length != width * height || output_length != width * height) a.number = 20;
    if (a.number) return a;
    scene s = {(int)width, (int)height, top, rule, frame};
    a.image = image_of(&s, root);
    return a;
}
