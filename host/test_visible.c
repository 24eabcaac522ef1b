/* The error over the samples that the panel shows, held to a loop over width x height, on slices that may only be read and lie against pages that
 * may not be touched; and its refusals. */
#include <string.h>

#include "check.h"
#include "plane.h"

struct size { size_t width, height; };

/* Sides that are multiples of 16, and sides that are not. */
static const struct size WHOLE[] = {{16, 16}, {32, 16}, {16, 48}, {176, 144}};
static const struct size CUT[] = {{1, 1}, {15, 1}, {1, 15}, {17, 16}, {16, 17}, {33, 50}, {176, 143}, {175, 144}};
enum { WHOLE_COUNT = sizeof WHOLE / sizeof *WHOLE, CUT_COUNT = sizeof CUT / sizeof *CUT };

static size_t rounded(size_t side)
{
    return (side + 15) / 16 * 16;
}

static uint64_t shown_distance(const uint8_t *source, const uint8_t *recon, size_t width, size_t height, size_t stride)
{
    uint64_t sum = 0;
    for (size_t y = 0; y < height; y++)
        for (size_t x = 0; x < width; x++) {
            int d = source[y * width + x] - recon[y * stride + x];
            sum += (uint64_t)(d * d);
        }
    return sum;
}

static void fill(uint8_t *bytes, size_t n, uint64_t *state)
{
    for (size_t k = 0; k < n; k++)
        bytes[k] = (uint8_t)random_next(state);
}

/* ---- any source and any canvas */

static void any(struct size s, enum guard_side side, uint64_t *state)
{
    size_t stride = rounded(s.width), rows = rounded(s.height), samples = s.width * s.height, all = stride * rows;
    struct guarded source = guarded_of(samples, side), canvas = guarded_of(all, side), other = guarded_of(all, side);
    fill(source.bytes, samples, state);
    fill(canvas.bytes, all, state);
    /* the same where the panel shows it, and nowhere beyond */
    for (size_t y = 0; y < rows; y++)
        for (size_t x = 0; x < stride; x++)
            other.bytes[y * stride + x] = (uint8_t)(canvas.bytes[y * stride + x] ^ (x < s.width && y < s.height ? 0 : 0xff));
    guarded_seal(&source);
    guarded_seal(&canvas);
    guarded_seal(&other);
    struct cabunlis_visible v = cabunlis_visible_error(s.width, s.height, stride, rows, source.bytes, samples, canvas.bytes, all);
    CHECK(v.refusal == 0 && v.error == shown_distance(source.bytes, canvas.bytes, s.width, s.height, stride));
    struct cabunlis_visible w = cabunlis_visible_error(s.width, s.height, stride, rows, source.bytes, samples, other.bytes, all);
    CHECK(w.refusal == 0 && w.error == v.error);
    guarded_free(&source);
    guarded_free(&canvas);
    guarded_free(&other);
}

/* The largest plane, every sample as far off as it can be: more than 32 bits hold. */
static void farthest(void)
{
    enum { SIDE = CABUNLIS_LARGEST_SIDE, ALL = SIDE * SIDE };
    struct guarded source = guarded_of(ALL, GUARD_BEHIND), canvas = guarded_of(ALL, GUARD_BEFORE);
    memset(source.bytes, 255, ALL);
    guarded_seal(&source);
    guarded_seal(&canvas);
    struct cabunlis_visible v = cabunlis_visible_error(SIDE, SIDE, SIDE, SIDE, source.bytes, ALL, canvas.bytes, ALL);
    CHECK(v.refusal == 0 && v.error == UINT64_C(65025) * ALL);
    /* slices that are only read may be one and the same */
    v = cabunlis_visible_error(SIDE, SIDE, SIDE, SIDE, source.bytes, ALL, source.bytes, ALL);
    CHECK(v.refusal == 0 && v.error == 0);
    guarded_free(&source);
    guarded_free(&canvas);
}

/* ---- what the writer and the reader left */

static int is_shown(const struct plane *p)
{
    struct cabunlis_visible v = plane_visible(p);
    return v.refusal == 0 && v.error == shown_distance(p->source, p->recon, p->width, p->height, p->stride);
}

static void written(struct size s, int whole, uint64_t *state)
{
    static const struct cabunlis_settings SETTINGS = {32, 1, 0, 0}; /* lambda, radius, four vectors, margin */
    struct plane p = plane_of(s.width, s.height), q = plane_of(s.width, s.height);
    size_t all = p.stride * p.rows;
    fill(p.source, s.width * s.height, state);
    fill(p.reference, all, state);
    memcpy(q.source, p.source, s.width * s.height);
    memcpy(q.reference, p.reference, all);
    struct cabunlis_answer a = plane_write(&p, tables()->book, tables()->codebook, &SETTINGS, 0);
    uint64_t error = plane_visible(&p).error;
    CHECK(a.refusal == 0 && is_shown(&p));
    CHECK(whole ? error == a.error : error <= a.error);
    CHECK(plane_read(&q, tables()->book, tables()->codebook, p.out, (a.next + 7) / 8, 0).refusal == 0);
    CHECK(is_shown(&q) && plane_visible(&q).error == error);
    /* cut in the middle of its bits, over the reference as it was */
    memcpy(q.recon, q.reference, all);
    CHECK(plane_read(&q, tables()->book, tables()->codebook, p.out, a.next / 16, 0).refusal == CABUNLIS_ERR_CUT);
    CHECK(is_shown(&q));
    plane_free(&p);
    plane_free(&q);
}

/* ---- refusals */

/* 20 x 20 in a canvas of 32 x 32; some cases lend more of both slices. */
enum { SIDE = 20, CANVAS = 32, WIDE = 1025, WIDE_STRIDE = 1040, SOURCE_MOST = WIDE * SIDE + 1, CANVAS_MOST = WIDE_STRIDE * (CANVAS + 16) + 1 };

struct call { size_t width, height, stride, rows, source, recon; };

static struct guarded source, canvas;

static struct call good(void)
{
    struct call c = {SIDE, SIDE, CANVAS, CANVAS, SIDE * SIDE, CANVAS * CANVAS};
    return c;
}

static void answers(const struct call *c, uint32_t refusal)
{
    struct cabunlis_visible v = cabunlis_visible_error(c->width, c->height, c->stride, c->rows, source.bytes, c->source, canvas.bytes, c->recon);
    CHECK(v.refusal == refusal && (v.error == 0) == (refusal != 0));
}

static void each(void)
{
    static const size_t SIDES[] = {0, 1025, 4096, SIZE_MAX};
    struct call c = good();
    answers(&c, 0);
    for (size_t k = 0; k < sizeof SIDES / sizeof *SIDES; k++) {
        c = good();
        c.width = SIDES[k];
        answers(&c, CABUNLIS_ERR_SIZE);
        c = good();
        c.height = SIDES[k];
        answers(&c, CABUNLIS_ERR_SIZE);
    }
    for (int more = -1; more <= 1; more += 2) {
        c = good();
        c.source += (size_t)more;
        answers(&c, CABUNLIS_ERR_SOURCE);
        c = good();
        c.stride += (size_t)more;
        answers(&c, CABUNLIS_ERR_STRIDE);
        c = good();
        c.rows += 16 * (size_t)more;
        answers(&c, CABUNLIS_ERR_STRIDE);
        c = good();
        c.recon += (size_t)more;
        answers(&c, CABUNLIS_ERR_REFERENCE);
    }
    c = good();
    c.source = 0;
    answers(&c, CABUNLIS_ERR_SOURCE);
    c = good();
    c.recon = 0;
    answers(&c, CABUNLIS_ERR_REFERENCE);
}

/* Every choice of what is wrong, with the rest right for what it is beside: the lowest answers. */
static void order(void)
{
    for (unsigned wrong = 1; wrong < 16; wrong++) {
        struct call c = good();
        uint32_t lowest = 1;
        if (wrong & 1) {
            c.width = WIDE;
            c.stride = WIDE_STRIDE;
            c.source = c.width * c.height;
        }
        if (wrong & 2)
            c.source++;
        if (wrong & 4)
            c.rows += 16;
        c.recon = c.stride * c.rows + (wrong & 8 ? 1 : 0);
        while (!(wrong >> (lowest - 1) & 1))
            lowest++;
        answers(&c, lowest);
    }
}

void test_visible(void)
{
    uint64_t state = 77;
    for (int side = GUARD_BEHIND; side <= GUARD_BEFORE; side++) {
        for (int k = 0; k < WHOLE_COUNT; k++)
            any(WHOLE[k], (enum guard_side)side, &state);
        for (int k = 0; k < CUT_COUNT; k++)
            any(CUT[k], (enum guard_side)side, &state);
    }
    farthest();
    for (int k = 0; k < WHOLE_COUNT; k++)
        written(WHOLE[k], 1, &state);
    for (int k = 0; k < CUT_COUNT; k++)
        written(CUT[k], 0, &state);
    source = guarded_of(SOURCE_MOST, GUARD_BEHIND);
    canvas = guarded_of(CANVAS_MOST, GUARD_BEHIND);
    fill(source.bytes, SOURCE_MOST, &state);
    fill(canvas.bytes, CANVAS_MOST, &state);
    guarded_seal(&source);
    guarded_seal(&canvas);
    each();
    order();
    guarded_free(&source);
    guarded_free(&canvas);
}
