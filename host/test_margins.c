/* What a stage of a leaf has to earn (document 02, §4): more than the margin in squared error, whatever 32 bits hold. Every plane is read back. */
#include <string.h>

#include "check.h"
#include "plane.h"

/* The largest error that a block of 256 samples can have: from this margin on no stage stays. */
#define MOST_ERROR UINT32_C(16646400)

#define COUNT(list) (sizeof(list) / sizeof *(list))

/* A plane with the source and the reference of another. */
static struct plane like(const struct plane *p)
{
    struct plane q = plane_of(p->width, p->height);
    memcpy(q.source, p->source, p->width * p->height);
    memcpy(q.reference, p->reference, p->stride * p->rows);
    return q;
}

static int same_shown(const struct plane *p, const struct plane *q)
{
    return memcmp(p->recon, q->recon, p->stride * p->rows) == 0 && memcmp(p->vx, q->vx, 4 * p->macroblocks) == 0
        && memcmp(p->vy, q->vy, 4 * p->macroblocks) == 0;
}

/* Writes the plane whole, and reads it back into another. */
static struct cabunlis_answer written(struct plane *p, const uint8_t *codebook, uint64_t lambda, uint32_t margin)
{
    struct cabunlis_settings settings = {lambda, 4, 1, margin};
    struct cabunlis_answer a = plane_write(p, tables()->book, codebook, &settings, 0);
    CHECK(a.refusal == 0 && a.done == p->macroblocks && a.next == a.bits);
    struct plane q = like(p);
    struct cabunlis_answer r = plane_read(&q, tables()->book, codebook, p->out, (a.next + 7) / 8, 0);
    CHECK(r.refusal == 0 && r.done == a.done && r.next == a.next);
    CHECK(same_shown(p, &q));
    plane_free(&q);
    return a;
}

/* Samples below `spread`; source and reference have nothing in common. */
static struct plane noise(size_t side, unsigned spread, uint64_t *state)
{
    struct plane p = plane_of(side, side);
    for (size_t k = 0; k < side * side; k++)
        p.source[k] = (uint8_t)(random_next(state) % spread);
    for (size_t k = 0; k < p.stride * p.rows; k++)
        p.reference[k] = (uint8_t)(random_next(state) % spread);
    return p;
}

/* A smooth reference, and a source that is it moved, with some grain. */
static struct plane moving(uint64_t *state)
{
    struct plane p = plane_of(45, 40);
    for (size_t y = 0; y < p.rows; y++)
        for (size_t x = 0; x < p.stride; x++)
            p.reference[y * p.stride + x] = (uint8_t)(3 * x + 2 * y);
    for (size_t y = 0; y < p.height; y++)
        for (size_t x = 0; x < p.width; x++)
            p.source[y * p.width + x] = (uint8_t)(p.reference[(y + 2) * p.stride + x + 3] + random_next(state) % 8);
    return p;
}

/* ---- margins that no stage can earn */

/* All of them leave the same; a sum that wrapped would keep stages at the largest. Answers what the writer does. */
static struct cabunlis_answer no_stage(const struct plane *p, uint64_t lambda)
{
    static const uint32_t MARGINS[] = {MOST_ERROR, MOST_ERROR + 1, UINT32_C(1) << 31, UINT32_MAX - 1, UINT32_MAX};
    struct plane first = like(p);
    struct cabunlis_answer a = written(&first, tables()->codebook, lambda, MARGINS[0]);
    for (size_t k = 1; k < COUNT(MARGINS); k++) {
        struct plane q = like(p);
        struct cabunlis_answer b = written(&q, tables()->codebook, lambda, MARGINS[k]);
        CHECK(a.next == b.next && a.bits == b.bits && a.error == b.error);
        CHECK(memcmp(first.out, q.out, first.room) == 0 && same_shown(&first, &q));
        CHECK(memcmp(first.stated, q.stated, 12 * first.macroblocks) == 0);
        plane_free(&q);
    }
    plane_free(&first);
    return a;
}

static void too_large(uint64_t *state)
{
    static const uint64_t LAMBDAS[] = {0, 32};
    struct plane p = noise(48, 256, state), q = moving(state);
    for (size_t k = 0; k < COUNT(LAMBDAS); k++) {
        /* at margin 0 noise has stages, or the margins above would say nothing */
        uint64_t bare = no_stage(&p, LAMBDAS[k]).bits;
        CHECK(written(&p, tables()->codebook, LAMBDAS[k], 0).bits != bare);
        no_stage(&q, LAMBDAS[k]);
    }
    plane_free(&p);
    plane_free(&q);
}

/* ---- greater margins */

/* A plane of one macroblock at lambda 0. The vectors found are the same at every margin, no leaf's error is less at a greater one, and of trees and
 * modes that of least error is written: so the error never falls as the margin grows. Answers how often it rose. */
static unsigned rises(struct plane *p)
{
    static const uint32_t MARGINS[] = {0, 1, 64, 1024, 65536, UINT32_MAX};
    uint64_t error = 0;
    unsigned risen = 0;
    for (size_t k = 0; k < COUNT(MARGINS); k++) {
        uint64_t before = error;
        error = written(p, tables()->codebook, 0, MARGINS[k]).error;
        CHECK(before <= error);
        risen += k > 0 && before < error;
    }
    return risen;
}

static void never_lower(uint64_t *state)
{
    static const unsigned SPREADS[] = {2, 6, 20, 60, 150, 256};
    unsigned risen = 0;
    for (size_t k = 0; k < COUNT(SPREADS); k++) {
        struct plane p = noise(16, SPREADS[k], state);
        risen += rises(&p);
        plane_free(&p);
    }
    CHECK(risen > 0);
}

/* ---- the margin at which a stage goes */

/* Two patterns of 1 and -1, checks and stripes. The mean of either is 0 in a block of any level, and so is that of their product: so a split takes
 * nothing away, and what one pattern takes away is the same with and without the other. */
static int checks(size_t row, size_t column)
{
    return (row + column) % 2 ? -1 : 1;
}

static int stripes(size_t column)
{
    return column % 2 ? -1 : 1;
}

/* Checks and stripes on a gray of 100, and a codebook of zeros with one vector of checks in the first stage of intra's level 3 and one of stripes in
 * its second. So each of the four blocks of 8 x 8 has two stages that take away a known error, and nothing else takes away any. */
static void to_the_last(int high_checks, int high_stripes)
{
    enum { STAGE = 16 * 64, VECTOR = 5 * 64 };
    static uint8_t codebook[CABUNLIS_CODEBOOK_BYTES];
    struct plane p = plane_of(16, 16);
    memset(codebook, 0, sizeof codebook);
    for (size_t k = 0; k < 64; k++) {
        /* a vector goes by tiles of 4 x 4, which all look the same here */
        codebook[VECTOR + k] = (uint8_t)(high_checks * checks(k / 4, k));
        codebook[STAGE + VECTOR + k] = (uint8_t)(high_stripes * stripes(k));
    }
    for (size_t k = 0; k < 256; k++)
        p.source[k] = (uint8_t)(100 + high_checks * checks(k / 16, k) + high_stripes * stripes(k));
    uint32_t first = (uint32_t)(64 * high_checks * high_checks), second = (uint32_t)(64 * high_stripes * high_stripes);
    const uint32_t margins[] = {0, first - 1, first, second - 1, second, UINT32_MAX};
    for (size_t k = 0; k < COUNT(margins); k++) {
        /* where the first stage goes, the second goes with it, whatever it would take away */
        uint32_t left = margins[k] >= first ? first + second : margins[k] >= second ? second : 0;
        CHECK(written(&p, codebook, 0, margins[k]).error == 4 * left);
    }
    plane_free(&p);
}

void test_margins(void)
{
    uint64_t state = 404;
    too_large(&state);
    never_lower(&state);
    to_the_last(5, 1);
    to_the_last(1, 5);
    to_the_last(3, 3);
}
