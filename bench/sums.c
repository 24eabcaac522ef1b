/*
 * How many rows a candidate of a motion search takes before it is dropped (document 02, §6): the table of sums of bench/README.md.
 *
 * A luma plane is written by the library. Then every search that the writer made for it is made again, candidate by candidate in document 01's order, and
 * each candidate is summed by the proved function against the best of its search so far. The vector that comes out has to be the one that the library's
 * own search finds and, where the plane was written with it, the plane's.
 */
#include <inttypes.h>
#include <stdio.h>

#include "shared.h"

/* ---- the entries of the crate call_entries */

struct vector_part { uint8_t refused; int32_t x, y; };
struct sum_part { uint64_t sum; size_t rows; uint8_t refused; };

/* What a search finds for the block of side x side samples at (x, y), the predictor being (px, py). */
struct vector_part parts_search_motion_vector(
    const uint8_t *reference, size_t reference_length, size_t width, size_t height, size_t stride, size_t rows,
    const uint8_t *target, size_t target_length, size_t side, size_t x, size_t y, int32_t px, int32_t py, uint8_t radius);

/* The sum of one vector of it against the best so far, and the rows taken. */
struct sum_part parts_sum_motion_vector(
    const uint8_t *reference, size_t reference_length, size_t width, size_t height, size_t stride, size_t rows,
    const uint8_t *target, size_t target_length, size_t side, size_t x, size_t y, int32_t px, int32_t py, int32_t vx, int32_t vy, uint64_t best);

/* The refusal of a vector that is not codable or not in the window, and the best of a search that has found none. */
enum { NOT_TRIED = 23, NONE = 65536 };

/* ---- one search */

struct vector { int32_t x, y; };

/* What a search is asked. */
struct search {
    const struct plane *plane;
    size_t side, x, y;
    uint8_t target[256];
    struct vector predictor;
    uint8_t radius;
};

struct best { struct vector vector; uint64_t error; };

/* What the searches of one side came to. */
struct tally { uint64_t searches, candidates, rows, dropped; };

static int same(struct vector a, struct vector b)
{
    return a.x == b.x && a.y == b.y;
}

/* A candidate: summed where it may be tried, and the best from then on where its sum stays below the best so far. */
static void consider(const struct search *s, struct vector v, struct best *best, struct tally *tally)
{
    const struct plane *p = s->plane;
    struct sum_part a = parts_sum_motion_vector(p->reference, p->stride * p->rows, p->width, p->height, p->stride, p->rows,
        s->target, s->side * s->side, s->side, s->x, s->y, s->predictor.x, s->predictor.y, v.x, v.y, best->error);
    if (a.refused == NOT_TRIED)
        return;
    if (a.refused)
        fail("a vector was not summed");
    if (a.rows < 1 || a.rows > s->side || (a.rows < s->side && a.sum < best->error))
        fail("a vector's rows are not those of its sum");
    tally->candidates++;
    tally->rows += a.rows;
    tally->dropped += a.rows < s->side;
    if (a.sum < best->error) {
        best->vector = v;
        best->error = a.sum;
    }
}

/* Half of a number, rounded down. */
static int32_t half(int32_t z)
{
    return (z - (z & 1)) / 2;
}

/* Zero, the full samples row by row, the half samples around the best of these. Answers whether there is a vector, and leaves it. */
static int searched(const struct search *s, struct vector *found, struct tally *tally)
{
    const struct plane *p = s->plane;
    struct best best = {{0, 0}, NONE};
    tally->searches++;
    consider(s, (struct vector){0, 0}, &best, tally);
    for (int fy = -s->radius; fy <= s->radius; fy++)
        for (int fx = -s->radius; fx <= s->radius; fx++)
            consider(s, (struct vector){2 * (half(s->predictor.x) + fx), 2 * (half(s->predictor.y) + fy)}, &best, tally);
    struct vector centre = best.vector;
    for (int dy = -1; dy <= 1; dy++)
        for (int dx = -1; dx <= 1; dx++)
            if (dx || dy)
                consider(s, (struct vector){centre.x + dx, centre.y + dy}, &best, tally);
    struct vector_part a = parts_search_motion_vector(p->reference, p->stride * p->rows, p->width, p->height, p->stride, p->rows,
        s->target, s->side * s->side, s->side, s->x, s->y, s->predictor.x, s->predictor.y, s->radius);
    *found = best.vector;
    if (best.error == NONE) {
        if (a.refused != NOT_TRIED)
            fail("the search finds a vector where the candidates have none");
        return 0;
    }
    if (a.refused || !same(*found, (struct vector){a.x, a.y}))
        fail("the search finds another vector than its candidates");
    return 1;
}

/* ---- the searches of a macroblock */

/* Left, top and top right of one vector, and of each of four, in rows and columns of 8x8 blocks from the macroblock's first. */
struct place { int row, column; };
static const struct place FOR_ONE[3] = {{0, -1}, {-2, 0}, {-2, 2}};
static const struct place FOR_FOUR[4][3] = {
    {{0, -1}, {-1, 0}, {-1, 2}}, {{0, 0}, {-1, 1}, {-1, 2}}, {{1, -1}, {0, 0}, {0, 1}}, {{1, 0}, {0, 1}, {0, 0}}};

struct neighbour { int present; struct vector vector; };

static struct vector stored(const struct plane *p, size_t row, size_t column)
{
    size_t at = row * (p->stride / 8) + column;
    return (struct vector){p->vx[at], p->vy[at]};
}

/* Inside the macroblock it is one of the four found before, else what the plane has there; off the plane it is absent. */
static struct neighbour neighbour(const struct plane *p, size_t macroblock, const struct vector four[4], struct place at)
{
    int columns = (int)(p->stride / 16), all = (int)macroblock;
    int row = all / columns * 2 + at.row, column = all % columns * 2 + at.column;
    if (at.row >= 0 && at.column >= 0)
        return (struct neighbour){1, four[2 * at.row + at.column]};
    if (row < 0 || column < 0 || column >= 2 * columns)
        return (struct neighbour){0, {0, 0}};
    return (struct neighbour){1, stored(p, (size_t)row, (size_t)column)};
}

static int32_t median(int32_t a, int32_t b, int32_t c)
{
    int32_t low = a < b ? a : b, high = a < b ? b : a;
    return c < low ? low : c > high ? high : c;
}

/* The only neighbour's vector, else the median by component, zero for a missing one. */
static struct vector predicted(const struct plane *p, size_t macroblock, const struct vector four[4], const struct place places[3])
{
    struct neighbour n[3];
    int present = 0, last = 0;
    for (int k = 0; k < 3; k++) {
        n[k] = neighbour(p, macroblock, four, places[k]);
        if (n[k].present) {
            present++;
            last = k;
        }
    }
    if (present == 1)
        return n[last].vector;
    return (struct vector){
        median(n[0].vector.x, n[1].vector.x, n[2].vector.x), median(n[0].vector.y, n[1].vector.y, n[2].vector.y)};
}

/* The search for a block, whose samples are the source's with its last column and row repeated. */
static struct search search_of(const struct plane *p, size_t side, size_t x, size_t y, struct vector predictor, uint8_t radius)
{
    struct search s = {p, side, x, y, {0}, predictor, radius};
    for (size_t k = 0; k < side * side; k++) {
        size_t column = x + k % side, row = y + k / side;
        column = column < p->width ? column : p->width - 1;
        row = row < p->height ? row : p->height - 1;
        s.target[k] = p->source[row * p->width + column];
    }
    return s;
}

/* Whether a macroblock of the plane has these four vectors. */
static int has(const struct plane *p, size_t macroblock, const struct vector four[4])
{
    size_t columns = p->stride / 16, row = macroblock / columns * 2, column = macroblock % columns * 2;
    for (size_t j = 0; j < 4; j++)
        if (!same(stored(p, row + j / 2, column + j % 2), four[j]))
            return 0;
    return 1;
}

/* One vector, then four, each of them predicted from those before it too. */
static void macroblock_searches(const struct plane *p, size_t macroblock, uint8_t radius, struct tally *one, struct tally *four)
{
    size_t columns = p->stride / 16, x = macroblock % columns * 16, y = macroblock / columns * 16, j = 0;
    uint32_t mode = p->stated[3 * macroblock];
    struct vector found[4] = {{0, 0}, {0, 0}, {0, 0}, {0, 0}}, single;
    struct search s = search_of(p, 16, x, y, predicted(p, macroblock, found, FOR_ONE), radius);
    int there = searched(&s, &single, one);
    struct vector all[4] = {single, single, single, single};
    if (mode == CABUNLIS_INTER && !(there && has(p, macroblock, all)))
        fail("a macroblock was written with another vector than its search finds");
    for (there = 1; there && j < 4; j++) {
        s = search_of(p, 8, x + 8 * (j % 2), y + 8 * (j / 2), predicted(p, macroblock, found, FOR_FOUR[j]), radius);
        there = searched(&s, &found[j], four);
    }
    if (mode == CABUNLIS_INTER_4MV && !(there && has(p, macroblock, found)))
        fail("a macroblock was written with other vectors than its searches find");
}

/* ---- the table */

static void row(const char *what, struct size size, int radius, int side, const struct tally *t)
{
    printf("| %s | %zux%zu | %d | %d | %" PRIu64 " | %.1f | %.2f of %d | %.1f%% |\n", what, size.width, size.height, radius, side, t->searches,
        (double)t->candidates / (double)t->searches, (double)t->rows / (double)t->candidates, side, 100 * (double)t->dropped / (double)t->candidates);
}

static void rows(const char *what, struct size size, uint8_t radius)
{
    struct plane p = luma_of(what, size);
    struct tally one = {0, 0, 0, 0}, four = {0, 0, 0, 0};
    written(&p, radius);
    for (size_t k = 0; k < p.macroblocks; k++)
        macroblock_searches(&p, k, radius, &one, &four);
    row(what, size, radius, 16, &one);
    row(what, size, radius, 8, &four);
    plane_free(&p);
}

int main(void)
{
    fill_tables();
    printf("rows that a candidate of a motion search takes until its sum reaches the best so far: the searches of one luma plane, lambda %d, four vectors; dropped: ended before the last row\n\n",
        LAMBDA);
    printf("| scene | luma | radius | side | searches | candidates a search | rows a candidate | dropped |\n|---|---|---|---|---|---|---|---|\n");
    for (size_t what = 0; what < COUNT(LUMAS); what++)
        for (size_t size = 0; size < COUNT(SIZES); size++)
            for (size_t k = 0; k < COUNT(RADII); k++)
                rows(LUMAS[what], SIZES[size], RADII[k]);
    return 0;
}
