#include "test_picture_tools.h"

#include <stdlib.h>
#include <string.h>

const struct size SIZES[PICTURE_SIZES][PLANES] = {
    {{16, 16}, {16, 16}, {16, 16}}, {{1, 1}, {33, 17}, {16, 1}}, {{33, 17}, {1, 1}, {20, 36}}, {{64, 48}, {16, 12}, {16, 12}},
};

/* ---- pictures */

struct picture picture_of(const struct size *sizes, size_t start)
{
    struct picture p;
    p.macroblocks = 0;
    p.start = start;
    p.length = (start + 7) / 8 + SPARE;
    for (int k = 0; k < PLANES; k++) {
        p.planes[k] = plane_of(sizes[k].width, sizes[k].height);
        p.macroblocks += p.planes[k].macroblocks;
        p.length += p.planes[k].room;
    }
    p.out = host_memory(p.length);
    return p;
}

void picture_free(struct picture *p)
{
    for (int k = 0; k < PLANES; k++)
        plane_free(&p->planes[k]);
    free(p->out);
}

/* A smooth reference; the source is the reference moved and changed, or noise. */
static void draw(struct plane *p, uint64_t *state)
{
    uint64_t noise = random_next(state) % 3 == 0, dx = random_next(state) % 7, dy = random_next(state) % 7, grain = random_next(state) % 40 + 1;
    for (size_t y = 0; y < p->rows; y++)
        for (size_t x = 0; x < p->stride; x++)
            p->reference[y * p->stride + x] = (uint8_t)(5 * x + 3 * y + random_next(state) % grain);
    for (size_t y = 0; y < p->height; y++)
        for (size_t x = 0; x < p->width; x++) {
            size_t fx = x + dx < p->stride ? x + dx : p->stride - 1, fy = y + dy < p->rows ? y + dy : p->rows - 1;
            p->source[y * p->width + x] = (uint8_t)(noise ? random_next(state) : p->reference[fy * p->stride + fx] + random_next(state) % grain);
        }
}

struct picture picture_drawn(const struct size *sizes, size_t start, uint64_t *state)
{
    struct picture p = picture_of(sizes, start);
    for (int k = 0; k < PLANES; k++)
        draw(&p.planes[k], state);
    return p;
}

struct picture picture_like(const struct picture *p)
{
    struct size sizes[PLANES];
    for (int k = 0; k < PLANES; k++) {
        sizes[k].width = p->planes[k].width;
        sizes[k].height = p->planes[k].height;
    }
    struct picture q = picture_of(sizes, p->start);
    for (int k = 0; k < PLANES; k++) {
        memcpy(q.planes[k].source, p->planes[k].source, p->planes[k].width * p->planes[k].height);
        memcpy(q.planes[k].reference, p->planes[k].reference, p->planes[k].stride * p->planes[k].rows);
    }
    return q;
}

void picture_reset(struct picture *p)
{
    memset(p->out, HELD, p->length);
    for (int k = 0; k < PLANES; k++) {
        struct plane *q = &p->planes[k];
        memset(q->recon, HELD, q->stride * q->rows);
        memset(q->vx, HELD, 4 * q->macroblocks);
        memset(q->vy, HELD, 4 * q->macroblocks);
        memset(q->stated, HELD, 12 * q->macroblocks);
    }
}

int all_held(const void *bytes, size_t n)
{
    const uint8_t *b = bytes;
    for (size_t k = 0; k < n; k++)
        if (b[k] != HELD)
            return 0;
    return 1;
}

int same_plane(const struct plane *p, const struct plane *q)
{
    return memcmp(p->recon, q->recon, p->stride * p->rows) == 0 && memcmp(p->vx, q->vx, 4 * p->macroblocks) == 0
        && memcmp(p->vy, q->vy, 4 * p->macroblocks) == 0;
}

int same_left(const struct picture *p, const struct picture *q)
{
    int same = memcmp(p->out, q->out, p->length) == 0;
    for (int k = 0; k < PLANES; k++)
        same = same && same_plane(&p->planes[k], &q->planes[k]) && memcmp(p->planes[k].stated, q->planes[k].stated, 12 * p->planes[k].macroblocks) == 0;
    return same;
}

unsigned bit_of(const uint8_t *bytes, size_t k)
{
    return (unsigned)bytes[k / 8] >> (7 - k % 8) & 1u;
}

int same_bits(const uint8_t *a, size_t from, const uint8_t *b, size_t there, size_t count)
{
    size_t k = 0;
    while (k < count && bit_of(a, from + k) == bit_of(b, there + k))
        k++;
    return k == count;
}

void around(const struct picture *p, size_t next)
{
    static const uint8_t BEFORE[] = {HELD};
    int as_it_was = 1, zeros = 1;
    for (size_t k = 0; k < p->start; k++)
        as_it_was = as_it_was && bit_of(p->out, k) == bit_of(BEFORE, k % 8);
    for (size_t k = next; k % 8; k++)
        zeros = zeros && bit_of(p->out, k) == 0;
    CHECK(as_it_was);
    CHECK(zeros);
    CHECK(all_held(p->out + (next + 7) / 8, p->length - (next + 7) / 8));
}

struct cabunlis_tables tables_of(const struct given *g)
{
    struct cabunlis_tables t = {g->book, CABUNLIS_BOOK_BYTES, tables()->codebook, CABUNLIS_CODEBOOK_BYTES};
    return t;
}

struct cabunlis_picture_answer picture_written_into(struct picture *p, const struct given *g, uint64_t allowance, size_t length)
{
    struct cabunlis_plane lent[PLANES];
    struct cabunlis_tables t = tables_of(g);
    struct cabunlis_output output = {p->out, length, p->start};
    for (int k = 0; k < PLANES; k++)
        lent[k] = plane_lent(&p->planes[k]);
    picture_reset(p);
    return cabunlis_write_picture(lent, &t, &g->settings, allowance, &output);
}

struct cabunlis_picture_answer picture_written(struct picture *p, const struct given *g, uint64_t allowance)
{
    return picture_written_into(p, g, allowance, p->length);
}

uint64_t skip_bits(const struct given *g)
{
    return g->book[3 * CABUNLIS_SKIP + 2];
}

uint64_t least(const struct picture *p, const struct given *g)
{
    return skip_bits(g) * p->macroblocks;
}

const uint32_t *stated_of(const struct picture *p, size_t k)
{
    int plane = 0;
    while (k >= p->planes[plane].macroblocks)
        k -= p->planes[plane++].macroblocks;
    return p->planes[plane].stated + 3 * k;
}

uint64_t ample(const struct picture *unlimited, const struct given *g)
{
    uint64_t spent = 0, most = least(unlimited, g);
    for (size_t k = 0; k < unlimited->macroblocks; k++) {
        spent += stated_of(unlimited, k)[1];
        uint64_t here = spent + skip_bits(g) * (unlimited->macroblocks - k - 1);
        most = here > most ? here : most;
    }
    return most;
}

const uint8_t *long_skips(void)
{
    static uint8_t book[CABUNLIS_BOOK_BYTES];
    memcpy(book, tables()->plain, sizeof book);
    for (unsigned mode = 0; mode < 3; mode++)
        book[3 * mode + 1] = (uint8_t)(mode + 1);
    book[3 * CABUNLIS_SKIP] = 0;
    book[3 * CABUNLIS_SKIP + 1] = 1;
    book[3 * CABUNLIS_SKIP + 2] = 32;
    return book;
}

/* ---- what holds of every picture that is written whole */

/* The squared distance of a canvas from the source, its last column and row repeated. */
static uint64_t padded_distance(const struct plane *p, const uint8_t *canvas)
{
    uint64_t sum = 0;
    for (size_t y = 0; y < p->rows; y++)
        for (size_t x = 0; x < p->stride; x++) {
            int d = p->source[(y < p->height ? y : p->height - 1) * p->width + (x < p->width ? x : p->width - 1)] - canvas[y * p->stride + x];
            sum += (uint64_t)(d * d);
        }
    return sum;
}

/* A plane of the picture from its first bit on, into slices of its own. */
static void reads_back(const struct picture *p, int k, const struct given *g, size_t start, size_t next)
{
    const struct plane *q = &p->planes[k];
    struct plane r = plane_of(q->width, q->height);
    memcpy(r.reference, q->reference, q->stride * q->rows);
    struct cabunlis_answer a = plane_read(&r, g->book, tables()->codebook, p->out, (next + 7) / 8, start);
    CHECK(a.refusal == 0 && a.done == q->macroblocks && a.next == next);
    CHECK(same_plane(q, &r));
    plane_free(&r);
}

/* The totals of a plane are those that its macroblocks state; up to the lambda at which no cost saturates it costs no more than with every macroblock
 * skipped. */
static void totals(const struct plane *p, const struct given *g, const struct cabunlis_answer *a)
{
    uint64_t bits = 0, error = 0, lambda = g->settings.lambda;
    for (size_t k = 0; k < p->macroblocks; k++) {
        CHECK(p->stated[3 * k] < 4);
        bits += p->stated[3 * k + 1];
        error += p->stated[3 * k + 2];
    }
    CHECK(a->refusal == 0 && a->macroblock == 0 && a->done == p->macroblocks && a->bits == bits && a->error == error);
    CHECK(error == padded_distance(p, p->recon));
    if (lambda <= UINT64_C(1) << 48)
        CHECK(error + lambda * bits <= padded_distance(p, p->reference) + lambda * skip_bits(g) * p->macroblocks);
}

void whole(const struct picture *p, const struct given *g, uint64_t allowance, const struct cabunlis_picture_answer *a)
{
    size_t next = p->start;
    uint64_t left = allowance;
    CHECK(a->refusal == 0 && a->macroblock == 0 && a->done == p->macroblocks);
    for (size_t k = 0; k < p->macroblocks; k++) {
        uint64_t bits = stated_of(p, k)[1], rest = skip_bits(g) * (p->macroblocks - k - 1);
        CHECK(bits <= left && rest <= left - bits);
        left -= bits;
    }
    for (int k = 0; k < PLANES; k++) {
        totals(&p->planes[k], g, &a->planes[k]);
        CHECK(a->planes[k].next == next + a->planes[k].bits);
        reads_back(p, k, g, next, a->planes[k].next);
        next = a->planes[k].next;
    }
    CHECK(next - p->start <= allowance);
    around(p, next);
}
