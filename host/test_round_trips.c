/* Random planes, every slice against a page that may not be touched, written from a bit of its own and read back. */
#include <stdlib.h>
#include <string.h>

#include "check.h"
#include "plane.h"

enum { SLICES = 12 };

/* The slices of a call, each alone in its pages. */
struct lent { struct guarded g[SLICES]; };
enum slice { SOURCE, REFERENCE, BOOK, CODEBOOK, OUTPUT, RECON, VX, VY, STATED, RECON2, VX2, VY2 };

static struct lent lend(size_t w, size_t h, size_t canvas, size_t blocks, size_t room, enum guard_side side)
{
    size_t bytes[SLICES] = {w * h, canvas, CABUNLIS_BOOK_BYTES, CABUNLIS_CODEBOOK_BYTES, room, canvas, 4 * blocks, 4 * blocks, 12 * blocks, canvas, 4 * blocks, 4 * blocks};
    struct lent l;
    for (int k = 0; k < SLICES; k++)
        l.g[k] = guarded_of(bytes[k], side);
    return l;
}

static void give_back(struct lent *l)
{
    for (int k = 0; k < SLICES; k++)
        guarded_free(&l->g[k]);
}

/* A smooth reference; the source is the reference moved and changed, or noise. */
static void draw(uint8_t *source, uint8_t *reference, size_t w, size_t h, size_t stride, size_t rows, uint64_t *state)
{
    uint64_t kind = random_next(state) % 3, dx = random_next(state) % 9, dy = random_next(state) % 9, grain = random_next(state) % 12 + 1;
    for (size_t y = 0; y < rows; y++)
        for (size_t x = 0; x < stride; x++)
            reference[y * stride + x] = (uint8_t)(5 * x + 3 * y + random_next(state) % grain);
    for (size_t y = 0; y < h; y++)
        for (size_t x = 0; x < w; x++) {
            size_t fx = x + dx < stride ? x + dx : stride - 1, fy = y + dy < rows ? y + dy : rows - 1;
            uint8_t moved = reference[fy * stride + fx];
            source[y * w + x] = (uint8_t)(kind == 0 ? random_next(state) : kind == 1 ? moved : moved + random_next(state) % grain);
        }
}

/* The squared distance of the reconstruction from the source, its last column and row repeated. */
static uint64_t padded_distance(const uint8_t *source, const uint8_t *recon, size_t w, size_t h, size_t stride, size_t rows)
{
    uint64_t sum = 0;
    for (size_t y = 0; y < rows; y++)
        for (size_t x = 0; x < stride; x++) {
            int d = source[(y < h ? y : h - 1) * w + (x < w ? x : w - 1)] - recon[y * stride + x];
            sum += (uint64_t)(d * d);
        }
    return sum;
}

/* 0, a small one, any, or the largest. */
static uint32_t any_margin(uint64_t *state)
{
    uint32_t any = (uint32_t)random_next(state);
    switch (random_next(state) % 4) {
    case 0: return 0;
    case 1: return any % 2048;
    case 2: return any;
    default: return UINT32_MAX;
    }
}

static void one(uint64_t *state, enum guard_side side)
{
    size_t w = random_next(state) % 40 + 1, h = random_next(state) % 40 + 1;
    size_t stride = (w + 15) / 16 * 16, rows = (h + 15) / 16 * 16, canvas = stride * rows, blocks = canvas / 256;
    int plain = random_next(state) % 2 == 0;
    uint64_t any = random_next(state), lambda = any >> (random_next(state) % 64);
    size_t start = random_next(state) % 70;
    uint8_t radius = (uint8_t)(random_next(state) % 6), four = (uint8_t)(random_next(state) % 2);
    uint32_t margin = any_margin(state);
    size_t room = cabunlis_plane_room(w, h).bytes + (start + 7) / 8;
    struct lent l = lend(w, h, canvas, blocks, room, side);
    uint8_t *out = l.g[OUTPUT].bytes;
    uint32_t *stated = (uint32_t *)(void *)l.g[STATED].bytes;
    draw(l.g[SOURCE].bytes, l.g[REFERENCE].bytes, w, h, stride, rows, state);
    memcpy(l.g[BOOK].bytes, plain ? tables()->plain : tables()->book, CABUNLIS_BOOK_BYTES);
    memcpy(l.g[CODEBOOK].bytes, tables()->codebook, CABUNLIS_CODEBOOK_BYTES);
    memset(out, 0xb7, room);
    struct cabunlis_answer a = cabunlis_encode_inter_plane_stated(
        w, h, stride, rows, l.g[SOURCE].bytes, w * h, l.g[REFERENCE].bytes, canvas, l.g[BOOK].bytes, CABUNLIS_BOOK_BYTES,
        l.g[CODEBOOK].bytes, CABUNLIS_CODEBOOK_BYTES, lambda, radius, four, margin,
        out, room, start, l.g[RECON].bytes, canvas, guarded_vectors(&l.g[VX]), 4 * blocks, guarded_vectors(&l.g[VY]), 4 * blocks, stated, 3 * blocks);
    /* the entry without `stated` answers and leaves the same */
    uint8_t *again = host_memory(room);
    memset(again, 0xb7, room);
    struct cabunlis_answer b = cabunlis_encode_inter_plane(
        w, h, stride, rows, l.g[SOURCE].bytes, w * h, l.g[REFERENCE].bytes, canvas, l.g[BOOK].bytes, CABUNLIS_BOOK_BYTES,
        l.g[CODEBOOK].bytes, CABUNLIS_CODEBOOK_BYTES, lambda, radius, four, margin,
        again, room, start, l.g[RECON2].bytes, canvas, guarded_vectors(&l.g[VX2]), 4 * blocks, guarded_vectors(&l.g[VY2]), 4 * blocks);
    CHECK(a.refusal == b.refusal && a.macroblock == b.macroblock && a.done == b.done && a.next == b.next && a.bits == b.bits && a.error == b.error);
    CHECK(memcmp(out, again, room) == 0 && memcmp(l.g[RECON].bytes, l.g[RECON2].bytes, canvas) == 0);
    CHECK(memcmp(l.g[VX].bytes, l.g[VX2].bytes, 4 * blocks) == 0 && memcmp(l.g[VY].bytes, l.g[VY2].bytes, 4 * blocks) == 0);
    free(again);
    memset(l.g[RECON2].bytes, 0, canvas);
    memset(l.g[VX2].bytes, 0, 4 * blocks);
    memset(l.g[VY2].bytes, 0, 4 * blocks);
    CHECK(a.refusal == 0 && a.done == blocks && a.next == start + a.bits);
    uint64_t bits = 0, error = 0;
    for (size_t k = 0; k < blocks; k++) {
        bits += stated[3 * k + 1];
        error += stated[3 * k + 2];
        CHECK(stated[3 * k] < 4);
    }
    CHECK(bits == a.bits && error == a.error);
    CHECK(error == padded_distance(l.g[SOURCE].bytes, l.g[RECON].bytes, w, h, stride, rows));
    for (size_t k = 0; k < start; k++)
        CHECK((out[k / 8] >> (7 - k % 8) & 1) == (0xb7 >> (7 - k % 8) & 1));
    for (size_t k = a.next; k % 8; k++)
        CHECK((out[k / 8] >> (7 - k % 8) & 1) == 0);
    for (size_t k = (a.next + 7) / 8; k < room; k++)
        CHECK(out[k] == 0xb7);
    struct cabunlis_answer r = cabunlis_decode_inter_plane(
        w, h, stride, rows, l.g[REFERENCE].bytes, canvas, l.g[BOOK].bytes, CABUNLIS_BOOK_BYTES, l.g[CODEBOOK].bytes, CABUNLIS_CODEBOOK_BYTES,
        out, (a.next + 7) / 8, start, l.g[RECON2].bytes, canvas, guarded_vectors(&l.g[VX2]), 4 * blocks, guarded_vectors(&l.g[VY2]), 4 * blocks);
    CHECK(r.refusal == 0 && r.macroblock == 0 && r.done == blocks && r.next == a.next && r.bits == 0 && r.error == 0);
    CHECK(memcmp(l.g[RECON].bytes, l.g[RECON2].bytes, canvas) == 0);
    CHECK(memcmp(l.g[VX].bytes, l.g[VX2].bytes, 4 * blocks) == 0);
    CHECK(memcmp(l.g[VY].bytes, l.g[VY2].bytes, 4 * blocks) == 0);
    give_back(&l);
}

void test_round_trips(void)
{
    uint64_t state = 2026;
    for (int k = 0; k < 60; k++)
        one(&state, k % 2 ? GUARD_BEFORE : GUARD_BEHIND);
}
