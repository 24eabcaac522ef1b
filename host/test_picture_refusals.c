/* Pictures of three planes that are not written (document 02, §5): 22 where the string ends, with all that it leaves; slices against pages that may not
 * be touched, written whole and up to a 22; refusals in their order. */
#include <stdio.h>
#include <stdlib.h>
#include <string.h>
#include <sys/mman.h>

#include "test_picture_tools.h"

/* ---- the end of the string */

/* A macroblock's samples and vectors are those of another plane of the same size, or as they were held where there is none. */
static int macroblock_is(const struct plane *p, size_t macroblock, const struct plane *other)
{
    size_t across = p->stride / 16, row = macroblock / across, column = macroblock % across;
    int same = 1;
    for (size_t y = 0; y < 16; y++) {
        size_t at = (16 * row + y) * p->stride + 16 * column;
        same = same && (other ? memcmp(p->recon + at, other->recon + at, 16) == 0 : all_held(p->recon + at, 16));
    }
    for (size_t y = 0; y < 2; y++) {
        size_t at = (2 * row + y) * 2 * across + 2 * column;
        same = same && (other ? memcmp(p->vx + at, other->vx + at, 2) == 0 : all_held(p->vx + at, 2));
        same = same && (other ? memcmp(p->vy + at, other->vy + at, 2) == 0 : all_held(p->vy + at, 2));
    }
    return same;
}

/* The picture that was written whole at this allowance is written again, into a string that has `lacks` bits too few for its macroblock m: 22 with that
 * macroblock, counted through the planes and within its own. Those before it are as in the whole picture, with bits, samples, vectors and what they
 * state; it and those behind it are as they were. */
static void full_at(const struct picture *written, const struct given *g, uint64_t allowance, size_t m, size_t lacks)
{
    size_t bits = 0, first = 0;
    for (size_t k = 0; k < m; k++)
        bits += stated_of(written, k)[1];
    size_t room = bits + stated_of(written, m)[1] - lacks, length = m % 3 + (room + 7) / 8;
    struct picture p = picture_like(written);
    size_t next = p.start = 8 * length - room;
    struct cabunlis_picture_answer a = picture_written_into(&p, g, allowance, length);
    CHECK(a.refusal == CABUNLIS_ERR_FULL && a.macroblock == m && a.done == m);
    for (int k = 0; k < PLANES; k++) {
        const struct plane *q = &p.planes[k], *r = &written->planes[k];
        size_t done = m < first ? 0 : m - first < q->macroblocks ? m - first : q->macroblocks;
        int full = first <= m && m - first < q->macroblocks;
        uint64_t spent = 0, error = 0;
        for (size_t b = 0; b < q->macroblocks; b++) {
            CHECK(macroblock_is(q, b, b < done ? r : NULL));
            spent += b < done ? r->stated[3 * b + 1] : 0;
            error += b < done ? r->stated[3 * b + 2] : 0;
        }
        next += spent;
        CHECK(a.planes[k].refusal == (full ? CABUNLIS_ERR_FULL : 0) && a.planes[k].macroblock == (full ? done : 0) && a.planes[k].done == done);
        CHECK(a.planes[k].next == next && a.planes[k].bits == spent && a.planes[k].error == error);
        CHECK(memcmp(q->stated, r->stated, 12 * done) == 0 && all_held(q->stated + 3 * done, 12 * (q->macroblocks - done)));
        first += q->macroblocks;
    }
    CHECK(next == p.start + bits);
    CHECK(same_bits(p.out, p.start, written->out, written->start, bits));
    if (m)
        around(&p, next);
    else
        CHECK(all_held(p.out, p.length));
    picture_free(&p);
}

/* Every macroblock of the picture at this allowance, with one bit too few for it and with none of it at all. Answers how many of them are not skipped:
 * with one bit too few, SKIP would have gone in there. */
static size_t full_everywhere(const struct picture *unlimited, const struct given *g, uint64_t allowance)
{
    struct picture p = picture_like(unlimited);
    size_t coded = 0;
    struct cabunlis_picture_answer a = picture_written(&p, g, allowance);
    whole(&p, g, allowance, &a);
    for (size_t m = 0; m < p.macroblocks; m++) {
        full_at(&p, g, allowance, m, 1);
        full_at(&p, g, allowance, m, stated_of(&p, m)[1]);
        coded += stated_of(&p, m)[1] > skip_bits(g);
    }
    picture_free(&p);
    return coded;
}

/* A string of so many bits behind the start as the allowance has: 22 does not come. */
static void as_long_as_allowed(const struct picture *unlimited, const struct given *g, uint64_t allowance)
{
    struct picture p = picture_like(unlimited), q = picture_like(unlimited);
    size_t length = ((size_t)allowance + 7) / 8;
    p.start = q.start = 8 * length - (size_t)allowance;
    struct cabunlis_picture_answer a = picture_written_into(&p, g, allowance, length), b = picture_written(&q, g, allowance);
    whole(&p, g, allowance, &a);
    CHECK(b.refusal == 0 && same_left(&p, &q));
    picture_free(&p);
    picture_free(&q);
}

/* Without a limit, where every first choice fits, and at allowances that bind: there too the mode chosen decides, and not that SKIP would go in. */
static void full(const uint8_t *book, unsigned any, uint64_t *state)
{
    struct given g = {book, {32, 1, 1, 0}};
    struct picture p = picture_drawn(SIZES[2], 0, state);
    CHECK(picture_written(&p, &g, NO_LIMIT).refusal == 0);
    uint64_t enough = ample(&p, &g), from = least(&p, &g);
    CHECK(enough > from);
    CHECK(full_everywhere(&p, &g, NO_LIMIT) > 0);
    CHECK(full_everywhere(&p, &g, enough) > 0);
    CHECK(full_everywhere(&p, &g, enough - 1) > 0);
    CHECK(full_everywhere(&p, &g, (from + enough) / 2) > 0);
    full_everywhere(&p, &g, from);
    as_long_as_allowed(&p, &g, from);
    as_long_as_allowed(&p, &g, from + 1);
    for (unsigned k = 0; k < any; k++)
        as_long_as_allowed(&p, &g, from + random_next(state) % (enough - from));
    picture_free(&p);
}

/* Three planes of one macroblock, 100 everywhere against 0, in three bytes: INTRA of 22 bits is the first choice of each. Up to an allowance of 44 it
 * fits once and the planes behind are skipped; with 45 it fits a second time, and does not go in. */
static void three_bytes(void)
{
    enum { BYTES = 3, INTRA_BITS = 22 };
    static const struct { uint64_t allowance; uint32_t refusal; uint8_t bytes[BYTES]; size_t next; } CARDS[] = {
        {24, 0, {0x21, 0x01, 0x97}, 24}, {44, 0, {0x21, 0x01, 0x97}, 24}, {45, CABUNLIS_ERR_FULL, {0x21, 0x01, 0x94}, INTRA_BITS},
    };
    struct given g = {tables()->book, {32, 8, 1, 0}}; /* lambda, radius, four vectors, margin */
    struct picture p = picture_of(SIZES[0], 0);
    for (int k = 0; k < PLANES; k++)
        memset(p.planes[k].source, 100, 256);
    for (size_t k = 0; k < COUNT(CARDS); k++) {
        struct cabunlis_picture_answer a = picture_written_into(&p, &g, CARDS[k].allowance, BYTES);
        int full = CARDS[k].refusal != 0;
        CHECK(a.refusal == CARDS[k].refusal && a.macroblock == (full ? 1 : 0) && a.done == (full ? 1 : PLANES));
        CHECK(memcmp(p.out, CARDS[k].bytes, BYTES) == 0 && all_held(p.out + BYTES, p.length - BYTES));
        for (size_t n = 0; n < PLANES; n++) {
            const struct cabunlis_answer *b = &a.planes[n];
            CHECK(b->refusal == (n == 1 ? CARDS[k].refusal : 0) && b->macroblock == 0 && b->done == (full && n ? 0 : 1));
            CHECK(b->next == (full ? CARDS[k].next : INTRA_BITS + n));
            CHECK(b->bits == (n == 0 ? INTRA_BITS : full ? 0 : 1));
        }
        CHECK(a.planes[PLANES - 1].next == CARDS[k].next);
    }
    picture_free(&p);
}

/* A start bit at the end of a string that is not empty: 22 with the first macroblock, and no byte has changed. */
static void nothing_goes_in(uint64_t *state)
{
    struct given g = {tables()->book, {32, 1, 1, 0}};
    struct picture p = picture_drawn(SIZES[1], 0, state);
    for (size_t length = 1; length < 4; length++) {
        const uint64_t allowances[] = {least(&p, &g), NO_LIMIT};
        p.start = 8 * length;
        for (size_t n = 0; n < COUNT(allowances); n++) {
            struct cabunlis_picture_answer a = picture_written_into(&p, &g, allowances[n], length);
            CHECK(a.refusal == CABUNLIS_ERR_FULL && a.macroblock == 0 && a.done == 0 && all_held(p.out, p.length));
            for (int k = 0; k < PLANES; k++) {
                const struct cabunlis_answer *b = &a.planes[k];
                CHECK(b->refusal == (k == 0 ? CABUNLIS_ERR_FULL : 0) && b->macroblock == 0 && b->done == 0);
                CHECK(b->next == p.start && b->bits == 0 && b->error == 0);
                CHECK(all_held(p.planes[k].stated, 12 * p.planes[k].macroblocks));
                for (size_t m = 0; m < p.planes[k].macroblocks; m++)
                    CHECK(macroblock_is(&p.planes[k], m, NULL));
            }
        }
    }
    picture_free(&p);
}

/* ---- slices against pages that may not be touched */

/* Three planes of six slices, with vector slices longer than they need be and slices of stated numbers of any length; then what the planes share. */
enum slice { SOURCE, REFERENCE, RECON, VX, VY, STATED, PLANE_SLICES };
enum shared { OUT = PLANES * PLANE_SLICES, BOOK, CODEBOOK, SLICES };

/* Written whole, or into a string that ends in the middle of the picture. */
static void guarded_picture(const struct size *sizes, size_t stated, int cut, enum guard_side side, uint64_t *state)
{
    struct given g = {tables()->book, {32, 2, 1, 0}};
    struct picture p = picture_drawn(sizes, 11, state);
    struct guarded s[SLICES];
    struct cabunlis_plane lent[PLANES];
    CHECK(picture_written(&p, &g, NO_LIMIT).refusal == 0);
    uint64_t from = least(&p, &g), allowance = from + random_next(state) % (ample(&p, &g) - from + 1);
    struct cabunlis_picture_answer a = picture_written(&p, &g, allowance);
    CHECK(a.refusal == 0);
    size_t length = p.length;
    if (cut) {
        size_t room = (a.planes[PLANES - 1].next - p.start) / 2;
        length = (p.start + room + 7) / 8;
        p.start = 8 * length - room;
        a = picture_written_into(&p, &g, allowance, length);
        CHECK(a.refusal == CABUNLIS_ERR_FULL);
    }
    for (int k = 0; k < PLANES; k++) {
        const struct plane *q = &p.planes[k];
        size_t samples = q->width * q->height, canvas = q->stride * q->rows, vectors = 4 * q->macroblocks + SPARE;
        size_t bytes[PLANE_SLICES] = {samples, canvas, canvas, vectors, vectors, 4 * stated};
        struct guarded *here = s + k * PLANE_SLICES;
        for (int n = 0; n < PLANE_SLICES; n++) {
            here[n] = guarded_of(bytes[n], side);
            memset(here[n].bytes, HELD, bytes[n]);
        }
        memcpy(here[SOURCE].bytes, q->source, samples);
        memcpy(here[REFERENCE].bytes, q->reference, canvas);
        guarded_seal(&here[SOURCE]);
        guarded_seal(&here[REFERENCE]);
        lent[k] = plane_lent(q);
        lent[k].source = here[SOURCE].bytes;
        lent[k].reference = here[REFERENCE].bytes;
        lent[k].recon = here[RECON].bytes;
        lent[k].vx = guarded_vectors(&here[VX]);
        lent[k].vy = guarded_vectors(&here[VY]);
        lent[k].vx_length = lent[k].vy_length = vectors;
        lent[k].stated = (uint32_t *)(void *)here[STATED].bytes;
        lent[k].stated_length = stated;
    }
    s[OUT] = guarded_of(length, side);
    s[BOOK] = guarded_of(CABUNLIS_BOOK_BYTES, side);
    s[CODEBOOK] = guarded_of(CABUNLIS_CODEBOOK_BYTES, side);
    memset(s[OUT].bytes, HELD, length);
    memcpy(s[BOOK].bytes, g.book, CABUNLIS_BOOK_BYTES);
    memcpy(s[CODEBOOK].bytes, tables()->codebook, CABUNLIS_CODEBOOK_BYTES);
    guarded_seal(&s[BOOK]);
    guarded_seal(&s[CODEBOOK]);
    struct cabunlis_tables t = {s[BOOK].bytes, CABUNLIS_BOOK_BYTES, s[CODEBOOK].bytes, CABUNLIS_CODEBOOK_BYTES};
    struct cabunlis_output output = {s[OUT].bytes, length, p.start};
    struct cabunlis_picture_answer b = cabunlis_write_picture(lent, &t, &g.settings, allowance, &output);
    CHECK(b.refusal == a.refusal && b.macroblock == a.macroblock && b.done == a.done);
    CHECK(memcmp(s[OUT].bytes, p.out, length) == 0);
    for (int k = 0; k < PLANES; k++) {
        const struct plane *q = &p.planes[k];
        const struct guarded *here = s + k * PLANE_SLICES;
        size_t vectors = 4 * q->macroblocks, told = 3 * (stated / 3 < q->macroblocks ? stated / 3 : q->macroblocks);
        CHECK(memcmp(here[RECON].bytes, q->recon, q->stride * q->rows) == 0);
        CHECK(memcmp(here[VX].bytes, q->vx, vectors) == 0 && all_held(here[VX].bytes + vectors, SPARE));
        CHECK(memcmp(here[VY].bytes, q->vy, vectors) == 0 && all_held(here[VY].bytes + vectors, SPARE));
        CHECK(memcmp(here[STATED].bytes, q->stated, 4 * told) == 0 && all_held(here[STATED].bytes + 4 * told, 4 * (stated - told)));
    }
    for (int n = 0; n < SLICES; n++)
        guarded_free(&s[n]);
    picture_free(&p);
}

static void guarded_pictures(uint64_t *state)
{
    static const size_t STATED_LENGTHS[] = {0, 1, 2, 3, 4, 5, 6, 17, 18, 19, 40};
    for (size_t k = 0; k < COUNT(STATED_LENGTHS); k++)
        for (int cut = 0; cut < 2; cut++)
            guarded_picture(SIZES[k % PICTURE_SIZES], STATED_LENGTHS[k], cut, k % 2 ? GUARD_BEFORE : GUARD_BEHIND, state);
}

/* ---- refusals */

/* 20 x 20, 16 x 1 and 1 x 33: four macroblocks, one, and three. */
enum { PART = 32 * 48, BLOCKS = 4, BYTES = 512 };
static const struct size REFUSED[PLANES] = {{20, 20}, {16, 1}, {1, 33}};

/* Everything that a refused call is lent; it has to stay as it was. */
struct memory {
    uint8_t source[PLANES][PART], reference[PLANES][PART], recon[PLANES][PART];
    int8_t vx[PLANES][4 * BLOCKS], vy[PLANES][4 * BLOCKS];
    uint32_t stated[PLANES][3 * BLOCKS];
    uint8_t out[BYTES], book[CABUNLIS_BOOK_BYTES + 3], codebook[CABUNLIS_CODEBOOK_BYTES + 1];
};

static struct memory memory, before;

struct call {
    struct cabunlis_plane planes[PLANES];
    struct cabunlis_tables tables;
    struct cabunlis_output output;
    uint64_t allowance;
};

/* A call that is taken, at the least allowance. */
static struct call good(void)
{
    struct call c;
    memset(&c, 0, sizeof c);
    for (int k = 0; k < PLANES; k++) {
        struct cabunlis_plane *p = &c.planes[k];
        p->width = REFUSED[k].width;
        p->height = REFUSED[k].height;
        p->stride = (p->width + 15) / 16 * 16;
        p->rows = (p->height + 15) / 16 * 16;
        p->source = memory.source[k], p->source_length = p->width * p->height;
        p->reference = memory.reference[k], p->reference_length = p->stride * p->rows;
        p->recon = memory.recon[k], p->recon_length = p->stride * p->rows;
        p->vx = memory.vx[k], p->vx_length = p->stride / 8 * (p->rows / 8);
        p->vy = memory.vy[k], p->vy_length = p->vx_length;
        p->stated = memory.stated[k], p->stated_length = 3 * BLOCKS;
    }
    c.tables.book = memory.book, c.tables.book_length = CABUNLIS_BOOK_BYTES;
    c.tables.codebook = memory.codebook, c.tables.codebook_length = CABUNLIS_CODEBOOK_BYTES;
    c.output.bytes = memory.out, c.output.length = BYTES, c.output.start = 3;
    c.allowance = BLOCKS + 1 + 3;
    return c;
}

/* What can be wrong, in the order in which a plane is tested; 5 to 7 and 21 are wrong for all planes, so plane 0 answers them. */
enum wrong { WRONG_WIDTH, WRONG_HEIGHT, WRONG_SOURCE, WRONG_STRIDE, WRONG_ROWS, WRONG_REFERENCE, WRONG_BOOK, WRONG_CODEBOOK, WRONG_CODE, WRONG_PREFIX,
    WRONG_RECON, WRONG_VX, WRONG_VY, WRONG_START, WRONGS };
static const uint32_t NUMBERS[WRONGS] = {1, 1, 2, 3, 3, 4, 5, 5, 6, 7, 20, 20, 20, 21};

static int shared_by_planes(int w)
{
    return (WRONG_BOOK <= w && w <= WRONG_PREFIX) || w == WRONG_START;
}

static void spoil(struct call *c, int plane, int wrong)
{
    struct cabunlis_plane *p = &c->planes[plane];
    switch ((enum wrong)wrong) {
    case WRONG_WIDTH: p->width = 1025; break;
    case WRONG_HEIGHT: p->height = 0; break;
    case WRONG_SOURCE: p->source_length++; break;
    case WRONG_STRIDE: p->stride += 16; break;
    case WRONG_ROWS: p->rows--; break;
    case WRONG_REFERENCE: p->reference_length--; break;
    case WRONG_BOOK: c->tables.book_length += 3; break;
    case WRONG_CODEBOOK: c->tables.codebook_length++; break;
    case WRONG_CODE: memory.book[3 * 931 + 2] = 33; break;
    case WRONG_PREFIX: memcpy(memory.book + 3 * CABUNLIS_INTRA, memory.book + 3 * CABUNLIS_SKIP, 3); break;
    case WRONG_RECON: p->recon_length++; break;
    case WRONG_VX: p->vx_length--; break;
    case WRONG_VY: p->vy_length--; break;
    case WRONG_START: c->output.start = 8 * BYTES + 1; break;
    case WRONGS: break;
    }
}

/* The call answers this refusal, at this plane, or at none with 31; every other field is 0, and no byte has changed. */
static void refused(const struct call *c, uint32_t refusal, int plane)
{
    static const struct cabunlis_settings SETTINGS = {32, 1, 1, 0}; /* lambda, radius, four vectors, margin */
    before = memory;
    struct cabunlis_picture_answer a = cabunlis_write_picture(c->planes, &c->tables, &SETTINGS, c->allowance, &c->output);
    CHECK(a.refusal == refusal && a.macroblock == 0 && a.done == 0);
    for (int k = 0; k < PLANES; k++) {
        const struct cabunlis_answer *p = &a.planes[k];
        CHECK(p->refusal == (k == plane ? refusal : 0) && p->macroblock == 0 && p->done == 0 && p->next == 0 && p->bits == 0 && p->error == 0);
    }
    CHECK(memcmp(&memory, &before, sizeof memory) == 0);
}

static void fresh(void)
{
    uint64_t state = 23;
    memset(&memory, HELD, sizeof memory);
    for (int k = 0; k < PLANES; k++)
        for (size_t n = 0; n < PART; n++) {
            memory.source[k][n] = (uint8_t)random_next(&state);
            memory.reference[k][n] = (uint8_t)random_next(&state);
        }
    memcpy(memory.book, tables()->book, CABUNLIS_BOOK_BYTES);
    memcpy(memory.codebook, tables()->codebook, CABUNLIS_CODEBOOK_BYTES);
}

/* Where something is wrong: a plane and what of it. The planes go in turn, each through all its checks. */
struct place { int plane, wrong; };

static int earlier(struct place a, struct place b)
{
    return a.plane != b.plane ? a.plane < b.plane : a.wrong < b.wrong;
}

/* One thing wrong, and two at once, at any two places, with an allowance that is taken and with one that is not. */
static void order(void)
{
    struct place places[PLANES * WRONGS];
    size_t count = 0;
    for (int plane = 0; plane < PLANES; plane++)
        for (int wrong = 0; wrong < WRONGS; wrong++)
            if (plane == 0 || !shared_by_planes(wrong)) {
                places[count].plane = plane;
                places[count++].wrong = wrong;
            }
    for (size_t i = 0; i < count; i++)
        for (size_t j = i; j < count; j++) {
            struct place first = earlier(places[i], places[j]) ? places[i] : places[j];
            struct call c = good();
            spoil(&c, places[i].plane, places[i].wrong);
            if (j != i)
                spoil(&c, places[j].plane, places[j].wrong);
            refused(&c, NUMBERS[first.wrong], first.plane);
            c.allowance = 0;
            refused(&c, NUMBERS[first.wrong], first.plane);
            memcpy(memory.book, tables()->book, CABUNLIS_BOOK_BYTES);
        }
}

/* 31: below the length of SKIP's code for each macroblock of all planes, and not a plane's. The same call one bit above is taken. */
static void too_little(void)
{
    const uint8_t *const books[] = {tables()->book, tables()->plain, long_skips()};
    for (size_t k = 0; k < COUNT(books); k++) {
        memcpy(memory.book, books[k], CABUNLIS_BOOK_BYTES);
        struct call c = good();
        uint64_t enough = books[k][3 * CABUNLIS_SKIP + 2] * c.allowance;
        const uint64_t below[] = {0, 1, enough / 2, enough - 1};
        for (size_t n = 0; n < COUNT(below) && below[n] < enough; n++) {
            c.allowance = below[n];
            refused(&c, CABUNLIS_ERR_ALLOWANCE, PLANES);
        }
        static const struct cabunlis_settings SETTINGS = {32, 1, 1, 0};
        c.allowance = enough;
        CHECK(cabunlis_write_picture(c.planes, &c.tables, &SETTINGS, c.allowance, &c.output).refusal == 0);
        fresh();
    }
}

/* A string of one byte too many; nothing of it is touched, so nothing of it is in memory. */
static void too_long(void)
{
    size_t most = CABUNLIS_MOST_BYTES + 1;
    struct call c = good();
    c.output.length = most;
    c.output.bytes = mmap(NULL, most, PROT_READ | PROT_WRITE, MAP_PRIVATE | MAP_ANONYMOUS | MAP_NORESERVE, -1, 0);
    if (c.output.bytes == MAP_FAILED) {
        perror("mmap");
        exit(1);
    }
    refused(&c, CABUNLIS_ERR_BITS, 0);
    munmap(c.output.bytes, most);
}

void test_picture_refusals(void)
{
    uint64_t state = 506;
    full(tables()->book, 8, &state);
    full(long_skips(), 2, &state);
    three_bytes();
    nothing_goes_in(&state);
    guarded_pictures(&state);
    fresh();
    order();
    too_little();
    too_long();
}
