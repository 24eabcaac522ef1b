/* Every refusal that a plane call can answer, and that the result slices have not changed. */
#include <stdio.h>
#include <stdlib.h>
#include <string.h>
#include <sys/mman.h>

#include "check.h"
#include "plane.h"

/* 20 x 20: a canvas of 32 x 32, four macroblocks. */
enum { SIDE = 20, CANVAS = 32, MACROBLOCKS = 4, OUT = 2048 };

/* A call as numbers; each case changes some of them. */
struct call {
    size_t width, height, stride, rows;
    size_t source, reference, book, codebook, out, start, recon, vx, vy;
    const uint8_t *tables;
    uint8_t *string;
};

static uint8_t source[SIDE * SIDE + 1], reference[CANVAS * CANVAS + 1], book[CABUNLIS_BOOK_BYTES + 3];
static uint8_t codebook[CABUNLIS_CODEBOOK_BYTES + 1], out[OUT], recon[CANVAS * CANVAS + 1];
static int8_t vx[4 * MACROBLOCKS], vy[4 * MACROBLOCKS];
static uint32_t stated[3 * MACROBLOCKS];

static struct call good(void)
{
    struct call c = {
        SIDE, SIDE, CANVAS, CANVAS,
        SIDE * SIDE, CANVAS * CANVAS, CABUNLIS_BOOK_BYTES, CABUNLIS_CODEBOOK_BYTES, OUT, 0, CANVAS * CANVAS, 4 * MACROBLOCKS, 4 * MACROBLOCKS,
        book, out,
    };
    return c;
}

static void fill(void)
{
    uint64_t state = 11;
    for (size_t k = 0; k < sizeof source; k++)
        source[k] = (uint8_t)random_next(&state);
    for (size_t k = 0; k < sizeof reference; k++)
        reference[k] = (uint8_t)random_next(&state);
    memcpy(book, tables()->book, CABUNLIS_BOOK_BYTES);
    memcpy(codebook, tables()->codebook, CABUNLIS_CODEBOOK_BYTES);
    memset(out, 0xc3, sizeof out);
    memset(recon, 0x3c, sizeof recon);
    memset(vx, 0x11, sizeof vx);
    memset(vy, 0x22, sizeof vy);
    memset(stated, 0x33, sizeof stated);
}

static int all_are(const void *bytes, size_t n, uint8_t value)
{
    const uint8_t *b = bytes;
    for (size_t k = 0; k < n; k++)
        if (b[k] != value)
            return 0;
    return 1;
}

static int untouched(void)
{
    return all_are(out, sizeof out, 0xc3) && all_are(recon, sizeof recon, 0x3c) && all_are(vx, sizeof vx, 0x11) && all_are(vy, sizeof vy, 0x22)
        && all_are(stated, sizeof stated, 0x33);
}

static struct cabunlis_answer wrote(const struct call *c)
{
    return cabunlis_encode_inter_plane_stated(
        c->width, c->height, c->stride, c->rows, source, c->source, reference, c->reference, c->tables, c->book, codebook, c->codebook, 32, 2, 1, 0,
        c->string, c->out, c->start, recon, c->recon, vx, c->vx, vy, c->vy, stated, 3 * MACROBLOCKS);
}

static struct cabunlis_answer wrote_plain(const struct call *c)
{
    return cabunlis_encode_inter_plane(
        c->width, c->height, c->stride, c->rows, source, c->source, reference, c->reference, c->tables, c->book, codebook, c->codebook, 32, 2, 1, 0,
        c->string, c->out, c->start, recon, c->recon, vx, c->vx, vy, c->vy);
}

static struct cabunlis_answer read_it(const struct call *c)
{
    return cabunlis_decode_inter_plane(
        c->width, c->height, c->stride, c->rows, reference, c->reference, c->tables, c->book, codebook, c->codebook, c->string, c->out, c->start,
        recon, c->recon, vx, c->vx, vy, c->vy);
}

static int bare(const struct cabunlis_answer *a, uint32_t refusal)
{
    return a->refusal == refusal && a->macroblock == 0 && a->done == 0 && a->next == 0 && a->bits == 0 && a->error == 0;
}

/* Both writers and the reader answer this refusal, or the writers alone. */
static void refused(const struct call *c, uint32_t refusal, int writer_alone)
{
    struct cabunlis_answer a = wrote(c);
    CHECK(bare(&a, refusal));
    CHECK(untouched());
    a = wrote_plain(c);
    CHECK(bare(&a, refusal));
    CHECK(untouched());
    if (writer_alone)
        return;
    a = read_it(c);
    CHECK(bare(&a, refusal));
    CHECK(untouched());
}

static void sizes(void)
{
    static const size_t SIDES[] = {0, 1025, 4096, SIZE_MAX};
    for (size_t k = 0; k < sizeof SIDES / sizeof *SIDES; k++) {
        struct call c = good();
        c.width = SIDES[k];
        refused(&c, CABUNLIS_ERR_SIZE, 0);
        c = good();
        c.height = SIDES[k];
        refused(&c, CABUNLIS_ERR_SIZE, 0);
    }
    for (int more = -1; more <= 1; more += 2) {
        struct call c = good();
        c.source += (size_t)more;
        refused(&c, CABUNLIS_ERR_SOURCE, 1);
        c = good();
        c.stride += (size_t)more;
        refused(&c, CABUNLIS_ERR_STRIDE, 0);
        c = good();
        c.rows += 16 * (size_t)more;
        refused(&c, CABUNLIS_ERR_STRIDE, 0);
        c = good();
        c.reference += (size_t)more;
        refused(&c, CABUNLIS_ERR_REFERENCE, 0);
    }
}

static void books(void)
{
    struct call c = good();
    c.book -= 3;
    refused(&c, CABUNLIS_ERR_TABLES, 0);
    c = good();
    c.book += 3;
    refused(&c, CABUNLIS_ERR_TABLES, 0);
    c = good();
    c.codebook -= 1;
    refused(&c, CABUNLIS_ERR_TABLES, 0);
    c = good();
    c.codebook += 1;
    refused(&c, CABUNLIS_ERR_TABLES, 0);
    /* the length 0, the length 33, a value of 2 bits in a code of one */
    static const uint8_t ENTRIES[][3] = {{0, 0, 0}, {0, 1, 33}, {0, 2, 1}};
    for (size_t k = 0; k < 3; k++) {
        c = good();
        memcpy(book + 3 * 931, ENTRIES[k], 3);
        refused(&c, CABUNLIS_ERR_CODE, 0);
    }
    memcpy(book, tables()->book, CABUNLIS_BOOK_BYTES);
    /* the second mode's code like the first's */
    c = good();
    memcpy(book + 3, book, 3);
    refused(&c, CABUNLIS_ERR_PREFIX, 0);
    memcpy(book, tables()->book, CABUNLIS_BOOK_BYTES);
}

static void results(void)
{
    struct call c = good();
    c.recon -= 1;
    refused(&c, CABUNLIS_ERR_RESULTS, 0);
    c = good();
    c.recon += 1;
    refused(&c, CABUNLIS_ERR_RESULTS, 0);
    c = good();
    c.vx -= 1;
    refused(&c, CABUNLIS_ERR_RESULTS, 0);
    c = good();
    c.vy -= 1;
    refused(&c, CABUNLIS_ERR_RESULTS, 0);
    c = good();
    c.start = 8 * OUT + 1;
    refused(&c, CABUNLIS_ERR_BITS, 0);
    /* a string of one byte too many; nothing of it is touched, so nothing of it is in memory */
    size_t most = CABUNLIS_MOST_BYTES + 1;
    c = good();
    c.string = mmap(NULL, most, PROT_READ | PROT_WRITE, MAP_PRIVATE | MAP_ANONYMOUS | MAP_NORESERVE, -1, 0);
    if (c.string == MAP_FAILED) {
        perror("mmap");
        exit(1);
    }
    c.out = most;
    refused(&c, CABUNLIS_ERR_BITS, 0);
    munmap(c.string, most);
}

/* Of several the lowest answers, 20 and 21 behind the others. */
static void order(void)
{
    struct call c = good();
    c.recon = 0;
    c.start = SIZE_MAX;
    refused(&c, CABUNLIS_ERR_RESULTS, 0);
    c.book = 0;
    refused(&c, CABUNLIS_ERR_TABLES, 0);
    c.reference = 0;
    refused(&c, CABUNLIS_ERR_REFERENCE, 0);
    c.stride = 0;
    refused(&c, CABUNLIS_ERR_STRIDE, 0);
    c.source = 0;
    refused(&c, CABUNLIS_ERR_SOURCE, 1);
    c.width = 0;
    refused(&c, CABUNLIS_ERR_SIZE, 0);
}

/* 22 with the index of the macroblock that does not fit, the ones before it kept. */
static void full(void)
{
    struct call c = good();
    struct cabunlis_answer whole = wrote(&c);
    CHECK(whole.refusal == 0 && whole.done == MACROBLOCKS);
    uint32_t said[3 * MACROBLOCKS];
    memcpy(said, stated, sizeof said);
    size_t bits = 0;
    for (size_t k = 0; k < MACROBLOCKS; k++) {
        /* room for the first k macroblocks and all but one bit of the next */
        fill();
        size_t room = bits + said[3 * k + 1] - 1;
        c = good();
        c.out = (room + 7) / 8;
        c.start = 8 * c.out - room;
        struct cabunlis_answer a = wrote(&c);
        CHECK(a.refusal == CABUNLIS_ERR_FULL && a.macroblock == k && a.done == k && a.bits == bits && a.next == c.start + bits);
        CHECK(all_are(stated + 3 * k, (MACROBLOCKS - k) * 12, 0x33));
        CHECK(memcmp(stated, said, 12 * k) == 0);
        CHECK(all_are(out + c.out, OUT - c.out, 0xc3));
        struct cabunlis_answer b = wrote_plain(&c);
        CHECK(b.refusal == CABUNLIS_ERR_FULL && b.macroblock == k && b.done == k && b.bits == bits && b.next == a.next && b.error == a.error);
        bits += said[3 * k + 1];
    }
    fill();
}

/* 10, 11 and 24 on bits written by hand with the built-in book. */
static void streams(void)
{
    static const struct { uint8_t bytes[3]; size_t length; uint32_t refusal; size_t macroblock; } CASES[] = {
        {{0x28, 0, 0}, 3, CABUNLIS_ERR_NO_CODE, 0},     /* 00101: no mode begins so */
        {{0x94, 0, 0}, 3, CABUNLIS_ERR_NO_CODE, 1},     /* SKIP, then 00101 */
        {{0x22, 0, 0}, 3, CABUNLIS_ERR_LEAF, 0},        /* INTRA, a leaf at level 5 that skips */
        {{0x21, 0x80, 0}, 3, CABUNLIS_ERR_LEAF, 0},     /* INTRA, a leaf at level 5 with a stage */
        {{0xc8, 0x60, 0}, 3, CABUNLIS_ERR_LEAF, 2},     /* SKIP twice, then that */
        {{0x21, 0x01, 0x94}, 2, CABUNLIS_ERR_CUT, 0},   /* the first card without its last byte */
        {{0xe4, 0, 0}, 1, CABUNLIS_ERR_CUT, 3},         /* SKIP three times, INTRA, and no more */
        {{0xff, 0, 0}, 0, CABUNLIS_ERR_CUT, 0},         /* nothing at all */
    };
    for (size_t k = 0; k < sizeof CASES / sizeof *CASES; k++) {
        uint8_t bytes[3];
        memcpy(bytes, CASES[k].bytes, 3);
        struct call c = good();
        c.string = bytes;
        c.out = CASES[k].length;
        struct cabunlis_answer a = read_it(&c);
        CHECK(a.refusal == CASES[k].refusal && a.macroblock == CASES[k].macroblock && a.done == a.macroblock && a.next == a.done);
        CHECK(memcmp(bytes, CASES[k].bytes, 3) == 0);
        if (a.done == 0)
            CHECK(untouched());
        fill();
    }
}

void test_refusals(void)
{
    fill();
    sizes();
    books();
    results();
    order();
    streams();
    full();
}
