/* The short calls against the entries that they stand for: every field varied alone, and the same answer and the same memory asked of both. */
#include <stdio.h>
#include <string.h>

#include "check.h"

/* 20 x 36: a canvas of 32 x 48, six macroblocks; every length and every number here is another one. */
enum { W = 20, H = 36, STRIDE = 32, ROWS = 48, CANVAS = STRIDE * ROWS, BLOCKS = 6, OUT = 4096, SPARE = 8, PLANES = 3 };

/* All that a call is lent, twice over: a pointer is varied by lending the second. */
struct memory {
    uint8_t source[2][W * H], reference[2][CANVAS], book[2][CABUNLIS_BOOK_BYTES], codebook[2][CABUNLIS_CODEBOOK_BYTES];
    uint8_t bytes[2][OUT], recon[2][CANVAS + SPARE];
    int8_t vx[2][4 * BLOCKS], vy[2][4 * BLOCKS];
    uint32_t stated[2][3 * BLOCKS];
};

/* The arguments of a plane entry, as this test passes them to it, and the picture's allowance. */
struct arguments {
    size_t width, height, stride, rows;
    int source, reference, book, codebook, bytes, recon, vx, vy, stated; /* which of the two */
    size_t source_length, reference_length, book_length, codebook_length, bytes_length, start, recon_length, vx_length, vy_length, stated_length;
    uint64_t lambda;
    uint8_t radius, four;
    uint32_t margin;
    uint64_t allowance;
};

enum field {
    NONE, WIDTH, HEIGHT, STRIDE_, ROWS_, SOURCE, SOURCE_LENGTH, REFERENCE, REFERENCE_LENGTH, RECON, RECON_LENGTH, VX, VX_LENGTH, VY, VY_LENGTH,
    BOOK, BOOK_LENGTH, CODEBOOK, CODEBOOK_LENGTH, BYTES, LENGTH, START, LAMBDA, RADIUS, FOUR, MARGIN, ALLOWANCE, STATED, STATED_LENGTH, FIELDS
};

enum call { WRITE, WRITE_STATED, READ, PICTURE };

static struct arguments usual(void)
{
    struct arguments a;
    memset(&a, 0, sizeof a);
    a.width = W, a.height = H, a.stride = STRIDE, a.rows = ROWS;
    a.source_length = W * H, a.reference_length = CANVAS, a.recon_length = CANVAS;
    a.book_length = CABUNLIS_BOOK_BYTES, a.codebook_length = CABUNLIS_CODEBOOK_BYTES;
    a.bytes_length = OUT, a.start = 3, a.vx_length = 4 * BLOCKS, a.vy_length = 4 * BLOCKS, a.stated_length = 3 * BLOCKS;
    a.lambda = 1, a.radius = 1, a.four = 1, a.margin = 0;
    a.allowance = UINT64_C(1) << 40; /* an allowance cut short would be 0, and refused */
    return a;
}

static void vary(struct arguments *a, enum field f)
{
    switch (f) {
    case NONE: case FIELDS: break;
    case WIDTH: a->width = 0; break;
    case HEIGHT: a->height = 0; break;
    case STRIDE_: a->stride = 48; break;
    case ROWS_: a->rows = 32; break;
    case SOURCE: a->source = 1; break;
    case SOURCE_LENGTH: a->source_length--; break;
    case REFERENCE: a->reference = 1; break;
    case REFERENCE_LENGTH: a->reference_length--; break;
    case RECON: a->recon = 1; break;
    case RECON_LENGTH: a->recon_length++; break;
    case VX: a->vx = 1; break;
    case VX_LENGTH: a->vx_length--; break;
    case VY: a->vy = 1; break;
    case VY_LENGTH: a->vy_length--; break;
    case BOOK: a->book = 1; break;
    case BOOK_LENGTH: a->book_length--; break;
    case CODEBOOK: a->codebook = 1; break;
    case CODEBOOK_LENGTH: a->codebook_length--; break;
    case BYTES: a->bytes = 1; break;
    case LENGTH: a->bytes_length = 30; break;
    case START: a->start = 11; break;
    case LAMBDA: a->lambda = 3000; break;
    case RADIUS: a->radius = 6; break;
    case FOUR: a->four = 0; break;
    case MARGIN: a->margin = UINT32_C(1) << 31; break; /* no stage stays; the highest bit, so a margin cut short would be 0 */
    case ALLOWANCE: a->allowance = 700; break;
    case STATED: a->stated = 1; break;
    case STATED_LENGTH: a->stated_length = 4; break;
    }
}

static struct cabunlis_answer entry(struct memory *m, const struct arguments *a, enum call c)
{
    if (c == READ)
        return cabunlis_decode_inter_plane(
            a->width, a->height, a->stride, a->rows, m->reference[a->reference], a->reference_length, m->book[a->book], a->book_length,
            m->codebook[a->codebook], a->codebook_length, m->bytes[a->bytes], a->bytes_length, a->start,
            m->recon[a->recon], a->recon_length, m->vx[a->vx], a->vx_length, m->vy[a->vy], a->vy_length);
    if (c == WRITE)
        return cabunlis_encode_inter_plane(
            a->width, a->height, a->stride, a->rows, m->source[a->source], a->source_length, m->reference[a->reference], a->reference_length,
            m->book[a->book], a->book_length, m->codebook[a->codebook], a->codebook_length, a->lambda, a->radius, a->four, a->margin,
            m->bytes[a->bytes], a->bytes_length, a->start, m->recon[a->recon], a->recon_length, m->vx[a->vx], a->vx_length, m->vy[a->vy], a->vy_length);
    return cabunlis_encode_inter_plane_stated(
        a->width, a->height, a->stride, a->rows, m->source[a->source], a->source_length, m->reference[a->reference], a->reference_length,
        m->book[a->book], a->book_length, m->codebook[a->codebook], a->codebook_length, a->lambda, a->radius, a->four, a->margin,
        m->bytes[a->bytes], a->bytes_length, a->start, m->recon[a->recon], a->recon_length, m->vx[a->vx], a->vx_length, m->vy[a->vy], a->vy_length,
        m->stated[a->stated], a->stated_length);
}

/* A plane as the reader takes it. */
static struct cabunlis_plane plane_to_read(struct memory *m, const struct arguments *a)
{
    struct cabunlis_plane plane;
    memset(&plane, 0, sizeof plane);
    plane.width = a->width;
    plane.height = a->height;
    plane.stride = a->stride;
    plane.rows = a->rows;
    plane.reference = m->reference[a->reference];
    plane.reference_length = a->reference_length;
    plane.recon = m->recon[a->recon];
    plane.recon_length = a->recon_length;
    plane.vx = m->vx[a->vx];
    plane.vx_length = a->vx_length;
    plane.vy = m->vy[a->vy];
    plane.vy_length = a->vy_length;
    return plane;
}

/* And as the writer takes it. */
static struct cabunlis_plane plane_to_write(struct memory *m, const struct arguments *a, int stated)
{
    struct cabunlis_plane plane = plane_to_read(m, a);
    plane.source = m->source[a->source];
    plane.source_length = a->source_length;
    if (stated) {
        plane.stated = m->stated[a->stated];
        plane.stated_length = a->stated_length;
    }
    return plane;
}

static struct cabunlis_tables tables_lent(struct memory *m, const struct arguments *a)
{
    struct cabunlis_tables tables;
    memset(&tables, 0, sizeof tables);
    tables.book = m->book[a->book];
    tables.book_length = a->book_length;
    tables.codebook = m->codebook[a->codebook];
    tables.codebook_length = a->codebook_length;
    return tables;
}

static struct cabunlis_settings settings_given(const struct arguments *a)
{
    struct cabunlis_settings settings;
    memset(&settings, 0, sizeof settings);
    settings.lambda = a->lambda;
    settings.radius = a->radius;
    settings.four = a->four;
    settings.margin = a->margin;
    return settings;
}

static struct cabunlis_output output_lent(struct memory *m, const struct arguments *a)
{
    struct cabunlis_output output;
    memset(&output, 0, sizeof output);
    output.bytes = m->bytes[a->bytes];
    output.length = a->bytes_length;
    output.start = a->start;
    return output;
}

static struct cabunlis_answer short_call(struct memory *m, const struct arguments *a, enum call c)
{
    struct cabunlis_tables tables = tables_lent(m, a);
    if (c == READ) {
        struct cabunlis_plane plane = plane_to_read(m, a);
        struct cabunlis_input input;
        memset(&input, 0, sizeof input);
        input.bytes = m->bytes[a->bytes];
        input.length = a->bytes_length;
        input.start = a->start;
        return cabunlis_read(&plane, &tables, &input);
    }
    struct cabunlis_plane plane = plane_to_write(m, a, c == WRITE_STATED);
    struct cabunlis_settings settings = settings_given(a);
    struct cabunlis_output output = output_lent(m, a);
    return cabunlis_write(&plane, &tables, &settings, &output);
}

/* A smooth reference, and a source that is it moved by three samples, with grain; the second of each is another one. */
static void fill(struct memory *m, enum call c)
{
    memset(m, 0xb7, sizeof *m);
    for (int k = 0; k < 2; k++) {
        uint64_t state = 40 + (uint64_t)k;
        for (size_t i = 0; i < CANVAS; i++)
            m->reference[k][i] = (uint8_t)(random_next(&state) % 9 + 4 * (i % STRIDE) + (k ? 5 : 2) * (i / STRIDE));
        for (size_t y = 0; y < H; y++)
            for (size_t x = 0; x < W; x++)
                m->source[k][y * W + x] = (uint8_t)(m->reference[0][y * STRIDE + x + 3] + random_next(&state) % 90);
        memcpy(m->book[k], k ? tables()->plain : tables()->book, CABUNLIS_BOOK_BYTES);
        memcpy(m->codebook[k], tables()->codebook, CABUNLIS_CODEBOOK_BYTES);
    }
    for (size_t i = 0; i < CABUNLIS_CODEBOOK_BYTES; i++)
        m->codebook[1][i] = (uint8_t)(m->codebook[1][i] * 3);
    if (c != READ)
        return;
    /* strings to read: what the writer leaves for either source */
    for (int k = 0; k < 2; k++) {
        struct arguments a = usual();
        a.source = a.bytes = k;
        CHECK(entry(m, &a, WRITE).refusal == 0);
    }
    memset(m->recon, 0x3c, sizeof m->recon);
    memset(m->vx, 0x3c, sizeof m->vx);
    memset(m->vy, 0x3c, sizeof m->vy);
}

static int same_answer(const struct cabunlis_answer *a, const struct cabunlis_answer *b)
{
    return a->refusal == b->refusal && a->macroblock == b->macroblock && a->done == b->done && a->next == b->next && a->bits == b->bits && a->error == b->error;
}

static int takes(enum call c, enum field f)
{
    if (f == ALLOWANCE)
        return c == PICTURE;
    if (f == STATED || f == STATED_LENGTH)
        return c == WRITE_STATED || c == PICTURE;
    if (f == SOURCE || f == SOURCE_LENGTH || f == LAMBDA || f == RADIUS || f == FOUR || f == MARGIN)
        return c != READ;
    return 1;
}

/* ---- the picture: each plane has its own memory and arguments; what they share is lent by the first */

static struct cabunlis_picture_answer picture_entry(struct memory *m, const struct arguments *a)
{
    return cabunlis_encode_picture(
        a[0].width, a[0].height, a[0].stride, a[0].rows, m[0].source[a[0].source], a[0].source_length, m[0].reference[a[0].reference], a[0].reference_length,
        m[0].recon[a[0].recon], a[0].recon_length, m[0].vx[a[0].vx], a[0].vx_length, m[0].vy[a[0].vy], a[0].vy_length, m[0].stated[a[0].stated], a[0].stated_length,
        a[1].width, a[1].height, a[1].stride, a[1].rows, m[1].source[a[1].source], a[1].source_length, m[1].reference[a[1].reference], a[1].reference_length,
        m[1].recon[a[1].recon], a[1].recon_length, m[1].vx[a[1].vx], a[1].vx_length, m[1].vy[a[1].vy], a[1].vy_length, m[1].stated[a[1].stated], a[1].stated_length,
        a[2].width, a[2].height, a[2].stride, a[2].rows, m[2].source[a[2].source], a[2].source_length, m[2].reference[a[2].reference], a[2].reference_length,
        m[2].recon[a[2].recon], a[2].recon_length, m[2].vx[a[2].vx], a[2].vx_length, m[2].vy[a[2].vy], a[2].vy_length, m[2].stated[a[2].stated], a[2].stated_length,
        m[0].book[a[0].book], a[0].book_length, m[0].codebook[a[0].codebook], a[0].codebook_length, a[0].lambda, a[0].radius, a[0].four, a[0].margin, a[0].allowance,
        m[0].bytes[a[0].bytes], a[0].bytes_length, a[0].start);
}

/* With NULL for what plane `unstated` is to state, or for none. */
static struct cabunlis_picture_answer picture_short(struct memory *m, const struct arguments *a, int unstated)
{
    struct cabunlis_plane planes[PLANES];
    struct cabunlis_tables tables = tables_lent(&m[0], &a[0]);
    struct cabunlis_settings settings = settings_given(&a[0]);
    struct cabunlis_output output = output_lent(&m[0], &a[0]);
    for (int k = 0; k < PLANES; k++)
        planes[k] = plane_to_write(&m[k], &a[k], k != unstated);
    if (unstated < PLANES)
        planes[unstated].stated_length = 3 * BLOCKS;
    return cabunlis_write_picture(planes, &tables, &settings, a[0].allowance, &output);
}

static int same_picture(const struct cabunlis_picture_answer *a, const struct cabunlis_picture_answer *b)
{
    int same = a->refusal == b->refusal && a->macroblock == b->macroblock && a->done == b->done;
    for (int k = 0; k < PLANES; k++)
        same = same && same_answer(&a->planes[k], &b->planes[k]);
    return same;
}

static int of_one_plane(enum field f)
{
    return (WIDTH <= f && f <= VY_LENGTH) || f == STATED || f == STATED_LENGTH;
}

static void pictures(void)
{
    static struct memory plain[PLANES], brief[PLANES], unvaried[PLANES];
    struct cabunlis_picture_answer first;
    memset(&first, 0, sizeof first);
    for (int n = 0; n < PLANES; n++)
        for (int f = NONE; f <= FIELDS; f++) {
            struct arguments a[PLANES], b[PLANES];
            if (n > 0 && f < FIELDS && !of_one_plane((enum field)f))
                continue;
            for (int k = 0; k < PLANES; k++) {
                a[k] = b[k] = usual();
                fill(&plain[k], PICTURE);
                fill(&brief[k], PICTURE);
            }
            vary(&a[n], (enum field)f);
            vary(&b[n], (enum field)f);
            /* behind the fields: the short call gets NULL, which stands for length 0 whatever its length says */
            if (f == FIELDS)
                a[n].stated_length = 0;
            struct cabunlis_picture_answer wanted = picture_entry(plain, a), got = picture_short(brief, b, f == FIELDS ? n : PLANES);
            CHECK(same_picture(&wanted, &got));
            CHECK(memcmp(plain, brief, sizeof plain) == 0);
            if (f == NONE) {
                CHECK(wanted.refusal == 0 && wanted.done == PLANES * BLOCKS);
                first = wanted;
                memcpy(unvaried, plain, sizeof plain);
            } else {
                CHECK(!same_picture(&wanted, &first) || memcmp(plain, unvaried, sizeof plain) != 0);
            }
        }
}

void test_short(void)
{
    static struct memory plain, brief, unvaried;
    pictures();
    for (int c = WRITE; c <= READ; c++) {
        struct cabunlis_answer first = {0, 0, 0, 0, 0, 0};
        for (int f = NONE; f < FIELDS; f++) {
            struct arguments a = usual();
            vary(&a, (enum field)f);
            fill(&plain, (enum call)c);
            fill(&brief, (enum call)c);
            struct cabunlis_answer wanted = entry(&plain, &a, (enum call)c), got = short_call(&brief, &a, (enum call)c);
            CHECK(same_answer(&wanted, &got));
            CHECK(memcmp(&plain, &brief, sizeof plain) == 0);
            if (f == NONE) {
                CHECK(wanted.refusal == 0 && wanted.done == BLOCKS);
                first = wanted;
                unvaried = plain;
            } else {
                /* a field that the call takes shows in what it answers or leaves, or its variation would say nothing */
                int differs = !same_answer(&wanted, &first) || memcmp(&plain, &unvaried, sizeof plain) != 0;
                CHECK(differs == takes((enum call)c, (enum field)f));
            }
        }
    }
    char version[64];
    snprintf(version, sizeof version, "%d.%d.%d", CABUNLIS_VERSION_NUMBER / 1000000, CABUNLIS_VERSION_NUMBER / 1000 % 1000, CABUNLIS_VERSION_NUMBER % 1000);
    CHECK(strcmp(version, CABUNLIS_VERSION) == 0);
}
