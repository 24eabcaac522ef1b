#include "plane.h"

#include <stdio.h>
#include <stdlib.h>

void *host_memory(size_t bytes)
{
    void *p = calloc(bytes ? bytes : 1, 1);
    if (!p) {
        fprintf(stderr, "no memory for %zu bytes\n", bytes);
        exit(1);
    }
    return p;
}

struct plane plane_of(size_t width, size_t height)
{
    struct plane p;
    p.width = width;
    p.height = height;
    p.stride = (width + 15) / 16 * 16;
    p.rows = (height + 15) / 16 * 16;
    p.macroblocks = p.stride / 16 * (p.rows / 16);
    p.source = host_memory(width * height);
    p.reference = host_memory(p.stride * p.rows);
    p.recon = host_memory(p.stride * p.rows);
    p.vx = host_memory(4 * p.macroblocks);
    p.vy = host_memory(4 * p.macroblocks);
    p.stated = host_memory(3 * p.macroblocks * sizeof *p.stated);
    p.room = cabunlis_plane_room(width, height).bytes;
    p.out = host_memory(p.room);
    return p;
}

void plane_free(struct plane *p)
{
    free(p->source);
    free(p->reference);
    free(p->recon);
    free(p->vx);
    free(p->vy);
    free(p->stated);
    free(p->out);
}

struct cabunlis_plane plane_lent(const struct plane *p)
{
    struct cabunlis_plane lent = {0};
    lent.width = p->width;
    lent.height = p->height;
    lent.stride = p->stride;
    lent.rows = p->rows;
    lent.source = p->source;
    lent.source_length = p->width * p->height;
    lent.reference = p->reference;
    lent.reference_length = p->stride * p->rows;
    lent.recon = p->recon;
    lent.recon_length = p->stride * p->rows;
    lent.vx = p->vx;
    lent.vx_length = 4 * p->macroblocks;
    lent.vy = p->vy;
    lent.vy_length = 4 * p->macroblocks;
    lent.stated = p->stated;
    lent.stated_length = 3 * p->macroblocks;
    return lent;
}

struct cabunlis_answer plane_write(
    struct plane *p, const uint8_t *book, const uint8_t *codebook, const struct cabunlis_settings *settings, size_t start)
{
    struct cabunlis_plane lent = plane_lent(p);
    struct cabunlis_tables tables = {book, CABUNLIS_BOOK_BYTES, codebook, CABUNLIS_CODEBOOK_BYTES};
    struct cabunlis_output output = {p->out, p->room, start};
    return cabunlis_write(&lent, &tables, settings, &output);
}

struct cabunlis_answer plane_read(struct plane *p, const uint8_t *book, const uint8_t *codebook, const uint8_t *bytes, size_t length, size_t start)
{
    struct cabunlis_plane lent = plane_lent(p);
    struct cabunlis_tables tables = {book, CABUNLIS_BOOK_BYTES, codebook, CABUNLIS_CODEBOOK_BYTES};
    struct cabunlis_input input = {bytes, length, start};
    return cabunlis_read(&lent, &tables, &input);
}

struct cabunlis_visible plane_visible(const struct plane *p)
{
    return cabunlis_visible_error(p->width, p->height, p->stride, p->rows, p->source, p->width * p->height, p->recon, p->stride * p->rows);
}
