/* A plane with all that a call lends, as the example and the tests use it. */
#ifndef CABUNLIS_HOST_PLANE_H
#define CABUNLIS_HOST_PLANE_H

#include <stddef.h>
#include <stdint.h>

#include "cabunlis.h"

struct plane {
    size_t width, height, stride, rows;
    size_t macroblocks;
    uint8_t *source;    /* width x height */
    uint8_t *reference; /* stride x rows */
    uint8_t *recon;     /* stride x rows */
    int8_t *vx, *vy;    /* four a macroblock */
    uint32_t *stated;   /* three numbers a macroblock */
    uint8_t *out;       /* room for any plane of this size */
    size_t room;
};

/* Ends the program where memory runs out. */
void *host_memory(size_t bytes);

struct plane plane_of(size_t width, size_t height);
void plane_free(struct plane *p);

/* All of it as the short calls take it: the source, the reference, and the slices that are written. */
struct cabunlis_plane plane_lent(const struct plane *p);

struct cabunlis_answer plane_write(
    struct plane *p, const uint8_t *book, const uint8_t *codebook, const struct cabunlis_settings *settings, size_t start);
struct cabunlis_answer plane_read(struct plane *p, const uint8_t *book, const uint8_t *codebook, const uint8_t *bytes, size_t length, size_t start);

/* How far its reconstruction is from its source in the samples that the panel shows. */
struct cabunlis_visible plane_visible(const struct plane *p);

#endif
