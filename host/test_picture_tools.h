/* What the tests of pictures share: a picture with all that it is lent, drawn, written, and held to what every picture has that is written whole. */
#ifndef CABUNLIS_HOST_TEST_PICTURE_TOOLS_H
#define CABUNLIS_HOST_TEST_PICTURE_TOOLS_H

#include "check.h"
#include "plane.h"

/* HELD is what every byte holds that a call may write, before it. */
enum { PLANES = 3, SPARE = 9, HELD = 0xb7 };

#define COUNT(list) (sizeof(list) / sizeof *(list))
#define NO_LIMIT UINT64_MAX

struct size { size_t width, height; };

/* Planes of one macroblock; one beside six; two sides that end inside a macroblock; the small planes of a quarter of each side. */
enum { PICTURE_SIZES = 4 };
extern const struct size SIZES[PICTURE_SIZES][PLANES];

/* Three planes, and one bit string for all of them, longer than they can take. */
struct picture { struct plane planes[PLANES]; size_t macroblocks; uint8_t *out; size_t length, start; };

/* What is given with the planes: a book, and how the writer chooses. */
struct given { const uint8_t *book; struct cabunlis_settings settings; };

struct picture picture_of(const struct size *sizes, size_t start);
struct picture picture_drawn(const struct size *sizes, size_t start, uint64_t *state);

/* Another picture with the same sources and references, and the same start. */
struct picture picture_like(const struct picture *p);
void picture_free(struct picture *p);

/* Every byte that a call may write holds HELD. */
void picture_reset(struct picture *p);

/* Resets the picture and writes it, into the first `length` bytes of its string or into all of it. */
struct cabunlis_picture_answer picture_written_into(struct picture *p, const struct given *g, uint64_t allowance, size_t length);
struct cabunlis_picture_answer picture_written(struct picture *p, const struct given *g, uint64_t allowance);
struct cabunlis_tables tables_of(const struct given *g);

int all_held(const void *bytes, size_t n);
int same_plane(const struct plane *p, const struct plane *q);

/* The same bits, and the same in the slices of every plane. */
int same_left(const struct picture *p, const struct picture *q);

/* So many bits of a string, and as many of another, each from a bit on. */
unsigned bit_of(const uint8_t *bytes, size_t k);
int same_bits(const uint8_t *a, size_t from, const uint8_t *b, size_t there, size_t count);

/* The bits before the picture as they were; zeros behind bit `next` to the end of its byte, the bytes behind that as they were. */
void around(const struct picture *p, size_t next);

/* The length of SKIP's code; the least allowance that is taken. */
uint64_t skip_bits(const struct given *g);
uint64_t least(const struct picture *p, const struct given *g);

/* What macroblock k states, counted through the planes: mode, bits, error. */
const uint32_t *stated_of(const struct picture *p, size_t k);

/* The least allowance at which every first choice fits, by what the picture without a limit states. */
uint64_t ample(const struct picture *unlimited, const struct given *g);

/* What holds of every picture that is written whole: it is inside its allowance, its totals are those stated, each plane reads back. */
void whole(const struct picture *p, const struct given *g, uint64_t allowance, const struct cabunlis_picture_answer *a);

/* A SKIP code of 32 bits, longer than many a macroblock that is coded; the other modes have two. */
const uint8_t *long_skips(void);

#endif
