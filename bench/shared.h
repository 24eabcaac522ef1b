/* What the C programs of the benchmark share: sizes, scenes and radii, planes that show something, and a plane written with the built-in tables. */
#ifndef CABUNLIS_BENCH_SHARED_H
#define CABUNLIS_BENCH_SHARED_H

#include "plane.h"
#include "scene.h"

enum { LAMBDA = 32 };

#define COUNT(list) (sizeof(list) / sizeof *(list))

struct size { size_t width, height; };
struct scene { const char *name; enum scene_eye eye; };

extern const struct size SIZES[2];
extern const struct scene SCENES[2];
extern const uint8_t RADII[2];

/* The luma planes that are measured alone: a scene's name, or noise. */
extern const char *const LUMAS[2];

extern uint8_t book[CABUNLIS_BOOK_BYTES], codebook[CABUNLIS_CODEBOOK_BYTES];

/* Ends the program with a message. */
void fail(const char *what);

/* The built-in book and codebook. */
void fill_tables(void);

/* Source and reference have nothing in common, so every macroblock is coded anew. */
void make_noise(struct plane *p, uint64_t seed);

/* A scene's second picture; its reference is the first as drawn. */
void draw_second(struct plane *p, enum scene_plane plane, enum scene_eye eye);

size_t scene_named(const char *name);

/* A luma plane of noise, or of a scene's second picture. */
struct plane luma_of(const char *what, struct size size);

/* Writes a plane to its last macroblock, with four vectors. */
struct cabunlis_answer written_at(struct plane *p, uint8_t radius, uint32_t margin);
struct cabunlis_answer written(struct plane *p, uint8_t radius);

#endif
