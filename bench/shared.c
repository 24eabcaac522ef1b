#include "shared.h"

#include <stdio.h>
#include <stdlib.h>
#include <string.h>

const struct size SIZES[] = {{176, 144}, {352, 288}};
const struct scene SCENES[] = {{"still", SCENE_STILL}, {"turning", SCENE_TURNING}};
const uint8_t RADII[] = {8, 32};
const char *const LUMAS[] = {"turning", "noise"};

uint8_t book[CABUNLIS_BOOK_BYTES], codebook[CABUNLIS_CODEBOOK_BYTES];

void fail(const char *what)
{
    fprintf(stderr, "bench: %s\n", what);
    exit(1);
}

void fill_tables(void)
{
    cabunlis_house_book(book, sizeof book);
    cabunlis_house_codebook(codebook, sizeof codebook);
}

/* SplitMix64. */
static uint8_t noise_next(uint64_t *state)
{
    uint64_t z = *state += UINT64_C(0x9e3779b97f4a7c15);
    z = (z ^ (z >> 30)) * UINT64_C(0xbf58476d1ce4e5b9);
    z = (z ^ (z >> 27)) * UINT64_C(0x94d049bb133111eb);
    return (uint8_t)(z >> 56);
}

void make_noise(struct plane *p, uint64_t seed)
{
    for (size_t k = 0; k < p->width * p->height; k++)
        p->source[k] = noise_next(&seed);
    for (size_t k = 0; k < p->stride * p->rows; k++)
        p->reference[k] = noise_next(&seed);
}

void draw_second(struct plane *p, enum scene_plane plane, enum scene_eye eye)
{
    scene_draw(p->source, p->width, p->height, plane, eye, 0);
    for (size_t y = 0; y < p->height; y++)
        memcpy(p->reference + y * p->stride, p->source + y * p->width, p->width);
    scene_draw(p->source, p->width, p->height, plane, eye, 1);
}

size_t scene_named(const char *name)
{
    for (size_t k = 0; k < COUNT(SCENES); k++)
        if (strcmp(name, SCENES[k].name) == 0)
            return k;
    fail("there is no such scene");
    return 0;
}

struct plane luma_of(const char *what, struct size size)
{
    struct plane p = plane_of(size.width, size.height);
    if (strcmp(what, "noise") == 0)
        make_noise(&p, 0);
    else
        draw_second(&p, SCENE_LUMA, SCENES[scene_named(what)].eye);
    return p;
}

struct cabunlis_answer written_at(struct plane *p, uint8_t radius, uint32_t margin)
{
    struct cabunlis_settings settings = {LAMBDA, radius, 1, margin};
    struct cabunlis_answer a = plane_write(p, book, codebook, &settings, 0);
    if (a.refusal || a.done != p->macroblocks)
        fail("a plane was not written");
    return a;
}

struct cabunlis_answer written(struct plane *p, uint8_t radius)
{
    return written_at(p, radius, 0);
}
