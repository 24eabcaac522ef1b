/*
 * The library alone, in processor time: the tables of bench/README.md that need no original.
 *
 *     library growth               the writer against the number of macroblocks and against the radius
 *     library reading              the reader, and what a call's checks take
 *     library margin               the writer at several margins
 *     library picture [COUNTS]     three plane calls against one picture call, and that with half the bits; COUNTS names a file of
 *                                  counted instructions
 *     library pictures             the words for SCENE and SIZE, one case a line
 *     library picture-planes SCENE SIZE
 *     library picture-call SCENE SIZE
 *     library picture-made SCENE SIZE
 *                                  one picture made and written by either, or only made, for counting instructions
 *     library noise [COUNTS]       the writer on noise; COUNTS as above
 *     library luma [COUNTS]        one luma plane of the turning scene, and one of noise; COUNTS as above
 *     library lumas                the words for WHAT, SIZE and RADIUS, one case a line; WHAT may be still, too
 *     library luma-plane WHAT SIZE RADIUS
 *     library luma-made WHAT SIZE RADIUS
 *                                  one luma plane made and written, or only made, for counting instructions
 *     library luma-time WHAT SIZE RADIUS N
 *                                  the milliseconds that writing it takes, the mean of N times
 *     library raw SCENE SIZE N     N pictures as planar samples (4:1:0) on standard output
 */
#include <inttypes.h>
#include <math.h>
#include <stdio.h>
#include <stdlib.h>
#include <string.h>
#include <time.h>

#include "shared.h"

enum { PLANES = 3, RADIUS = 8, GRAY = 128 };

static const uint32_t MARGINS[] = {0, 64, 1024};

static double processor_seconds(void)
{
    struct timespec now;
    if (clock_gettime(CLOCK_PROCESS_CPUTIME_ID, &now) != 0)
        fail("there is no clock");
    return (double)now.tv_sec + (double)now.tv_nsec / 1e9;
}

/* A plane of a picture: luma, or one of two of a quarter of each side; its reference is gray. */
static struct plane plane_of_picture(size_t width, size_t height, int plane)
{
    size_t part = plane == SCENE_LUMA ? 1 : 4;
    struct plane p = plane_of(width / part, height / part);
    memset(p.reference, GRAY, p.stride * p.rows);
    return p;
}

/* The reconstruction becomes the reference. */
static void go_on(struct plane *p)
{
    uint8_t *next = p->recon;
    p->recon = p->reference;
    p->reference = next;
}

/* ---- growth */

/* A row: microseconds a macroblock of the turning scene's second luma plane. */
static void growth_row(size_t side, uint8_t radius)
{
    enum { TURNS = 3 };
    struct plane p = plane_of(side, side);
    memset(p.reference, GRAY, p.stride * p.rows);
    scene_draw(p.source, side, side, SCENE_LUMA, SCENE_TURNING, 0);
    written(&p, radius);
    go_on(&p);
    scene_draw(p.source, side, side, SCENE_LUMA, SCENE_TURNING, 1);
    double begun = processor_seconds();
    for (int k = 0; k < TURNS; k++)
        written(&p, radius);
    double seconds = processor_seconds() - begun;
    printf("| %zux%zu | %zu | %d | %.1f |\n", side, side, p.macroblocks, radius, 1e6 * seconds / TURNS / (double)p.macroblocks);
    fflush(stdout);
    plane_free(&p);
}

static void growth(void)
{
    static const size_t SIDES[] = {64, 128, 256, 512, 1024};
    static const uint8_t GROWING[] = {0, 4, 8, 16, 32, 64, 128, 255};
    printf("the turning scene's luma plane, lambda %d, four vectors: microseconds of processor time a macroblock\n\n", LAMBDA);
    printf("| size | macroblocks | radius | µs a macroblock |\n|---|---|---|---|\n");
    for (size_t k = 0; k < COUNT(SIDES); k++)
        growth_row(SIDES[k], RADIUS);
    for (size_t k = 0; k < COUNT(GROWING); k++)
        growth_row(256, GROWING[k]);
}

/* ---- reading */

/* Seconds of a read of the whole string, and of a call that passes every check and has no bits. */
struct read_times { double reading, checks; };

static struct read_times read_times(struct plane *p, const struct cabunlis_answer *a)
{
    enum { TURNS = 20 };
    struct read_times t;
    size_t bytes = (a->next + 7) / 8;
    double begun = processor_seconds();
    for (int k = 0; k < TURNS; k++)
        if (plane_read(p, book, codebook, p->out, bytes, 0).next != a->next)
            fail("the reader ends elsewhere");
    t.reading = (processor_seconds() - begun) / TURNS;
    begun = processor_seconds();
    for (int k = 0; k < TURNS; k++)
        if (plane_read(p, book, codebook, p->out, 0, 0).refusal != CABUNLIS_ERR_CUT)
            fail("an empty string is read");
    t.checks = (processor_seconds() - begun) / TURNS;
    return t;
}

static void reading_row(size_t scene, size_t size)
{
    size_t width = SIZES[size].width, height = SIZES[size].height;
    struct read_times sum = {0, 0};
    for (int k = 0; k < PLANES; k++) {
        struct plane p = plane_of_picture(width, height, k);
        scene_draw(p.source, p.width, p.height, (enum scene_plane)k, SCENES[scene].eye, 0);
        written(&p, RADIUS);
        go_on(&p);
        scene_draw(p.source, p.width, p.height, (enum scene_plane)k, SCENES[scene].eye, 1);
        struct cabunlis_answer a = written(&p, RADIUS);
        struct read_times t = read_times(&p, &a);
        sum.reading += t.reading;
        sum.checks += t.checks / PLANES;
        plane_free(&p);
    }
    printf("| %s | %zux%zu | %.0f | %.0f |\n", SCENES[scene].name, width, height, 1 / sum.reading, 1e6 * sum.checks);
    fflush(stdout);
}

static void reading(void)
{
    printf("pictures read a processor second (the second picture of each scene, three planes); a call's checks: a call with an empty bit string, which passes all refusals but 24\n\n");
    printf("| scene | luma | pictures/s | checks, µs a call |\n|---|---|---|---|\n");
    for (size_t size = 0; size < COUNT(SIZES); size++)
        for (size_t scene = 0; scene < COUNT(SCENES); scene++)
            reading_row(scene, size);
}

/* ---- margin */

static double psnr(uint64_t sum, size_t samples)
{
    return sum ? 10.0 * log10(255.0 * 255.0 * (double)samples / (double)sum) : 99.99;
}

/* A row: pictures of three planes, each plane against its reconstruction of the picture before; the first picture, against gray, does not count. */
static void margin_row(size_t scene, size_t size, uint32_t margin)
{
    enum { PICTURES = 30 };
    uint64_t bits = 0;
    double luma_db = 0, seconds = 0;
    for (int k = 0; k < PLANES; k++) {
        struct plane p = plane_of_picture(SIZES[size].width, SIZES[size].height, k);
        for (unsigned n = 0; n <= PICTURES; n++) {
            scene_draw(p.source, p.width, p.height, (enum scene_plane)k, SCENES[scene].eye, n);
            double begun = processor_seconds();
            struct cabunlis_answer a = written_at(&p, RADIUS, margin);
            if (n > 0) {
                seconds += processor_seconds() - begun;
                bits += a.bits;
                if (k == SCENE_LUMA)
                    luma_db += psnr(plane_visible(&p).error, p.width * p.height);
            }
            go_on(&p);
        }
        plane_free(&p);
    }
    printf("| %s | %zux%zu | %" PRIu32 " | %.0f | %.2f | %.1f |\n", SCENES[scene].name, SIZES[size].width, SIZES[size].height, margin,
        (double)bits / PICTURES, luma_db / PICTURES, PICTURES / seconds);
    fflush(stdout);
}

static void margin(void)
{
    printf("three planes a picture, lambda %d, radius %d, four vectors, at several margins; luma against the source over the visible samples, processor time of the writer\n\n",
        LAMBDA, RADIUS);
    printf("| scene | luma | margin | bits a picture | luma dB | pictures/s |\n|---|---|---|---|---|---|\n");
    for (size_t size = 0; size < COUNT(SIZES); size++)
        for (size_t scene = 0; scene < COUNT(SCENES); scene++)
            for (size_t k = 0; k < COUNT(MARGINS); k++)
                margin_row(scene, size, MARGINS[k]);
}

/* ---- pictures */

/* Three planes, and one string for all of them. */
struct picture { struct plane planes[PLANES]; uint8_t *bytes; size_t length; };

/* What a picture came to. */
struct outcome { uint64_t bits; double seconds; };

static struct picture picture_of(size_t size)
{
    struct picture p;
    p.length = 0;
    for (int k = 0; k < PLANES; k++) {
        p.planes[k] = plane_of_picture(SIZES[size].width, SIZES[size].height, k);
        p.length += p.planes[k].room;
    }
    p.bytes = host_memory(p.length);
    return p;
}

static void picture_free(struct picture *p)
{
    for (int k = 0; k < PLANES; k++)
        plane_free(&p->planes[k]);
    free(p->bytes);
}

static void picture_draw(struct picture *p, size_t scene, unsigned n)
{
    for (int k = 0; k < PLANES; k++)
        scene_draw(p->planes[k].source, p->planes[k].width, p->planes[k].height, (enum scene_plane)k, SCENES[scene].eye, n);
}

static void picture_go_on(struct picture *p)
{
    for (int k = 0; k < PLANES; k++)
        go_on(&p->planes[k]);
}

static const struct cabunlis_settings PICTURE_SETTINGS = {LAMBDA, RADIUS, 1, 0}; /* 1: four vectors; margin 0 */

/* Three plane calls, each from the bit where the one before ended. */
static struct outcome planes_written(struct picture *p)
{
    struct cabunlis_tables tables = {book, sizeof book, codebook, sizeof codebook};
    struct cabunlis_output output = {p->bytes, p->length, 0};
    struct outcome o = {0, processor_seconds()};
    for (int k = 0; k < PLANES; k++) {
        struct cabunlis_plane lent = plane_lent(&p->planes[k]);
        struct cabunlis_answer a = cabunlis_write(&lent, &tables, &PICTURE_SETTINGS, &output);
        if (a.refusal)
            fail("a plane was not written");
        output.start = a.next;
    }
    o.seconds = processor_seconds() - o.seconds;
    o.bits = output.start;
    return o;
}

static struct outcome picture_written(struct picture *p, uint64_t allowance)
{
    struct cabunlis_tables tables = {book, sizeof book, codebook, sizeof codebook};
    struct cabunlis_output output = {p->bytes, p->length, 0};
    struct cabunlis_plane lent[PLANES];
    struct outcome o = {0, processor_seconds()};
    for (int k = 0; k < PLANES; k++)
        lent[k] = plane_lent(&p->planes[k]);
    struct cabunlis_picture_answer a = cabunlis_write_picture(lent, &tables, &PICTURE_SETTINGS, allowance, &output);
    if (a.refusal)
        fail("a picture was not written");
    o.seconds = processor_seconds() - o.seconds;
    o.bits = a.planes[PLANES - 1].next;
    return o;
}

static double luma_db_of(const struct picture *p)
{
    const struct plane *luma = &p->planes[SCENE_LUMA];
    return psnr(plane_visible(luma).error, luma->width * luma->height);
}

static void add(struct outcome *sum, struct outcome o)
{
    sum->bits += o.bits;
    sum->seconds += o.seconds;
}

/* The instructions of one picture by either, in a file with a line for each case: scene, size, both counts. */
static void counted_pictures(const char *name, size_t scene, size_t size)
{
    char word[16];
    size_t w, h;
    double by_planes, by_picture;
    FILE *f = fopen(name, "r");
    if (!f) {
        perror(name);
        exit(1);
    }
    while (fscanf(f, "%15s %zux%zu %lf %lf", word, &w, &h, &by_planes, &by_picture) == 5)
        if (strcmp(word, SCENES[scene].name) == 0 && w == SIZES[size].width && h == SIZES[size].height)
            printf(" %.2f | %.2f | %.4f |", by_planes / 1e6, by_picture / 1e6, by_picture / by_planes);
    fclose(f);
}

/* A row: the same pictures by three plane calls and by the picture call without a limit, which have to give the same bytes; and inside half the bits
 * that they took, against its own pictures before. The first picture, against gray, does not count. */
static void picture_row(size_t scene, size_t size, const char *counts)
{
    enum { PICTURES = 30 };
    struct picture planes = picture_of(size), picture = picture_of(size), half = picture_of(size);
    struct outcome by_planes = {0, 0}, by_picture = {0, 0}, by_half = {0, 0};
    double db = 0, half_db = 0;
    for (unsigned n = 0; n <= PICTURES; n++) {
        picture_draw(&planes, scene, n);
        picture_draw(&picture, scene, n);
        picture_draw(&half, scene, n);
        /* either goes first as often as the other */
        struct outcome b = {0, 0};
        if (n % 2)
            b = picture_written(&picture, UINT64_MAX);
        struct outcome a = planes_written(&planes);
        if (n % 2 == 0)
            b = picture_written(&picture, UINT64_MAX);
        if (a.bits != b.bits || memcmp(planes.bytes, picture.bytes, (size_t)(a.bits + 7) / 8) != 0)
            fail("the picture call writes other bits than the plane calls");
        struct outcome c = picture_written(&half, n ? a.bits / 2 : UINT64_MAX);
        if (n > 0) {
            if (c.bits > a.bits / 2)
                fail("the picture call passes its allowance");
            add(&by_planes, a);
            add(&by_picture, b);
            add(&by_half, c);
            db += luma_db_of(&picture);
            half_db += luma_db_of(&half);
        }
        picture_go_on(&planes);
        picture_go_on(&picture);
        picture_go_on(&half);
    }
    printf("| %s | %zux%zu | %.0f | %.2f | %.2f | %.2f | %.3f |", SCENES[scene].name, SIZES[size].width, SIZES[size].height, (double)by_picture.bits / PICTURES, db / PICTURES,
        1e3 * by_planes.seconds / PICTURES, 1e3 * by_picture.seconds / PICTURES, by_picture.seconds / by_planes.seconds);
    printf(" %.0f | %.2f | %.2f |", (double)by_half.bits / PICTURES, half_db / PICTURES, 1e3 * by_half.seconds / PICTURES);
    if (counts)
        counted_pictures(counts, scene, size);
    printf("\n");
    fflush(stdout);
    picture_free(&planes);
    picture_free(&picture);
    picture_free(&half);
}

static void pictures(const char *counts)
{
    printf("three planes a picture, lambda %d, radius %d, four vectors, the mean of thirty pictures: three plane calls, one picture call without a limit, one inside half the bits\n\n",
        LAMBDA, RADIUS);
    printf("| scene | luma | bits a picture | luma dB | ms a picture, plane calls | picture call | ratio | inside half: bits | luma dB | ms |%s\n",
        counts ? " million instructions, plane calls | picture call | ratio |" : "");
    printf("|---|---|---|---|---|---|---|---|---|---|%s\n", counts ? "---|---|---|" : "");
    for (size_t size = 0; size < COUNT(SIZES); size++)
        for (size_t scene = 0; scene < COUNT(SCENES); scene++)
            picture_row(scene, size, counts);
}

static void picture_cases(void)
{
    for (size_t size = 0; size < COUNT(SIZES); size++)
        for (size_t scene = 0; scene < COUNT(SCENES); scene++)
            printf("%s %zux%zu\n", SCENES[scene].name, SIZES[size].width, SIZES[size].height);
}

/* ---- noise */

/* The instructions of a luma plane in a file with a line for each case: what it shows, size, radius, count; 0 where there is none. */
static double counted(const char *name, const char *what, struct size size, int radius)
{
    char word[16];
    size_t w, h;
    int r;
    double n, found = 0;
    FILE *f = fopen(name, "r");
    if (!f) {
        perror(name);
        exit(1);
    }
    while (fscanf(f, "%15s %zux%zu %d %lf", word, &w, &h, &r, &n) == 5)
        if (strcmp(word, what) == 0 && w == size.width && h == size.height && r == radius)
            found = n;
    fclose(f);
    return found;
}

static void noise_row(size_t size, uint8_t radius, const char *counts)
{
    enum { PICTURES = 12 };
    size_t width = SIZES[size].width, height = SIZES[size].height, modes[4] = {0, 0, 0, 0}, macroblocks = 0;
    double all = 0, longest = 0;
    uint64_t bits = 0;
    for (unsigned n = 0; n < PICTURES; n++) {
        double seconds = 0;
        for (int k = 0; k < PLANES; k++) {
            struct plane p = plane_of_picture(width, height, k);
            make_noise(&p, 3 * n + (unsigned)k);
            double begun = processor_seconds();
            struct cabunlis_answer a = written(&p, radius);
            seconds += processor_seconds() - begun;
            bits += a.bits;
            macroblocks += a.done;
            for (size_t m = 0; m < a.done; m++)
                modes[p.stated[3 * m] & 3]++;
            plane_free(&p);
        }
        all += seconds;
        longest = seconds > longest ? seconds : longest;
    }
    printf("| %zux%zu | %d | %.0f | %zu, %zu, %zu, %zu | %.1f | %.1f | %.1f | %.1f |", width, height, radius, (double)bits / PICTURES,
        modes[CABUNLIS_SKIP], modes[CABUNLIS_INTER], modes[CABUNLIS_INTER_4MV], modes[CABUNLIS_INTRA],
        1e6 * all / (double)macroblocks, 1e3 * all / PICTURES, 1e3 * longest, PICTURES / all);
    if (counts)
        printf(" %.1f |", counted(counts, "noise", SIZES[size], radius) / 1e6);
    printf("\n");
    fflush(stdout);
}

static void noise(const char *counts)
{
    printf("noise, every macroblock new: three planes a picture, lambda %d, four vectors, processor time of the writer\n\n", LAMBDA);
    printf("| luma | radius | bits a picture | SKIP, INTER, 4MV, INTRA of 12 pictures | µs a macroblock | ms a picture | longest | pictures/s |%s\n",
        counts ? " million instructions a luma plane |" : "");
    printf("|---|---|---|---|---|---|---|---|%s\n", counts ? "---|" : "");
    for (size_t size = 0; size < COUNT(SIZES); size++)
        for (size_t k = 0; k < COUNT(RADII); k++)
            noise_row(size, RADII[k], counts);
}

/* ---- one luma plane */

/* Milliseconds of processor time, the mean of so many writings. */
static double luma_time(const char *what, struct size size, uint8_t radius, unsigned long turns)
{
    struct plane p = luma_of(what, size);
    double begun = processor_seconds();
    for (unsigned long k = 0; k < turns; k++)
        written(&p, radius);
    double seconds = processor_seconds() - begun;
    plane_free(&p);
    return 1e3 * seconds / (double)turns;
}

static void luma_row(const char *what, struct size size, uint8_t radius, const char *counts)
{
    enum { TURNS = 10 };
    struct plane p = luma_of(what, size);
    printf("| %s | %zux%zu | %d | %" PRIu64 " | %.2f |", what, size.width, size.height, radius, written(&p, radius).bits, luma_time(what, size, radius, TURNS));
    if (counts)
        printf(" %.1f |", counted(counts, what, size, radius) / 1e6);
    printf("\n");
    fflush(stdout);
    plane_free(&p);
}

static void lumas(const char *counts)
{
    printf("one luma plane, the turning scene's second picture against the first as drawn, and noise: lambda %d, four vectors, processor time of the writer\n\n", LAMBDA);
    printf("| scene | luma | radius | bits | ms a plane |%s\n", counts ? " million instructions |" : "");
    printf("|---|---|---|---|---|%s\n", counts ? "---|" : "");
    for (size_t what = 0; what < COUNT(LUMAS); what++)
        for (size_t size = 0; size < COUNT(SIZES); size++)
            for (size_t k = 0; k < COUNT(RADII); k++)
                luma_row(LUMAS[what], SIZES[size], RADII[k], counts);
}

static void luma_cases(void)
{
    for (size_t what = 0; what < COUNT(LUMAS); what++)
        for (size_t size = 0; size < COUNT(SIZES); size++)
            for (size_t k = 0; k < COUNT(RADII); k++)
                printf("%s %zux%zu %d\n", LUMAS[what], SIZES[size].width, SIZES[size].height, RADII[k]);
}

/* ---- one of a kind, by its name */

static size_t size_named(const char *name)
{
    for (size_t k = 0; k < COUNT(SIZES); k++) {
        char size[48];
        snprintf(size, sizeof size, "%zux%zu", SIZES[k].width, SIZES[k].height);
        if (strcmp(name, size) == 0)
            return k;
    }
    fail("there is no such size");
    return 0;
}

/* The second picture of a scene; its reference is the first as drawn, so that only one is written. */
static void one_picture(const char *scene, const char *size, struct outcome (*write)(struct picture *))
{
    size_t s = scene_named(scene);
    struct picture p = picture_of(size_named(size));
    for (int k = 0; k < PLANES; k++)
        draw_second(&p.planes[k], (enum scene_plane)k, SCENES[s].eye);
    printf("%" PRIu64 "\n", write ? write(&p).bits : 0);
    picture_free(&p);
}

static struct outcome picture_unlimited(struct picture *p)
{
    return picture_written(p, UINT64_MAX);
}

static uint8_t radius_named(const char *name)
{
    return (uint8_t)strtoul(name, NULL, 10);
}

static void one_luma(const char *what, const char *size, const char *radius, int write)
{
    struct plane p = luma_of(what, SIZES[size_named(size)]);
    printf("%" PRIu64 "\n", write ? written(&p, radius_named(radius)).bits : 0);
    plane_free(&p);
}

static void one_luma_time(const char *what, const char *size, const char *radius, const char *turns)
{
    printf("%.3f\n", luma_time(what, SIZES[size_named(size)], radius_named(radius), strtoul(turns, NULL, 10)));
}

/* ---- pictures for another encoder */

static void raw(const char *scene, const char *size, const char *count)
{
    size_t s = scene_named(scene), z = size_named(size);
    unsigned long drawn = strtoul(count, NULL, 10);
    for (unsigned n = 0; n < drawn; n++)
        for (int k = 0; k < PLANES; k++) {
            struct plane p = plane_of_picture(SIZES[z].width, SIZES[z].height, k);
            scene_draw(p.source, p.width, p.height, (enum scene_plane)k, SCENES[s].eye, n);
            if (fwrite(p.source, 1, p.width * p.height, stdout) != p.width * p.height)
                fail("the samples could not be written");
            plane_free(&p);
        }
}

int main(int argc, char **argv)
{
    const char *what = argc > 1 ? argv[1] : "";
    fill_tables();
    if (argc == 2 && strcmp(what, "growth") == 0)
        growth();
    else if (argc == 2 && strcmp(what, "reading") == 0)
        reading();
    else if (argc == 2 && strcmp(what, "margin") == 0)
        margin();
    else if ((argc == 2 || argc == 3) && strcmp(what, "picture") == 0)
        pictures(argc == 3 ? argv[2] : NULL);
    else if (argc == 2 && strcmp(what, "pictures") == 0)
        picture_cases();
    else if (argc == 4 && strcmp(what, "picture-planes") == 0)
        one_picture(argv[2], argv[3], planes_written);
    else if (argc == 4 && strcmp(what, "picture-call") == 0)
        one_picture(argv[2], argv[3], picture_unlimited);
    else if (argc == 4 && strcmp(what, "picture-made") == 0)
        one_picture(argv[2], argv[3], NULL);
    else if (argc <= 3 && strcmp(what, "noise") == 0)
        noise(argc == 3 ? argv[2] : NULL);
    else if ((argc == 2 || argc == 3) && strcmp(what, "luma") == 0)
        lumas(argc == 3 ? argv[2] : NULL);
    else if (argc == 2 && strcmp(what, "lumas") == 0)
        luma_cases();
    else if (argc == 5 && strcmp(what, "luma-plane") == 0)
        one_luma(argv[2], argv[3], argv[4], 1);
    else if (argc == 5 && strcmp(what, "luma-made") == 0)
        one_luma(argv[2], argv[3], argv[4], 0);
    else if (argc == 6 && strcmp(what, "luma-time") == 0)
        one_luma_time(argv[2], argv[3], argv[4], argv[5]);
    else if (argc == 5 && strcmp(what, "raw") == 0)
        raw(argv[2], argv[3], argv[4]);
    else
        fail("usage: library growth | reading | margin | picture [COUNTS] | pictures | picture-planes SCENE SIZE | picture-call SCENE SIZE | picture-made SCENE SIZE | noise [COUNTS] | luma [COUNTS] | lumas | luma-plane WHAT SIZE RADIUS | luma-made WHAT SIZE RADIUS | luma-time WHAT SIZE RADIUS N | raw SCENE SIZE N");
    return 0;
}
