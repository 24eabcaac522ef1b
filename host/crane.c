/*
 * Four seconds of a crane scene: 60 pictures of three planes, each written against the reconstruction of the one before, inside an
 * allowance of bits where one is named, and read back. Shows a line for every fifteenth picture (bits, how much of the allowance,
 * signal to noise, modes) and a summary, and leaves graymaps in a folder: of each picture source, reconstruction and modes beside each
 * other, and one of what a single flipped bit does.
 */
#include <errno.h>
#include <inttypes.h>
#include <math.h>
#include <stdio.h>
#include <stdlib.h>
#include <string.h>
#include <sys/stat.h>
#include <time.h>
#include <unistd.h>

#include "plane.h"
#include "scene.h"

enum { WIDTH = 176, HEIGHT = 144, PICTURES = 60, MOST_PICTURES = 999, PLANES = 3, SHOWN = 15, NEEDED = 15, LAMBDA = 32, RADIUS = 8 };

/* The allowance that limits nothing. */
#define NO_LIMIT UINT64_MAX

static const char USAGE[] =
    "usage: crane [FOLDER [PICTURES [MARGIN [ALLOWANCE]]]]\n"
    "  FOLDER     where the graymaps go, made where it is missing (crane-pictures)\n"
    "  PICTURES   how many are written, 1 to 999 (60, the time between two key pictures)\n"
    "  MARGIN     a leaf's stage stays where it lowers the squared error by more than this, 0 to 4294967295 (0)\n"
    "  ALLOWANCE  bits that a picture may take, 0 to 18446744073709551615 (that, which limits nothing)\n";

static const char *const PLANE_NAMES[PLANES] = {"luma", "blue", "red"};

/* PLANES is the picture as a whole. */
static const char *name_of(int plane)
{
    return plane < PLANES ? PLANE_NAMES[plane] : "the three planes together";
}

static void fail(const char *what, unsigned picture, int plane)
{
    fprintf(stderr, "\npicture %u, %s: %s\n", picture, name_of(plane), what);
    exit(1);
}

static double processor_seconds(void)
{
    struct timespec now;
    if (clock_gettime(CLOCK_PROCESS_CPUTIME_ID, &now) != 0) {
        perror("clock_gettime");
        exit(1);
    }
    return (double)now.tv_sec + (double)now.tv_nsec / 1e9;
}

/* ---- what was written, in numbers */

static double psnr(uint64_t sum, size_t samples)
{
    return sum ? 10.0 * log10(255.0 * 255.0 * (double)samples / (double)sum) : 99.99;
}

struct counts { uint64_t bits; size_t modes[4]; double luma_db, writing, reading; };

static void count(struct counts *c, const struct plane *p, const struct cabunlis_answer *a, int plane)
{
    c->bits += a->bits;
    for (size_t k = 0; k < a->done; k++)
        c->modes[p->stated[3 * k] & 3]++;
    if (plane == SCENE_LUMA)
        c->luma_db = psnr(plane_visible(p).error, p->width * p->height);
}

static void add(struct counts *all, const struct counts *c)
{
    all->bits += c->bits;
    all->luma_db += c->luma_db;
    all->writing += c->writing;
    all->reading += c->reading;
    for (int m = 0; m < 4; m++)
        all->modes[m] += c->modes[m];
}

/* A line for so many pictures together; each may have taken as many bits as the allowance has. */
static void show(const char *name, const struct counts *c, uint64_t allowance, unsigned pictures)
{
    char share[32] = "-";
    if (allowance != NO_LIMIT)
        snprintf(share, sizeof share, "%.1f%%", 100.0 * (double)c->bits / ((double)allowance * pictures));
    printf("%7s %8" PRIu64 "   %9s   %7.2f  %5zu  %5zu %5zu  %5zu\n", name, c->bits, share, c->luma_db, c->modes[CABUNLIS_SKIP], c->modes[CABUNLIS_INTER], c->modes[CABUNLIS_INTER_4MV], c->modes[CABUNLIS_INTRA]);
    fflush(stdout);
}

/* ---- graymaps */

static FILE *graymap(const char *folder, const char *name, size_t width, size_t height)
{
    char path[4096];
    if ((size_t)snprintf(path, sizeof path, "%s/%s", folder, name) >= sizeof path) {
        fprintf(stderr, "%s: the name is too long\n", folder);
        exit(1);
    }
    FILE *f = fopen(path, "wb");
    if (!f) {
        perror(path);
        exit(1);
    }
    fprintf(f, "P5\n%zu %zu\n255\n", width, height);
    return f;
}

static void graymap_end(FILE *f)
{
    if (fclose(f) != 0) {
        perror("graymap");
        exit(1);
    }
}

/* A macroblock's mode as a gray: SKIP black, INTER dark, INTER_4MV light, INTRA white; a thin line around each. */
static uint8_t mode_gray(const struct plane *p, size_t x, size_t y)
{
    static const uint8_t GRAYS[4] = {96, 176, 255, 0};
    if (x % 16 == 0 || y % 16 == 0)
        return 48;
    return GRAYS[p->stated[3 * (y / 16 * (p->stride / 16) + x / 16)] & 3];
}

static void put_picture(const char *folder, unsigned picture, const struct plane *p)
{
    char name[32];
    snprintf(name, sizeof name, "crane-%02u.pgm", picture);
    FILE *f = graymap(folder, name, 3 * p->width, p->height);
    for (size_t y = 0; y < p->height; y++) {
        fwrite(p->source + y * p->width, 1, p->width, f);
        fwrite(p->recon + y * p->stride, 1, p->width, f);
        for (size_t x = 0; x < p->width; x++)
            fputc(mode_gray(p, x, y), f);
    }
    graymap_end(f);
}

/* The reconstruction is the next picture's reference. */
static void change_places(struct plane *p)
{
    uint8_t *next = p->recon;
    p->recon = p->reference;
    p->reference = next;
}

/* ---- one flipped bit */

/* Draws luma of the scene with a turning eye, and writes it. */
static struct cabunlis_answer turning_written(
    struct plane *p, const struct cabunlis_tables *tables, const struct cabunlis_settings *settings, unsigned picture)
{
    scene_draw(p->source, p->width, p->height, SCENE_LUMA, SCENE_TURNING, picture);
    struct cabunlis_plane lent = plane_lent(p);
    struct cabunlis_output output = {p->out, p->room, 0};
    struct cabunlis_answer a = cabunlis_write(&lent, tables, settings, &output);
    if (a.refusal)
        fail("not written", picture, SCENE_LUMA);
    return a;
}

/* The bit with which macroblock `macroblock` begins, flipped. */
static void flip(struct plane *p, size_t macroblock)
{
    size_t bit = 0;
    for (size_t k = 0; k < macroblock; k++)
        bit += p->stated[3 * k + 1];
    p->out[bit / 8] ^= (uint8_t)(0x80u >> bit % 8);
}

/* What was written, and beside it what a panel shows: a row of the graymap. */
static void put_both(FILE *f, const struct plane *written, const struct plane *panel)
{
    for (size_t y = 0; y < written->height; y++) {
        fwrite(written->recon + y * written->stride, 1, written->width, f);
        fwrite(panel->recon + y * panel->stride, 1, panel->width, f);
    }
}

/* A panel reads luma of the scene with a turning eye, written alone and without an allowance; one bit of one picture reaches it flipped, and it goes
 * on from what it shows. What cannot be read shows the picture before. */
static void one_flipped_bit(const char *folder, unsigned pictures, const struct cabunlis_tables *tables, const struct cabunlis_settings *settings)
{
    struct plane p = plane_of(WIDTH, HEIGHT), panel = plane_of(WIDTH, HEIGHT);
    size_t canvas = p.stride * p.rows, wrong = 0;
    unsigned from = pictures / 3, last = pictures - 1;
    struct cabunlis_answer met = {0, 0, 0, 0, 0, 0};
    FILE *f = graymap(folder, "torn.pgm", 2 * p.width, 2 * p.height);
    memset(p.reference, 128, canvas);
    memset(panel.reference, 128, canvas);
    for (unsigned n = 0; n < pictures; n++) {
        struct cabunlis_answer a = turning_written(&p, tables, settings, n);
        if (n == from)
            flip(&p, p.macroblocks / 3);
        memcpy(panel.recon, panel.reference, canvas);
        struct cabunlis_plane lent = plane_lent(&panel);
        struct cabunlis_input input = {p.out, (a.next + 7) / 8, 0};
        struct cabunlis_answer read = cabunlis_read(&lent, tables, &input);
        if (n == from) {
            met = read;
            put_both(f, &p, &panel);
        }
        if (n == last)
            put_both(f, &p, &panel);
        change_places(&p);
        change_places(&panel);
    }
    graymap_end(f);
    for (size_t y = 0; y < p.height; y++)
        for (size_t x = 0; x < p.width; x++)
            wrong += p.reference[y * p.stride + x] != panel.reference[y * p.stride + x];
    printf("one bit flipped in picture %u, eye turning, luma alone and without an allowance: the reader ", from);
    if (met.refusal)
        printf("stops at macroblock %zu of %zu, refusal %" PRIu32, met.macroblock, p.macroblocks, met.refusal);
    else
        printf("ends at bit %zu", met.next);
    printf("; in picture %u %.0f%% of the samples are wrong\n", last, 100.0 * (double)wrong / (double)(p.width * p.height));
    printf("  %s/torn.pgm: left as written, right as shown; above picture %u, below the last, picture %u\n", folder, from, last);
    plane_free(&p);
    plane_free(&panel);
}

/* ---- the pictures */

/* Pictures of three planes, and the string that each of them is written into. */
struct film { struct plane planes[PLANES], read[PLANES]; struct cabunlis_output output; uint64_t allowance; };

static struct film film_of(uint64_t allowance)
{
    struct film f;
    f.allowance = allowance;
    f.output.start = f.output.length = 0;
    for (int k = 0; k < PLANES; k++) {
        size_t part = k == SCENE_LUMA ? 1 : 4;
        f.planes[k] = plane_of(WIDTH / part, HEIGHT / part);
        f.read[k] = plane_of(WIDTH / part, HEIGHT / part);
        f.output.length += f.planes[k].room;
        /* no key picture here: both sides begin with the same gray */
        memset(f.planes[k].reference, 128, f.planes[k].stride * f.planes[k].rows);
    }
    f.output.bytes = host_memory(f.output.length);
    return f;
}

static void film_free(struct film *f)
{
    for (int k = 0; k < PLANES; k++) {
        plane_free(&f->planes[k]);
        plane_free(&f->read[k]);
    }
    free(f->output.bytes);
}

/* Reads a plane of the string back into slices of its own, and holds it to what the writer left; the planes follow each other. */
static int reads_back(struct film *f, int k, const struct cabunlis_tables *tables, const struct cabunlis_picture_answer *a, double *seconds)
{
    const struct plane *p = &f->planes[k];
    struct plane *into = &f->read[k];
    struct cabunlis_plane lent = plane_lent(into);
    lent.reference = p->reference;
    struct cabunlis_input input = {f->output.bytes, (a->planes[PLANES - 1].next + 7) / 8, k ? a->planes[k - 1].next : f->output.start};
    double begun = processor_seconds();
    struct cabunlis_answer read = cabunlis_read(&lent, tables, &input);
    *seconds += processor_seconds() - begun;
    return read.refusal == 0 && read.done == a->planes[k].done && read.next == a->planes[k].next
        && memcmp(into->recon, p->recon, p->stride * p->rows) == 0
        && memcmp(into->vx, p->vx, 4 * p->macroblocks) == 0
        && memcmp(into->vy, p->vy, 4 * p->macroblocks) == 0;
}

/* Names the plane that answers the refusal; with 31 none does, and it is the picture's. */
static void refused(const struct cabunlis_picture_answer *a, unsigned picture)
{
    int plane = 0;
    while (plane < PLANES && !a->planes[plane].refusal)
        plane++;
    fprintf(stderr, "\npicture %u, %s: not written, refusal %" PRIu32 "%s\n", picture, name_of(plane), a->refusal,
        a->refusal == CABUNLIS_ERR_ALLOWANCE ? ": the allowance does not hold a SKIP code for each macroblock" : "");
    exit(1);
}

static void picture_written(struct film *f, const struct cabunlis_tables *tables, const struct cabunlis_settings *settings, unsigned picture, struct counts *c)
{
    struct cabunlis_plane lent[PLANES];
    for (int k = 0; k < PLANES; k++) {
        scene_draw(f->planes[k].source, f->planes[k].width, f->planes[k].height, (enum scene_plane)k, SCENE_STILL, picture);
        lent[k] = plane_lent(&f->planes[k]);
    }
    double begun = processor_seconds();
    struct cabunlis_picture_answer a = cabunlis_write_picture(lent, tables, settings, f->allowance, &f->output);
    c->writing += processor_seconds() - begun;
    if (a.refusal)
        refused(&a, picture);
    for (int k = 0; k < PLANES; k++) {
        if (!reads_back(f, k, tables, &a, &c->reading))
            fail("what was read is not what was written", picture, k);
        count(c, &f->planes[k], &a.planes[k], k);
    }
    if (c->bits > f->allowance)
        fail("the allowance is passed", picture, PLANES);
}

static void progress(unsigned done, unsigned all)
{
    if (isatty(STDERR_FILENO))
        fprintf(stderr, done < all ? "\r%u of %u pictures written and read back " : "\r\033[K", done, all);
}

static void pictures_written(
    const char *folder, unsigned pictures, struct film *f, const struct cabunlis_tables *tables, const struct cabunlis_settings *settings)
{
    struct counts all;
    memset(&all, 0, sizeof all);
    printf("%u pictures of %d x %d with two planes of a quarter of each side, lambda %" PRIu64 ", radius %d, four vectors, margin %" PRIu32 ", ",
        pictures, WIDTH, HEIGHT, settings->lambda, settings->radius, settings->margin);
    if (f->allowance == NO_LIMIT)
        printf("no allowance; each read back\n");
    else
        printf("at most %" PRIu64 " bits a picture; each read back\n", f->allowance);
    printf("picture     bits   allowance   luma dB   SKIP  INTER   4MV  INTRA\n");
    for (unsigned n = 0; n < pictures; n++) {
        struct counts c;
        memset(&c, 0, sizeof c);
        picture_written(f, tables, settings, n, &c);
        if (n % SHOWN == 0) {
            char name[16];
            snprintf(name, sizeof name, "%u", n);
            progress(1, 1);
            show(name, &c, f->allowance, 1);
        }
        put_picture(folder, n, &f->planes[SCENE_LUMA]);
        add(&all, &c);
        for (int k = 0; k < PLANES; k++)
            change_places(&f->planes[k]);
        progress(n + 1, pictures);
    }
    all.luma_db /= pictures;
    show("all", &all, f->allowance, pictures);
    one_flipped_bit(folder, pictures, tables, settings);
    printf("source, reconstruction and modes of every picture: %s/crane-00.pgm to crane-%02u.pgm\n", folder, pictures - 1);
    printf("a second of processor time reads %.0f pictures and writes %.0f; %d are needed\n", pictures / all.reading, pictures / all.writing, NEEDED);
}

/* Reads a number; answers whether the word is one from `least` to `most`. */
static int number(const char *word, unsigned long least, unsigned long most, unsigned long *n)
{
    char *end;
    errno = 0;
    *n = strtoul(word, &end, 10);
    return word[0] >= '0' && word[0] <= '9' && !*end && !errno && least <= *n && *n <= most;
}

/* The first argument that it does not take, or NULL. */
static const char *wrong_of(int argc, char **argv, unsigned long *pictures, unsigned long *margin, unsigned long *allowance)
{
    if (argc > 1 && (argv[1][0] == '-' || argv[1][0] == 0))
        return argv[1];
    if (argc > 2 && !number(argv[2], 1, MOST_PICTURES, pictures))
        return argv[2];
    if (argc > 3 && !number(argv[3], 0, UINT32_MAX, margin))
        return argv[3];
    if (argc > 4 && !number(argv[4], 0, UINT64_MAX, allowance))
        return argv[4];
    return argc > 5 ? argv[5] : NULL;
}

int main(int argc, char **argv)
{
    const char *folder = argc > 1 ? argv[1] : "crane-pictures";
    unsigned long pictures = PICTURES, margin = 0, allowance = NO_LIMIT;
    if (argc > 1 && (strcmp(argv[1], "--help") == 0 || strcmp(argv[1], "-h") == 0)) {
        fputs(USAGE, stdout);
        return 0;
    }
    const char *wrong = wrong_of(argc, argv, &pictures, &margin, &allowance);
    if (wrong) {
        fprintf(stderr, "crane: %s: not an argument that it takes\n%s", wrong, USAGE);
        return 2;
    }
    if (mkdir(folder, 0777) != 0 && (errno != EEXIST || access(folder, W_OK) != 0)) {
        perror(folder);
        return 1;
    }
    static uint8_t book[CABUNLIS_BOOK_BYTES], codebook[CABUNLIS_CODEBOOK_BYTES];
    cabunlis_house_book(book, sizeof book);
    cabunlis_house_codebook(codebook, sizeof codebook);
    struct cabunlis_tables tables = {book, sizeof book, codebook, sizeof codebook};
    struct cabunlis_settings settings = {LAMBDA, RADIUS, 1, (uint32_t)margin}; /* 1: four vectors */
    struct film f = film_of(allowance);
    pictures_written(folder, (unsigned)pictures, &f, &tables, &settings);
    film_free(&f);
    return 0;
}
