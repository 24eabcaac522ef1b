/* How deep the calls go: each runs on a thread whose stack was painted, and the paint that is left tells. A program of its own, because a
 * sanitizer or valgrind would watch the stack that it reads. */
#include <pthread.h>
#include <stdio.h>
#include <stdlib.h>
#include <string.h>
#include <sys/mman.h>

#include "check.h"
#include "plane.h"

enum { SIDE = 64, STACK = 1 << 20, PAINT = 0xd7 };

struct lent {
    struct plane p;
    struct plane others[2]; /* with p a picture */
    struct cabunlis_plane planes[3];
    struct cabunlis_tables tables;
    struct cabunlis_settings settings;
    struct cabunlis_output output; /* room for its planes */
    uint8_t book[CABUNLIS_BOOK_BYTES], codebook[CABUNLIS_CODEBOOK_BYTES];
    char file[BOOK_FILE_MOST];
    size_t file_length;
};

static void *nothing(void *lent)
{
    (void)lent;
    return NULL;
}

static void *encode(void *lent)
{
    struct lent *l = lent;
    struct plane *p = &l->p;
    cabunlis_encode_inter_plane_stated(
        p->width, p->height, p->stride, p->rows, p->source, p->width * p->height, p->reference, p->stride * p->rows, tables()->book, CABUNLIS_BOOK_BYTES,
        tables()->codebook, CABUNLIS_CODEBOOK_BYTES, 8, 8, 1, 0, p->out, p->room, 0, p->recon, p->stride * p->rows, p->vx, 4 * p->macroblocks, p->vy, 4 * p->macroblocks,
        p->stated, 3 * p->macroblocks);
    return NULL;
}

static void *picture(void *lent)
{
    struct lent *l = lent;
    cabunlis_write_picture(l->planes, &l->tables, &l->settings, 2 * l->output.length, &l->output);
    return NULL;
}

static void *decode(void *lent)
{
    struct lent *l = lent;
    struct plane *p = &l->p;
    cabunlis_decode_inter_plane(
        p->width, p->height, p->stride, p->rows, p->reference, p->stride * p->rows, tables()->book, CABUNLIS_BOOK_BYTES,
        tables()->codebook, CABUNLIS_CODEBOOK_BYTES, p->out, p->room, 0, p->recon, p->stride * p->rows, p->vx, 4 * p->macroblocks, p->vy, 4 * p->macroblocks);
    return NULL;
}

static void *visible(void *lent)
{
    struct lent *l = lent;
    plane_visible(&l->p);
    return NULL;
}

static void *room(void *lent)
{
    (void)lent;
    cabunlis_plane_room(SIDE, SIDE);
    cabunlis_plane_room_under(SIDE, SIDE, tables()->book, CABUNLIS_BOOK_BYTES);
    return NULL;
}

static void *read_file(void *lent)
{
    struct lent *l = lent;
    cabunlis_read_book_file((const uint8_t *)l->file, l->file_length, l->book, sizeof l->book);
    return NULL;
}

static void *write_file(void *lent)
{
    struct lent *l = lent;
    cabunlis_write_book_file(tables()->book, CABUNLIS_BOOK_BYTES, (uint8_t *)l->file, sizeof l->file);
    return NULL;
}

static void *house(void *lent)
{
    struct lent *l = lent;
    cabunlis_house_book(l->book, sizeof l->book);
    cabunlis_house_codebook(l->codebook, sizeof l->codebook);
    return NULL;
}

/* The bytes of a stack that a thread with this work has touched. */
static size_t touched(void *(*work)(void *), struct lent *l)
{
    pthread_attr_t how;
    pthread_t thread;
    uint8_t *stack = mmap(NULL, STACK, PROT_READ | PROT_WRITE, MAP_PRIVATE | MAP_ANONYMOUS, -1, 0);
    size_t left = 0;
    if (stack == MAP_FAILED) {
        perror("mmap");
        exit(1);
    }
    memset(stack, PAINT, STACK);
    CHECK(pthread_attr_init(&how) == 0 && pthread_attr_setstack(&how, stack, STACK) == 0);
    CHECK(pthread_create(&thread, &how, work, l) == 0 && pthread_join(thread, NULL) == 0);
    while (left < STACK && stack[left] == PAINT)
        left++;
    pthread_attr_destroy(&how);
    munmap(stack, STACK);
    return STACK - left;
}

/* Noise that a reference of noise predicts in part. */
static void fill(struct plane *p, uint64_t *state)
{
    for (size_t k = 0; k < SIDE * SIDE; k++)
        p->source[k] = p->reference[(k + 3) % (SIDE * SIDE)] = (uint8_t)(random_next(state) % 128);
}

/* The picture call's arguments lie here and not on the stack that is measured. */
static void lend_picture(struct lent *l)
{
    l->planes[0] = plane_lent(&l->p);
    l->planes[1] = plane_lent(&l->others[0]);
    l->planes[2] = plane_lent(&l->others[1]);
    l->tables.book = tables()->book;
    l->tables.book_length = CABUNLIS_BOOK_BYTES;
    l->tables.codebook = tables()->codebook;
    l->tables.codebook_length = CABUNLIS_CODEBOOK_BYTES;
    l->settings.lambda = l->settings.radius = 8;
    l->settings.four = 1;
    l->output.length = 3 * l->p.room;
    l->output.bytes = host_memory(l->output.length);
}

int main(void)
{
    static const struct { const char *name; void *(*work)(void *); } CALLS[] = {
        {"encode_inter_plane", encode}, {"encode_picture", picture}, {"decode_inter_plane", decode}, {"visible_error", visible}, {"plane_room", room},
        {"read_book_file", read_file}, {"write_book_file", write_file}, {"house", house},
    };
    uint64_t state = 9;
    struct lent *l = host_memory(sizeof *l);
    l->p = plane_of(SIDE, SIDE);
    l->others[0] = plane_of(SIDE, SIDE);
    l->others[1] = plane_of(SIDE, SIDE);
    fill(&l->p, &state);
    fill(&l->others[0], &state);
    fill(&l->others[1], &state);
    lend_picture(l);
    l->file_length = book_file_of(l->file, tables()->book);
    size_t thread_alone = touched(nothing, l);
    for (size_t k = 0; k < sizeof CALLS / sizeof *CALLS; k++) {
        size_t whole = touched(CALLS[k].work, l);
        size_t bytes = whole < thread_alone ? 0 : whole - thread_alone;
        printf("%-20s %6zu bytes of stack\n", CALLS[k].name, bytes);
        CHECK(bytes <= CABUNLIS_STACK_BYTES);
    }
    plane_free(&l->p);
    plane_free(&l->others[0]);
    plane_free(&l->others[1]);
    free(l->output.bytes);
    free(l);
    return check_group("stack") != 0;
}
