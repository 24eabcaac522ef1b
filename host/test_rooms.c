/* The room that a plane takes at most. */
#include <stdlib.h>
#include <string.h>

#include "check.h"
#include "plane.h"

/* Noise at lambda 0 and margin 0 takes many bits; with the room of its book, and not a byte more, it is written whole. */
static void suffices(const uint8_t *book, size_t w, size_t h, size_t start)
{
    static const struct cabunlis_settings SETTINGS = {0, 1, 1, 0}; /* lambda, radius, four vectors, margin */
    uint64_t state = 5 + w;
    struct plane p = plane_of(w, h);
    for (size_t k = 0; k < w * h; k++)
        p.source[k] = (uint8_t)random_next(&state);
    size_t bytes = cabunlis_plane_room_under(w, h, book, CABUNLIS_BOOK_BYTES).bytes;
    CHECK(bytes <= p.room);
    p.room = bytes + (start + 7) / 8;
    free(p.out);
    p.out = host_memory(p.room);
    struct cabunlis_answer a = plane_write(&p, book, tables()->codebook, &SETTINGS, start);
    CHECK(a.refusal == 0 && a.done == p.macroblocks);
    plane_free(&p);
}

void test_rooms(void)
{
    uint8_t bad[CABUNLIS_BOOK_BYTES];
    /* 3,135 bits a macroblock */
    CHECK(cabunlis_plane_room(16, 16).bytes == 392 && cabunlis_plane_room(17, 16).bytes == 784);
    CHECK(cabunlis_plane_room(1024, 1024).bytes == (4096u * 3135u + 7) / 8);
    CHECK(cabunlis_plane_room(0, 1).refusal == CABUNLIS_ERR_SIZE && cabunlis_plane_room(1, 1025).refusal == CABUNLIS_ERR_SIZE);
    CHECK(cabunlis_plane_room(0, 1).bytes == 0);
    /* one length a table: 2 + 8 * 6 + 31 + 32 * (3 + 9 + 24) bits */
    CHECK(cabunlis_plane_room_under(16, 16, tables()->plain, CABUNLIS_BOOK_BYTES).bytes == (2 + 48 + 31 + 32 * 36 + 7) / 8);
    CHECK(cabunlis_plane_room_under(0, 16, tables()->plain, CABUNLIS_BOOK_BYTES).refusal == CABUNLIS_ERR_SIZE);
    CHECK(cabunlis_plane_room_under(16, 16, tables()->plain, CABUNLIS_BOOK_BYTES - 3).refusal == CABUNLIS_ERR_TABLES);
    memcpy(bad, tables()->plain, sizeof bad);
    bad[2] = 33;
    CHECK(cabunlis_plane_room_under(16, 16, bad, sizeof bad).refusal == CABUNLIS_ERR_CODE);
    memcpy(bad, tables()->plain, sizeof bad);
    bad[1] = bad[4];
    CHECK(cabunlis_plane_room_under(16, 16, bad, sizeof bad).refusal == CABUNLIS_ERR_PREFIX);
    suffices(tables()->book, 33, 20, 0);
    suffices(tables()->plain, 20, 33, 13);
}
