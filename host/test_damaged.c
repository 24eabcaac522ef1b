/* Streams that nobody wrote: random bytes, and good ones with bits changed or cut off, with every slice of the reader guarded. */
#include <stdlib.h>
#include <string.h>

#include "check.h"
#include "plane.h"

enum { W = 41, H = 27, STRIDE = 48, ROWS = 32, BLOCKS = 6 };

static const struct cabunlis_settings SETTINGS = {16, 3, 1, 0}; /* lambda, radius, four vectors, margin */

/* Macroblock k of the canvas still holds `value` everywhere. */
static int block_is(const uint8_t *canvas, size_t k, uint8_t value)
{
    size_t top = k / (STRIDE / 16) * 16, left = k % (STRIDE / 16) * 16;
    for (size_t y = top; y < top + 16; y++)
        for (size_t x = left; x < left + 16; x++)
            if (canvas[y * STRIDE + x] != value)
                return 0;
    return 1;
}

static void read_damaged(const uint8_t *bytes, size_t length, size_t start, const uint8_t *book, const uint8_t *reference, size_t refusals[25])
{
    struct guarded string = guarded_of(length, GUARD_BEHIND), recon = guarded_of(STRIDE * ROWS, GUARD_BEHIND);
    struct guarded vx = guarded_of(4 * BLOCKS, GUARD_BEHIND), vy = guarded_of(4 * BLOCKS, GUARD_BEFORE);
    memcpy(string.bytes, bytes, length);
    memset(recon.bytes, 0x77, STRIDE * ROWS);
    memset(vx.bytes, 0x66, 4 * BLOCKS);
    struct cabunlis_answer a = cabunlis_decode_inter_plane(
        W, H, STRIDE, ROWS, reference, STRIDE * ROWS, book, CABUNLIS_BOOK_BYTES, tables()->codebook, CABUNLIS_CODEBOOK_BYTES,
        string.bytes, length, start, recon.bytes, STRIDE * ROWS, guarded_vectors(&vx), 4 * BLOCKS, guarded_vectors(&vy), 4 * BLOCKS);
    CHECK(a.refusal == 0 || a.refusal == CABUNLIS_ERR_NO_CODE || a.refusal == CABUNLIS_ERR_LEAF || a.refusal == CABUNLIS_ERR_CUT);
    CHECK(a.refusal == 0 ? a.done == BLOCKS && a.macroblock == 0 : a.done < BLOCKS && a.macroblock == a.done);
    CHECK(start <= a.next && a.next <= 8 * length);
    CHECK(memcmp(string.bytes, bytes, length) == 0);
    for (size_t k = a.done; k < BLOCKS; k++) {
        CHECK(block_is(recon.bytes, k, 0x77));
        CHECK(vx.bytes[k / 3 * 12 + k % 3 * 2] == 0x66 && vx.bytes[k / 3 * 12 + 6 + k % 3 * 2 + 1] == 0x66);
    }
    refusals[a.refusal < 25 ? a.refusal : 0]++;
    guarded_free(&string);
    guarded_free(&recon);
    guarded_free(&vx);
    guarded_free(&vy);
}

void test_damaged(void)
{
    uint64_t state = 77;
    size_t refusals[25] = {0};
    struct plane p = plane_of(W, H);
    for (size_t k = 0; k < W * H; k++)
        p.source[k] = (uint8_t)(random_next(&state) % 64 + k % W);
    for (size_t k = 0; k < STRIDE * ROWS; k++)
        p.reference[k] = (uint8_t)(random_next(&state) % 32 + k % STRIDE);
    for (int plain = 0; plain < 2; plain++) {
        const uint8_t *book = plain ? tables()->plain : tables()->book;
        struct cabunlis_answer a = plane_write(&p, book, tables()->codebook, &SETTINGS, 5);
        size_t length = (a.next + 7) / 8;
        uint8_t *bytes = host_memory(length + 64);
        for (int k = 0; k < 150; k++) {
            size_t given = length;
            memcpy(bytes, p.out, length);
            if (k % 3 == 0)
                for (size_t j = 0; j < length; j++)
                    bytes[j] = (uint8_t)random_next(&state);
            else if (k % 3 == 1)
                bytes[random_next(&state) % length] ^= (uint8_t)(1u << random_next(&state) % 8);
            else
                given = random_next(&state) % length;
            read_damaged(bytes, given, given ? 5 : 0, book, p.reference, refusals);
        }
        free(bytes);
    }
    CHECK(refusals[CABUNLIS_ERR_NO_CODE] && refusals[CABUNLIS_ERR_LEAF] && refusals[CABUNLIS_ERR_CUT]);
    plane_free(&p);
}
