/* The same plane written on four threads at once gives the same bytes. */
#include <pthread.h>
#include <string.h>

#include "check.h"
#include "plane.h"

enum { THREADS = 4, SIDE = 48 };

static const struct cabunlis_settings SETTINGS = {32, 4, 1, 0}; /* lambda, radius, four vectors, margin */

static void *write_one(void *plane)
{
    struct plane *p = plane;
    for (int k = 0; k < 3; k++)
        plane_write(p, tables()->book, tables()->codebook, &SETTINGS, 0);
    return NULL;
}

void test_threads(void)
{
    struct plane planes[THREADS];
    pthread_t threads[THREADS];
    for (int t = 0; t < THREADS; t++) {
        uint64_t state = 3;
        planes[t] = plane_of(SIDE, SIDE);
        for (size_t k = 0; k < SIDE * SIDE; k++)
            planes[t].source[k] = (uint8_t)(random_next(&state) % 100);
        for (size_t k = 0; k < SIDE * SIDE; k++)
            planes[t].reference[k] = (uint8_t)(random_next(&state) % 100);
        CHECK(pthread_create(&threads[t], NULL, write_one, &planes[t]) == 0);
    }
    for (int t = 0; t < THREADS; t++)
        CHECK(pthread_join(threads[t], NULL) == 0);
    for (int t = 1; t < THREADS; t++) {
        CHECK(memcmp(planes[t].out, planes[0].out, planes[0].room) == 0);
        CHECK(memcmp(planes[t].recon, planes[0].recon, SIDE * SIDE) == 0);
        CHECK(memcmp(planes[t].stated, planes[0].stated, 12 * planes[0].macroblocks) == 0);
    }
    CHECK(planes[0].out[0] != 0);
    for (int t = 0; t < THREADS; t++)
        plane_free(&planes[t]);
}
