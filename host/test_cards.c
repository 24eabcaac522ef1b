/* Document 01's bench cards, as far as the plane calls meet them. */
#include <string.h>

#include "check.h"
#include "plane.h"

/* lambda, radius, four vectors, margin: the cards', the dearest bits, and the least search */
static const struct cabunlis_settings CARD = {32, 8, 1, 0}, DEAREST = {UINT64_MAX, 8, 1, 0}, STILL = {32, 0, 0, 0};

/* 16 x 16, source 100, reference 0. */
static struct plane card(void)
{
    struct plane p = plane_of(16, 16);
    memset(p.source, 100, 256);
    return p;
}

static void first_card(void)
{
    static const uint8_t BYTES[3] = {0x21, 0x01, 0x94};
    struct plane p = card();
    struct cabunlis_answer a = plane_write(&p, tables()->book, tables()->codebook, &CARD, 0);
    CHECK(a.refusal == 0 && a.macroblock == 0 && a.done == 1 && a.next == 22 && a.bits == 22 && a.error == 0);
    CHECK(memcmp(p.out, BYTES, 3) == 0);
    CHECK(p.stated[0] == CABUNLIS_INTRA && p.stated[1] == 22 && p.stated[2] == 0);
    for (size_t k = 0; k < 256; k++)
        CHECK(p.recon[k] == 100);
    plane_free(&p);
}

/* With the largest lambda bits are all that counts. */
static void dearest_bits(void)
{
    struct plane p = card();
    struct cabunlis_answer a = plane_write(&p, tables()->book, tables()->codebook, &DEAREST, 0);
    CHECK(a.refusal == 0 && a.done == 1 && a.bits == 1 && a.error == 2560000);
    CHECK(p.out[0] == 0x80);
    CHECK(p.stated[0] == CABUNLIS_SKIP);
    plane_free(&p);
}

/* In three bytes the 22 bits fit from bit 2 and not from bit 3. */
static void last_room(void)
{
    struct plane p = card();
    p.room = 3;
    struct cabunlis_answer a = plane_write(&p, tables()->book, tables()->codebook, &CARD, 2);
    CHECK(a.refusal == 0 && a.done == 1 && a.next == 24);
    memset(p.out, 0xa5, 3);
    memset(p.recon, 0x5a, 256);
    a = plane_write(&p, tables()->book, tables()->codebook, &CARD, 3);
    CHECK(a.refusal == CABUNLIS_ERR_FULL && a.macroblock == 0 && a.done == 0 && a.next == 3 && a.bits == 0 && a.error == 0);
    CHECK(p.out[0] == 0xa5 && p.out[1] == 0xa5 && p.out[2] == 0xa5 && p.recon[0] == 0x5a && p.recon[255] == 0x5a);
    plane_free(&p);
}

static void widths(void)
{
    CHECK(cabunlis_plane_room(1024, 1).refusal == 0);
    CHECK(cabunlis_plane_room(1025, 1).refusal == CABUNLIS_ERR_SIZE);
    struct plane p = plane_of(1024, 1);
    struct cabunlis_answer a = plane_write(&p, tables()->book, tables()->codebook, &STILL, 0);
    CHECK(a.refusal == 0 && a.done == 64);
    p.width = 1025;
    a = plane_write(&p, tables()->book, tables()->codebook, &STILL, 0);
    CHECK(a.refusal == CABUNLIS_ERR_SIZE);
    p.width = 1024;
    plane_free(&p);
}

void test_cards(void)
{
    first_card();
    dearest_bits();
    last_room();
    widths();
}
