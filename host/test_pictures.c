/* What is written of pictures of three planes inside an allowance of bits (document 02, §5). Every picture that is written whole is read back, plane by
 * plane. Refusals and 22 are in test_picture_refusals.c. */
#include <string.h>

#include "test_picture_tools.h"

/* Costs are counted to 2^64 - 1 and no further. */
static uint64_t cost_of(const struct given *g, const uint32_t *stated)
{
    uint64_t most = UINT64_MAX - stated[2];
    return stated[1] && g->settings.lambda > most / stated[1] ? UINT64_MAX : stated[2] + g->settings.lambda * stated[1];
}

/* ---- without a limit */

static int same_answer(const struct cabunlis_answer *a, const struct cabunlis_answer *b)
{
    return a->refusal == b->refusal && a->macroblock == b->macroblock && a->done == b->done && a->next == b->next && a->bits == b->bits && a->error == b->error;
}

/* Three plane calls, one behind the other, in the same string. */
static void planes_alone(struct picture *p, const struct given *g, struct cabunlis_answer *answers)
{
    struct cabunlis_tables t = tables_of(g);
    struct cabunlis_output output = {p->out, p->length, p->start};
    picture_reset(p);
    for (int k = 0; k < PLANES; k++) {
        struct cabunlis_plane lent = plane_lent(&p->planes[k]);
        answers[k] = cabunlis_write(&lent, &t, &g->settings, &output);
        output.start = answers[k].next;
    }
}

/* With no limit, and with any that every first choice fits, the picture is what three plane calls leave; with one bit less it is not. */
static void without_limit(const struct picture *p, const struct given *g)
{
    struct picture alone = picture_like(p), picture = picture_like(p);
    struct cabunlis_answer answers[PLANES];
    planes_alone(&alone, g, answers);
    uint64_t enough = ample(&alone, g);
    const uint64_t allowances[] = {NO_LIMIT, NO_LIMIT - 1, UINT64_C(1) << 32, enough + 1, enough};
    for (size_t k = 0; k < COUNT(allowances); k++) {
        struct cabunlis_picture_answer a = picture_written(&picture, g, allowances[k]);
        whole(&picture, g, allowances[k], &a);
        CHECK(same_left(&alone, &picture));
        for (int n = 0; n < PLANES; n++)
            CHECK(same_answer(&a.planes[n], &answers[n]));
    }
    if (enough > least(p, g)) {
        struct cabunlis_picture_answer a = picture_written(&picture, g, enough - 1);
        whole(&picture, g, enough - 1, &a);
        CHECK(!same_left(&alone, &picture));
    }
    picture_free(&alone);
    picture_free(&picture);
}

/* ---- inside an allowance */

/* The first macroblock whose first choice does not fit; the number of macroblocks where all of them do. */
static size_t first_unfit(const struct picture *unlimited, const struct given *g, uint64_t allowance)
{
    uint64_t spent = 0;
    for (size_t k = 0; k < unlimited->macroblocks; k++) {
        spent += stated_of(unlimited, k)[1];
        if (spent + skip_bits(g) * (unlimited->macroblocks - k - 1) > allowance)
            return k;
    }
    return unlimited->macroblocks;
}

/* Writes the picture at an allowance. Up to the first macroblock whose first choice does not fit it is the picture without a limit, bit by bit; that
 * macroblock has fewer bits, at no less cost. Answers its index. */
static size_t limited(const struct picture *unlimited, const struct given *g, uint64_t allowance)
{
    struct picture p = picture_like(unlimited);
    struct cabunlis_picture_answer a = picture_written(&p, g, allowance);
    whole(&p, g, allowance, &a);
    size_t unfit = first_unfit(unlimited, g, allowance), bits = 0;
    for (size_t k = 0; k < unfit; k++) {
        const uint32_t *here = stated_of(&p, k), *there = stated_of(unlimited, k);
        CHECK(memcmp(here, there, 12) == 0);
        bits += there[1];
    }
    CHECK(same_bits(p.out, p.start, unlimited->out, unlimited->start, bits));
    if (unfit < p.macroblocks) {
        const uint32_t *here = stated_of(&p, unfit), *there = stated_of(unlimited, unfit);
        CHECK(here[1] < there[1] && cost_of(g, here) >= cost_of(g, there));
    } else {
        CHECK(same_left(&p, unlimited));
    }
    picture_free(&p);
    return unfit;
}

/* At the least allowance, one below and one above; at the edge of each macroblock, where its first choice just fits, and one bit below; and at any. */
static void allowances(const struct picture *p, const struct given *g, unsigned any, uint64_t *state)
{
    struct picture unlimited = picture_like(p), q = picture_like(p);
    struct cabunlis_picture_answer a = picture_written(&unlimited, g, NO_LIMIT);
    whole(&unlimited, g, NO_LIMIT, &a);
    uint64_t spent = 0, from = least(p, g), fits = from, enough = ample(&unlimited, g);
    a = picture_written(&q, g, from - 1);
    CHECK(a.refusal == CABUNLIS_ERR_ALLOWANCE && a.done == 0 && all_held(q.out, q.length));
    limited(&unlimited, g, from);
    limited(&unlimited, g, from + 1);
    for (size_t k = 0; k < p->macroblocks; k++) {
        spent += stated_of(&unlimited, k)[1];
        uint64_t edge = spent + skip_bits(g) * (p->macroblocks - k - 1);
        /* no more than what the ones before it need: nothing new is said of it */
        if (edge <= fits)
            continue;
        CHECK(limited(&unlimited, g, edge) > k);
        CHECK(limited(&unlimited, g, edge - 1) == k);
        fits = edge;
    }
    for (unsigned k = 0; k < any && enough > from; k++)
        limited(&unlimited, g, from + random_next(state) % (enough - from));
    picture_free(&unlimited);
    picture_free(&q);
}

/* Lambdas above 2^48 are taken too; there costs may saturate. */
static void random_pictures(uint64_t *state)
{
    static const uint64_t LAMBDAS[] = {0, 1, 32, 500, UINT64_C(1) << 48, (UINT64_C(1) << 48) + 1, UINT64_MAX};
    const uint8_t *const books[] = {tables()->book, tables()->plain, long_skips()};
    for (unsigned k = 0; k < 14; k++) {
        struct given g = {books[k % COUNT(books)], {LAMBDAS[k % COUNT(LAMBDAS)], (uint8_t)(k % 3), (uint8_t)(k / 2 % 2), k % 4 == 3 ? 200 : 0}};
        struct picture p = picture_drawn(SIZES[k % PICTURE_SIZES], k < 8 ? k : 8 + random_next(state) % 60, state);
        without_limit(&p, &g);
        allowances(&p, &g, 3, state);
        picture_free(&p);
    }
}

/* At lambda 2^64 - 1 every cost is the same, so the fewest bits are written: under the built-in book SKIP, whatever has changed and whatever the
 * allowance. */
static void all_costs_equal(uint64_t *state)
{
    struct given g = {tables()->book, {UINT64_MAX, 1, 1, 0}};
    struct picture p = picture_drawn(SIZES[2], 3, state);
    const uint64_t allowances[] = {least(&p, &g), least(&p, &g) + 100, NO_LIMIT};
    for (size_t k = 0; k < COUNT(allowances); k++) {
        struct cabunlis_picture_answer a = picture_written(&p, &g, allowances[k]);
        whole(&p, &g, allowances[k], &a);
        CHECK(a.planes[PLANES - 1].next == p.start + p.macroblocks);
        for (int n = 0; n < PLANES; n++)
            CHECK(memcmp(p.planes[n].recon, p.planes[n].reference, p.planes[n].stride * p.planes[n].rows) == 0);
    }
    picture_free(&p);
}

/* ---- by hand, bit by bit */

/* A macroblock whose modes can be told by hand under the built-in book: source and reference are flat, so no vector helps. INTRA has nine bits and
 * those of its mean, INTER nine and those of the mean that it adds; with four vectors it has six more. Where one sample of both is higher by ten (an
 * even number, so half samples do not round it up), INTER has no error, and INTRA, of fewer bits, that of the sample. The modes stand from the first
 * choice down to SKIP. */
enum { HAND_MODES = 3, HIGHER = 10 };
struct hand { uint8_t source, reference, higher; uint32_t stated[HAND_MODES][3]; };

static const struct hand FAR = {100, 0, HIGHER, {{CABUNLIS_INTER, 24, 0}, {CABUNLIS_INTRA, 22, HIGHER * HIGHER}, {CABUNLIS_SKIP, 1, 256 * 100 * 100}}};
static const struct hand DARK = {2, 0, 0, {{CABUNLIS_INTRA, 12, 0}, {CABUNLIS_SKIP, 1, 256 * 2 * 2}, {0, 0, 0}}};
static const struct hand NEAR = {100, 98, 0, {{CABUNLIS_INTER, 14, 0}, {CABUNLIS_SKIP, 1, 256 * 2 * 2}, {0, 0, 0}}};
static const struct hand BETWEEN = {100, 80, 0, {{CABUNLIS_INTER, 20, 0}, {CABUNLIS_SKIP, 1, 256 * 20 * 20}, {0, 0, 0}}};

/* Draws macroblock k of a plane that is one macroblock high. */
static void draw_by_hand(struct plane *p, size_t k, const struct hand *h)
{
    enum { ROW = 2, COLUMN = 5 };
    size_t place = ROW * p->stride + 16 * k + COLUMN;
    for (size_t y = 0; y < 16; y++) {
        memset(p->source + y * p->stride + 16 * k, h->source, 16);
        memset(p->reference + y * p->stride + 16 * k, h->reference, 16);
    }
    p->source[place] = (uint8_t)(p->source[place] + h->higher);
    p->reference[place] = (uint8_t)(p->reference[place] + h->higher);
}

/* The allowance is raised bit by bit up to `most`; each macroblock has the first of its modes that fits. Answers how often one behind a macroblock of
 * its own plane whose first choice does not fit is still coded. */
static unsigned by_hand(const struct size *sizes, const struct hand *const *hands, uint64_t most)
{
    struct given g = {tables()->book, {32, 8, 1, 0}}; /* lambda, radius, four vectors, margin */
    struct picture p = picture_of(sizes, 5);
    const struct hand *const *next = hands;
    unsigned behind = 0;
    for (int k = 0; k < PLANES; k++)
        for (size_t n = 0; n < p.planes[k].macroblocks; n++)
            draw_by_hand(&p.planes[k], n, *next++);
    for (uint64_t allowance = p.macroblocks; allowance <= most; allowance++) {
        struct cabunlis_picture_answer a = picture_written(&p, &g, allowance);
        uint64_t left = allowance, rest = p.macroblocks;
        whole(&p, &g, allowance, &a);
        next = hands;
        for (int k = 0; k < PLANES; k++) {
            int unfit = 0;
            for (size_t n = 0; n < p.planes[k].macroblocks; n++, next++) {
                const uint32_t(*stated)[3] = (*next)->stated;
                int mode = 0;
                rest--;
                while (stated[mode][1] + rest > left)
                    mode++;
                CHECK(memcmp(p.planes[k].stated + 3 * n, stated[mode], 12) == 0);
                left -= stated[mode][1];
                behind += unfit && stated[mode][0] != CABUNLIS_SKIP;
                unfit = unfit || mode;
            }
        }
    }
    picture_free(&p);
    return behind;
}

/* One macroblock in each plane; then two in the first, of which the one behind is shorter and is coded where the one before it has to be skipped. */
static void by_hands(void)
{
    static const struct size TWO_FIRST[PLANES] = {{32, 16}, {16, 16}, {16, 16}};
    const struct hand *const one[] = {&FAR, &NEAR, &BETWEEN}, *const two[] = {&FAR, &DARK, &NEAR, &BETWEEN};
    CHECK(by_hand(SIZES[0], one, 60) == 0);
    /* from an allowance of 15, SKIP and 12 bits and two SKIPs behind them, to one of 24, where the 22 bits of INTRA do not fit yet */
    CHECK(by_hand(TWO_FIRST, two, 75) == 10);
}

/* ---- planes of one macroblock, from their first choice down to SKIP */

/* What a plane of one macroblock comes to as its room gets less: at most four modes, with their three numbers. */
enum { STEPS = 4 };
struct stairs { uint32_t stated[STEPS][3]; int steps; };

/* A plane's stairs, from its first choice down to SKIP: it stands first in a picture, and the allowance leaves it one bit less than the step above. */
static struct stairs stairs_of(const struct picture *p, int plane, const struct given *g)
{
    struct stairs s;
    struct size sizes[PLANES];
    for (int k = 0; k < PLANES; k++) {
        sizes[k].width = p->planes[(plane + k) % PLANES].width;
        sizes[k].height = p->planes[(plane + k) % PLANES].height;
    }
    struct picture q = picture_of(sizes, 0);
    memcpy(q.planes[0].source, p->planes[plane].source, sizes[0].width * sizes[0].height);
    memcpy(q.planes[0].reference, p->planes[plane].reference, 256);
    uint64_t rest = skip_bits(g) * (PLANES - 1), room = NO_LIMIT - rest;
    s.steps = 0;
    do {
        struct cabunlis_picture_answer a = picture_written(&q, g, room + rest);
        whole(&q, g, room + rest, &a);
        memcpy(s.stated[s.steps], q.planes[0].stated, 12);
        /* less room, so fewer bits and more cost */
        if (s.steps)
            CHECK(s.stated[s.steps][1] < s.stated[s.steps - 1][1] && cost_of(g, s.stated[s.steps]) > cost_of(g, s.stated[s.steps - 1]));
        room = s.stated[s.steps][1] - 1;
        s.steps++;
    } while (s.steps < STEPS && s.stated[s.steps - 1][0] != CABUNLIS_SKIP && room >= skip_bits(g));
    /* a mode shorter than SKIP may be the last */
    CHECK(s.stated[s.steps - 1][0] == CABUNLIS_SKIP || room < skip_bits(g));
    picture_free(&q);
    return s;
}

/* Bit by bit from the least allowance to one above what the first choices take: wherever a plane stands, what it comes to is the highest step of its
 * stairs that fits. So its cost never rises while those before it stay as they are. Answers the most steps of a plane. */
static int bit_by_bit(const struct picture *p, const struct given *g)
{
    struct stairs s[PLANES];
    uint64_t most = skip_bits(g) * PLANES;
    int steps = 0;
    for (int k = 0; k < PLANES; k++) {
        s[k] = stairs_of(p, k, g);
        most += s[k].stated[0][1];
        steps = s[k].steps > steps ? s[k].steps : steps;
    }
    struct picture q = picture_like(p);
    for (uint64_t allowance = least(p, g); allowance <= most; allowance++) {
        struct cabunlis_picture_answer a = picture_written(&q, g, allowance);
        uint64_t left = allowance;
        CHECK(a.refusal == 0 && a.planes[PLANES - 1].next - q.start <= allowance);
        for (unsigned k = 0; k < PLANES; k++) {
            uint64_t room = left - skip_bits(g) * (PLANES - 1 - k);
            int step = 0;
            while (step < s[k].steps - 1 && s[k].stated[step][1] > room)
                step++;
            CHECK(memcmp(q.planes[k].stated, s[k].stated[step], 12) == 0);
            left -= s[k].stated[step][1];
        }
    }
    picture_free(&q);
    return steps;
}

/* In some of these a mode between the first choice and SKIP is written, or the stairs would say nothing. */
static void one_macroblock_each(void)
{
    static const struct size SMALL[][PLANES] = {{{16, 16}, {16, 16}, {16, 16}}, {{16, 9}, {1, 1}, {7, 16}}};
    const struct { const uint8_t *book; uint64_t lambda; int sizes; uint64_t seed; } cases[] = {
        {tables()->book, 180, 0, 4}, {tables()->book, 1620, 1, 3}, {tables()->plain, 180, 0, 4}, {tables()->plain, 180, 1, 2}, {long_skips(), 180, 1, 2},
    };
    int steps = 0;
    for (size_t k = 0; k < COUNT(cases); k++) {
        struct given g = {cases[k].book, {cases[k].lambda, 2, 1, 0}};
        uint64_t state = cases[k].seed;
        struct picture p = picture_drawn(SMALL[cases[k].sizes], k, &state);
        int here = bit_by_bit(&p, &g);
        steps = here > steps ? here : steps;
        picture_free(&p);
    }
    CHECK(steps == STEPS);
}

/* The rooms of the three planes under the book, behind the start and not a byte more. */
static void rooms(uint64_t *state)
{
    const uint8_t *const books[] = {tables()->book, long_skips()};
    for (size_t n = 0; n < COUNT(books); n++) {
        struct given g = {books[n], {0, 1, 1, 0}}; /* lambda 0: many bits */
        struct picture p = picture_drawn(SIZES[1], 13, state);
        size_t length = (p.start + 7) / 8;
        for (int k = 0; k < PLANES; k++)
            length += cabunlis_plane_room_under(p.planes[k].width, p.planes[k].height, g.book, CABUNLIS_BOOK_BYTES).bytes;
        struct cabunlis_picture_answer a = picture_written_into(&p, &g, NO_LIMIT, length);
        whole(&p, &g, NO_LIMIT, &a);
        picture_free(&p);
    }
}

/* ---- slices that are only read */

/* One source for all planes, and one reference that overlaps it: what is written is what planes with copies of their own have. */
static void lent_to_several(uint64_t *state)
{
    enum { WIDTH = 33, HEIGHT = 17, CANVAS = 48 * 32, BEHIND = 7 };
    static const struct size SAME[PLANES] = {{WIDTH, HEIGHT}, {WIDTH, HEIGHT}, {WIDTH, HEIGHT}};
    struct given g = {tables()->book, {32, 2, 1, 0}};
    struct cabunlis_tables t = tables_of(&g);
    struct picture p = picture_of(SAME, 9), q = picture_of(SAME, 9);
    struct cabunlis_plane lent[PLANES];
    uint8_t bytes[BEHIND + CANVAS], before[BEHIND + CANVAS];
    for (size_t k = 0; k < sizeof bytes; k++)
        bytes[k] = (uint8_t)(3 * k + random_next(state) % 50);
    memcpy(before, bytes, sizeof bytes);
    for (int k = 0; k < PLANES; k++) {
        memcpy(p.planes[k].source, bytes, WIDTH * HEIGHT);
        memcpy(p.planes[k].reference, bytes + BEHIND, CANVAS);
        lent[k] = plane_lent(&q.planes[k]);
        lent[k].source = bytes;
        lent[k].reference = bytes + BEHIND;
    }
    CHECK(picture_written(&p, &g, NO_LIMIT).refusal == 0);
    uint64_t from = least(&p, &g), allowance = (from + ample(&p, &g)) / 2;
    const uint64_t allowances[] = {from, allowance, NO_LIMIT};
    for (size_t k = 0; k < COUNT(allowances); k++) {
        struct cabunlis_output output = {q.out, q.length, q.start};
        struct cabunlis_picture_answer a = picture_written(&p, &g, allowances[k]);
        whole(&p, &g, allowances[k], &a);
        picture_reset(&q);
        struct cabunlis_picture_answer b = cabunlis_write_picture(lent, &t, &g.settings, allowances[k], &output);
        CHECK(b.refusal == 0 && b.done == a.done && same_left(&p, &q) && memcmp(bytes, before, sizeof bytes) == 0);
        for (int n = 0; n < PLANES; n++)
            CHECK(same_answer(&a.planes[n], &b.planes[n]));
    }
    picture_free(&p);
    picture_free(&q);
}

/* ---- the largest sides */

/* The least allowance of a large picture: every macroblock has changed, and every one is skipped. */
static void largest(void)
{
    static const struct size LARGEST[PLANES] = {{1024, 1}, {1024, 1024}, {1, 1024}};
    enum { ALL = 64 + 4096 + 64, START = 7 };
    struct given g = {tables()->book, {32, 0, 0, UINT32_MAX}}; /* lambda, radius, four vectors, margin */
    struct picture p = picture_of(LARGEST, START);
    for (int k = 0; k < PLANES; k++)
        memset(p.planes[k].source, 100, LARGEST[k].width * LARGEST[k].height);
    struct cabunlis_picture_answer a = picture_written(&p, &g, ALL - 1);
    CHECK(a.refusal == CABUNLIS_ERR_ALLOWANCE && all_held(p.out, p.length));
    a = picture_written(&p, &g, ALL);
    CHECK(a.refusal == 0 && a.done == ALL && a.planes[PLANES - 1].next == START + ALL);
    for (int k = 0; k < PLANES; k++) {
        const struct plane *q = &p.planes[k];
        CHECK(a.planes[k].bits == q->macroblocks && a.planes[k].error == 10000 * q->stride * q->rows);
        CHECK(memcmp(q->recon, q->reference, q->stride * q->rows) == 0);
    }
    for (size_t k = START; k < START + ALL; k++)
        CHECK(bit_of(p.out, k) == 1);
    picture_free(&p);
}

void test_pictures(void)
{
    uint64_t state = 505;
    random_pictures(&state);
    all_costs_equal(&state);
    by_hands();
    one_macroblock_each();
    rooms(&state);
    lent_to_several(&state);
    largest();
}
