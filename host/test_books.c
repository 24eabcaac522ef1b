/*
 * The built-in book and codebook by their rules; book files read and written, on slices that lie against pages that may not be
 * touched.
 */
#include <stdlib.h>
#include <string.h>

#include "check.h"
#include "plane.h"

/* The number k of an entry of the built-in book. */
static unsigned rank(unsigned table, unsigned position)
{
    int d = (int)position - (table == 1 ? 32 : 256);
    switch (table) {
    case 0: return (position + 1) % 4;
    case 1:
    case 3: return (unsigned)(d > 0 ? 2 * d - 1 : -2 * d);
    case 2: return position;
    default: return position % 8;
    }
}

static void built_in(void)
{
    size_t at = 0;
    for (unsigned t = 0; t < BOOK_TABLE_COUNT; t++)
        for (unsigned p = 0; p < BOOK_TABLES[t].entries; p++, at++) {
            unsigned value = rank(t, p) + 1, length = 1;
            for (unsigned v = value; v > 1; v /= 2)
                length += 2;
            const uint8_t *entry = tables()->book + 3 * at;
            CHECK(entry[0] == value / 256 && entry[1] == value % 256 && entry[2] == length);
        }
    CHECK(3 * at == CABUNLIS_BOOK_BYTES);
    for (unsigned i = 0; i < CABUNLIS_CODEBOOK_BYTES; i++)
        CHECK(tables()->codebook[i] == (uint8_t)((37 * i + i / 16) % 61 - 30));
    uint8_t small[3] = {1, 2, 3};
    CHECK(cabunlis_house_book(small, 3) == CABUNLIS_ERR_TABLES && cabunlis_house_codebook(small, 3) == CABUNLIS_ERR_TABLES);
    CHECK(small[0] == 1 && small[1] == 2 && small[2] == 3);
}

/* ---- files read */

enum { PATTERN = 0x99 };

static char text[BOOK_FILE_MOST];

static int all_are(const uint8_t *bytes, size_t n, uint8_t value)
{
    for (size_t k = 0; k < n; k++)
        if (bytes[k] != value)
            return 0;
    return 1;
}

/* A file read into a lent book of this length: refused so, and the book is left as it was, or held by it. */
static void read_as(const void *bytes, size_t n, size_t book_length, uint32_t refusal, const uint8_t *held)
{
    struct guarded file = guarded_of(n, GUARD_BEHIND), book = guarded_of(book_length, GUARD_BEHIND);
    memcpy(file.bytes, bytes, n);
    guarded_seal(&file);
    memset(book.bytes, PATTERN, book_length);
    CHECK(cabunlis_read_book_file(file.bytes, n, book.bytes, book_length) == refusal);
    CHECK(refusal ? all_are(book.bytes, book_length, PATTERN) : memcmp(book.bytes, held, book_length) == 0);
    guarded_free(&file);
    guarded_free(&book);
}

static void refused_for(size_t n, size_t book_length, uint32_t refusal)
{
    read_as(text, n, book_length, refusal, NULL);
}

static void refused_text(size_t n, uint32_t refusal)
{
    refused_for(n, CABUNLIS_BOOK_BYTES, refusal);
}

/* Lines of the built-in book. */
static void refused_lines(const struct book_lines *lines, uint32_t refusal)
{
    refused_text(book_text_of(text, tables()->book, lines), refusal);
}

/* In order, with another length and value at an entry. */
static void refused_code(size_t odd, unsigned length, unsigned value, uint32_t refusal)
{
    struct book_lines lines = book_lines_in_order();
    lines.odd = odd;
    lines.length = length;
    lines.value = value;
    refused_lines(&lines, refusal);
}

static void files(void)
{
    size_t n = book_file_of(text, tables()->book);
    read_as(text, n, CABUNLIS_BOOK_BYTES, 0, tables()->book);
    refused_for(n, CABUNLIS_BOOK_BYTES - 1, CABUNLIS_ERR_TABLES);
    refused_for(n, CABUNLIS_BOOK_BYTES + 1, CABUNLIS_ERR_TABLES);
    refused_for(n, 0, CABUNLIS_ERR_TABLES);
    refused_text(0, CABUNLIS_ERR_TABLES);
    refused_text(n - 1, CABUNLIS_ERR_TABLES); /* the last line is not ended */
    text[n] = '\n';
    refused_text(n + 1, CABUNLIS_ERR_TABLES); /* an empty line */
    text[0] = 'M';
    refused_text(n, CABUNLIS_ERR_TABLES); /* no such table */
    refused_code(7, 3, 65536, CABUNLIS_ERR_TABLES);
    refused_code(7, 65536, 3, CABUNLIS_ERR_TABLES);
    refused_code(7, 0, 0, CABUNLIS_ERR_CODE);
    refused_code(7, 33, 1, CABUNLIS_ERR_CODE);
    refused_code(7, 257, 1, CABUNLIS_ERR_CODE);
    refused_code(7, 65535, 1, CABUNLIS_ERR_CODE);
    refused_code(7, 3, 8, CABUNLIS_ERR_CODE);
    refused_code(0, 1, 1, CABUNLIS_ERR_PREFIX); /* INTER gets the code of SKIP */
}

/* ---- files in another order */

static void swap(struct book_lines *lines, size_t j, size_t k)
{
    size_t entry = lines->entry[j];
    lines->entry[j] = lines->entry[k];
    lines->entry[k] = entry;
}

/* The line at one place taken to another; those between move up or down. */
static void move(struct book_lines *lines, size_t from, size_t to)
{
    size_t entry = lines->entry[from], *at = lines->entry;
    if (from < to)
        memmove(at + from, at + from + 1, (to - from) * sizeof *at);
    else
        memmove(at + to + 1, at + to, (from - to) * sizeof *at);
    at[to] = entry;
}

/* Ways to put lines out of order: at the front, in the middle, at the end, everywhere. */
enum { WAYS = 8 };

static struct book_lines disordered(int way)
{
    struct book_lines lines = book_lines_in_order();
    switch (way) {
    case 0: swap(&lines, 0, 1); break;
    case 1: swap(&lines, 400, 401); break;
    case 2: swap(&lines, BOOK_ENTRIES - 2, BOOK_ENTRIES - 1); break;
    case 3: move(&lines, 0, BOOK_ENTRIES - 1); break;
    case 4: move(&lines, 500, 68); break; /* between two tables */
    case 5: move(&lines, BOOK_ENTRIES - 1, 0); break;
    case 6: /* interstage before intrastage */
        for (size_t k = 836; k < 884; k++)
            swap(&lines, k, k + 48);
        break;
    default: /* backwards */
        for (size_t k = 0; k < BOOK_ENTRIES / 2; k++)
            swap(&lines, k, BOOK_ENTRIES - 1 - k);
    }
    return lines;
}

/* Places of a further fault: before, between and behind those of the order. */
static const size_t PLACES[] = {0, 1, 100, 450, 700, BOOK_ENTRIES - 2, BOOK_ENTRIES - 1};
enum { PLACE_COUNT = sizeof PLACES / sizeof *PLACES };

/* Out of order alone, and beside what 5 judges on the whole file and what 6 and 7 judge behind it. */
static void other_order(int way)
{
    struct book_lines lines = disordered(way);
    size_t n = book_text_of(text, tables()->book, &lines);
    refused_text(n, CABUNLIS_ERR_ORDER);
    refused_for(n, CABUNLIS_BOOK_BYTES - 1, CABUNLIS_ERR_TABLES);
    refused_text(n - 1, CABUNLIS_ERR_TABLES); /* the last line is not ended */
    text[n] = '\n';
    refused_text(n + 1, CABUNLIS_ERR_TABLES); /* an empty line */
    for (int k = 0; k < PLACE_COUNT; k++) {
        size_t place = PLACES[k];
        lines = disordered(way);
        lines.odd = place;
        lines.length = 3;
        lines.value = 65536;
        refused_lines(&lines, CABUNLIS_ERR_TABLES); /* malformed */
        lines.value = 8;
        refused_lines(&lines, CABUNLIS_ERR_ORDER); /* value 2^length */
        lines.length = 33;
        refused_lines(&lines, CABUNLIS_ERR_ORDER);
        lines.length = 0;
        refused_lines(&lines, CABUNLIS_ERR_ORDER);
        lines.length = lines.value = 1;
        refused_lines(&lines, CABUNLIS_ERR_ORDER); /* the code of another entry of its table: a clash */
        lines = disordered(way);
        lines.entry[BOOK_ENTRIES] = place;
        lines.count = BOOK_ENTRIES + 1;
        refused_lines(&lines, CABUNLIS_ERR_TABLES); /* a line doubled at the end */
        move(&lines, BOOK_ENTRIES, place);
        refused_lines(&lines, CABUNLIS_ERR_TABLES); /* and at its place */
        lines = disordered(way);
        lines.entry[place] = lines.entry[BOOK_ENTRIES / 2];
        refused_lines(&lines, CABUNLIS_ERR_TABLES); /* doubled in place of another */
        lines = disordered(way);
        move(&lines, place, BOOK_ENTRIES - 1);
        lines.count = BOOK_ENTRIES - 1;
        refused_lines(&lines, CABUNLIS_ERR_TABLES); /* missing */
    }
}

/* Neighbours that change places: every fourth pair, those where two tables meet among them. */
static void neighbours(void)
{
    for (size_t k = 3; k + 1 < BOOK_ENTRIES; k += 4) {
        struct book_lines lines = book_lines_in_order();
        swap(&lines, k, k + 1);
        refused_lines(&lines, CABUNLIS_ERR_ORDER);
    }
}

/* ---- files written */

/* What lies in `out` before a call. */
enum { BEFORE = 0xa5 };

/* A book that is not refused is written as its file, and is read from it again. */
static void written_with(const uint8_t *book, const char *file, size_t n, size_t room, enum guard_side side)
{
    struct guarded lent = guarded_of(CABUNLIS_BOOK_BYTES, side), out = guarded_of(room, side);
    memcpy(lent.bytes, book, CABUNLIS_BOOK_BYTES);
    guarded_seal(&lent);
    memset(out.bytes, BEFORE, room);
    struct cabunlis_written w = cabunlis_write_book_file(lent.bytes, CABUNLIS_BOOK_BYTES, out.bytes, room);
    if (room < n) {
        CHECK(w.refusal == CABUNLIS_ERR_RESULTS && w.bytes == 0);
        CHECK(all_are(out.bytes, room, BEFORE));
    } else {
        CHECK(w.refusal == 0 && w.bytes == n);
        CHECK(memcmp(out.bytes, file, n) == 0 && all_are(out.bytes + n, room - n, BEFORE));
        read_as(out.bytes, n, CABUNLIS_BOOK_BYTES, 0, book);
    }
    guarded_free(&lent);
    guarded_free(&out);
}

static void written(const uint8_t *book)
{
    size_t n = book_file_of(text, book);
    const size_t ROOMS[] = {n, n - 1, n + 1, n + 5000, n / 2, 1, 0};
    CHECK(n <= CABUNLIS_MOST_BOOK_FILE_BYTES);
    for (size_t k = 0; k < sizeof ROOMS / sizeof *ROOMS; k++) {
        written_with(book, text, n, ROOMS[k], GUARD_BEHIND);
        written_with(book, text, n, ROOMS[k], GUARD_BEFORE);
    }
}

static void put_code(uint8_t *book, size_t entry, uint32_t value, unsigned length)
{
    book[3 * entry] = (uint8_t)(value >> 8);
    book[3 * entry + 1] = (uint8_t)value;
    book[3 * entry + 2] = (uint8_t)length;
}

/* Codes of which none begins another: leaves of a tree that is split at random, some of them left out. Values stay below 2^16. */
static size_t random_table(uint8_t *book, size_t at, unsigned entries, uint64_t *state)
{
    struct { uint32_t value; unsigned length; } leaf[512 + 8], l;
    size_t wanted = entries + random_next(state) % 8, leaves = 1;
    leaf[0].value = 0;
    leaf[0].length = (unsigned)(random_next(state) % 17);
    while (leaves < wanted) {
        size_t k = random_next(state) % leaves;
        if (leaf[k].length == 32 || leaf[k].value >= 32768)
            continue;
        leaf[k].value *= 2;
        leaf[k].length++;
        leaf[leaves].value = leaf[k].value + 1;
        leaf[leaves++].length = leaf[k].length;
    }
    for (unsigned p = 0; p < entries; p++) {
        size_t k = p + random_next(state) % (leaves - p);
        l = leaf[k];
        leaf[k] = leaf[p];
        put_code(book, at + p, l.value, l.length);
    }
    return at + entries;
}

static void random_book(uint8_t *book, uint64_t *state)
{
    size_t at = random_table(book, 0, 4, state);
    at = random_table(book, at, 64, state);
    at = random_table(book, at, 256, state);
    at = random_table(book, at, 512, state);
    for (int level = 0; level < 12; level++)
        at = random_table(book, at, 8, state);
    CHECK(at == BOOK_ENTRIES);
}

static void files_written(void)
{
    uint8_t book[CABUNLIS_BOOK_BYTES];
    uint64_t state = 30;
    written(tables()->book);
    written(tables()->plain);
    for (int k = 0; k < 30; k++) {
        random_book(book, &state);
        written(book);
    }
    for (unsigned e = 0; e < BOOK_ENTRIES; e++)
        put_code(book, e, 10000 + e, 32);
    CHECK(book_file_of(text, book) == CABUNLIS_MOST_BOOK_FILE_BYTES);
    written(book);
}

/* ---- books that have no file written */

/* Whatever the room, 20 comes behind them. */
static void refused_book(const uint8_t *book, size_t book_length, uint32_t refusal)
{
    static const size_t ROOMS[] = {CABUNLIS_MOST_BOOK_FILE_BYTES, 1000, 1, 0};
    struct guarded lent = guarded_of(book_length, GUARD_BEHIND);
    memcpy(lent.bytes, book, book_length);
    guarded_seal(&lent);
    for (size_t k = 0; k < sizeof ROOMS / sizeof *ROOMS; k++) {
        struct guarded out = guarded_of(ROOMS[k], GUARD_BEHIND);
        memset(out.bytes, BEFORE, ROOMS[k]);
        struct cabunlis_written w = cabunlis_write_book_file(lent.bytes, book_length, out.bytes, ROOMS[k]);
        CHECK(w.refusal == refusal && w.bytes == 0);
        CHECK(all_are(out.bytes, ROOMS[k], BEFORE));
        guarded_free(&out);
    }
    guarded_free(&lent);
}

static void refused_entry(size_t entry, uint32_t value, unsigned length, uint32_t refusal)
{
    uint8_t book[CABUNLIS_BOOK_BYTES];
    memcpy(book, tables()->plain, sizeof book);
    put_code(book, entry, value, length);
    refused_book(book, sizeof book, refusal);
}

static void books_refused(void)
{
    static const size_t LENGTHS[] = {0, 1, 3, CABUNLIS_BOOK_BYTES - 3, CABUNLIS_BOOK_BYTES - 1, CABUNLIS_BOOK_BYTES + 1, CABUNLIS_BOOK_BYTES + 3};
    uint8_t book[CABUNLIS_BOOK_BYTES + 3];
    memset(book, 0, sizeof book); /* every code bad */
    for (size_t k = 0; k < sizeof LENGTHS / sizeof *LENGTHS; k++)
        refused_book(book, LENGTHS[k], CABUNLIS_ERR_TABLES);
    memcpy(book, tables()->book, CABUNLIS_BOOK_BYTES);
    for (size_t k = 0; k < sizeof LENGTHS / sizeof *LENGTHS; k++)
        refused_book(book, LENGTHS[k], CABUNLIS_ERR_TABLES);
    for (int k = 0; k < PLACE_COUNT; k++) {
        refused_entry(PLACES[k], 0, 0, CABUNLIS_ERR_CODE);
        refused_entry(PLACES[k], 1, 33, CABUNLIS_ERR_CODE);
        refused_entry(PLACES[k], 1, 255, CABUNLIS_ERR_CODE);
        refused_entry(PLACES[k], 8, 3, CABUNLIS_ERR_CODE);
        refused_entry(PLACES[k], 0, 1, CABUNLIS_ERR_PREFIX); /* 0 begins half the codes of its table */
        refused_entry(PLACES[k], 1, 1, CABUNLIS_ERR_PREFIX); /* 1 the others */
    }
    /* 6 and 7 */
    memcpy(book, tables()->plain, CABUNLIS_BOOK_BYTES);
    put_code(book, 0, 1, 2);
    put_code(book, BOOK_ENTRIES - 1, 1, 33);
    refused_book(book, CABUNLIS_BOOK_BYTES, CABUNLIS_ERR_CODE);
}

void test_books(void)
{
    built_in();
    files();
    for (int way = 0; way < WAYS; way++)
        other_order(way);
    neighbours();
    files_written();
    books_refused();
}
