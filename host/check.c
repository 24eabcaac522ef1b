#include "check.h"

#include <stdio.h>
#include <stdlib.h>
#include <string.h>
#include <sys/mman.h>
#include <unistd.h>

#include "plane.h"

static unsigned long checks, failures, reported;

void check_that(int holds, const char *what, const char *file, int line)
{
    checks++;
    if (holds)
        return;
    failures++;
    if (failures <= 20)
        fprintf(stderr, "%s:%d: does not hold: %s\n", file, line, what);
}

unsigned long check_group(const char *name)
{
    printf("%-12s %lu checks\n", name, checks - reported);
    reported = checks;
    return failures;
}

uint64_t random_next(uint64_t *state)
{
    uint64_t z = *state += UINT64_C(0x9e3779b97f4a7c15);
    z = (z ^ (z >> 30)) * UINT64_C(0xbf58476d1ce4e5b9);
    z = (z ^ (z >> 27)) * UINT64_C(0x94d049bb133111eb);
    return z ^ (z >> 31);
}

struct guarded guarded_of(size_t bytes, enum guard_side side)
{
    size_t page = (size_t)sysconf(_SC_PAGESIZE);
    size_t inner = (bytes + page - 1) / page * page;
    struct guarded g;
    g.length = inner + 2 * page;
    g.pages = mmap(NULL, g.length, PROT_NONE, MAP_PRIVATE | MAP_ANONYMOUS, -1, 0);
    if (g.pages == MAP_FAILED || (inner && mprotect((char *)g.pages + page, inner, PROT_READ | PROT_WRITE) != 0)) {
        perror("mmap");
        exit(1);
    }
    g.bytes = (uint8_t *)g.pages + page + (side == GUARD_BEHIND ? inner - bytes : 0);
    return g;
}

void guarded_free(struct guarded *g)
{
    munmap(g->pages, g->length);
}

int8_t *guarded_vectors(const struct guarded *g)
{
    return (int8_t *)g->bytes;
}

void guarded_seal(const struct guarded *g)
{
    size_t page = (size_t)sysconf(_SC_PAGESIZE), inner = g->length - 2 * page;
    if (inner && mprotect((char *)g->pages + page, inner, PROT_READ) != 0) {
        perror("mprotect");
        exit(1);
    }
}

/* Codes 0, 1, 2, .. of `length` bits. */
static size_t plain_table(uint8_t *book, size_t at, unsigned entries, unsigned length)
{
    for (unsigned k = 0; k < entries; k++, at++) {
        book[3 * at] = (uint8_t)(k >> 8);
        book[3 * at + 1] = (uint8_t)k;
        book[3 * at + 2] = (uint8_t)length;
    }
    return at;
}

static struct tables made;

const struct tables *tables(void)
{
    static int ready;
    if (ready)
        return &made;
    CHECK(cabunlis_house_book(made.book, sizeof made.book) == 0);
    CHECK(cabunlis_house_codebook(made.codebook, sizeof made.codebook) == 0);
    size_t at = plain_table(made.plain, 0, 4, 2);
    at = plain_table(made.plain, at, 64, 6);
    at = plain_table(made.plain, at, 256, 8);
    at = plain_table(made.plain, at, 512, 9);
    for (int level = 0; level < 12; level++)
        at = plain_table(made.plain, at, 8, 3);
    CHECK(at == BOOK_ENTRIES);
    ready = 1;
    return &made;
}

const struct book_table BOOK_TABLES[BOOK_TABLE_COUNT] = {
    {"mode", 4}, {"vector", 64}, {"intramean", 256}, {"intermean", 512}, {"intrastage", 48}, {"interstage", 48},
};

struct book_lines book_lines_in_order(void)
{
    struct book_lines lines;
    memset(&lines, 0, sizeof lines);
    lines.count = lines.odd = BOOK_ENTRIES;
    for (size_t k = 0; k < BOOK_ENTRIES; k++)
        lines.entry[k] = k;
    return lines;
}

size_t book_text_of(char *text, const uint8_t *book, const struct book_lines *lines)
{
    size_t n = 0;
    for (size_t k = 0; k < lines->count; k++) {
        size_t at = lines->entry[k], t = 0, p = at;
        while (p >= BOOK_TABLES[t].entries)
            p -= BOOK_TABLES[t++].entries;
        const uint8_t *e = book + 3 * at;
        int odd = at == lines->odd;
        unsigned length = odd ? lines->length : e[2], value = odd ? lines->value : e[0] * 256u + e[1];
        n += (size_t)snprintf(text + n, BOOK_FILE_MOST - n, "%s,%zu,%u,%u\n", BOOK_TABLES[t].name, p, length, value);
    }
    return n;
}

size_t book_file_of(char *file, const uint8_t *book)
{
    struct book_lines lines = book_lines_in_order();
    return book_text_of(file, book, &lines);
}
