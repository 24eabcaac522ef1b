/* What the tests share: checks that count, guarded memory, random numbers, a second book. */
#ifndef CABUNLIS_HOST_CHECK_H
#define CABUNLIS_HOST_CHECK_H

#include <stddef.h>
#include <stdint.h>

#include "cabunlis.h"

/* Counts a check; one that fails is printed with its place. */
#define CHECK(what) check_that((what) != 0, #what, __FILE__, __LINE__)

void check_that(int holds, const char *what, const char *file, int line);

/* Prints the name of a group and how many checks it had; answers how many have failed so far. */
unsigned long check_group(const char *name);

/* SplitMix64. */
uint64_t random_next(uint64_t *state);

/* Memory of exactly `bytes` bytes against a page that may not be touched: behind its end, or before its beginning. */
enum guard_side { GUARD_BEHIND, GUARD_BEFORE };
struct guarded { uint8_t *bytes; void *pages; size_t length; };
struct guarded guarded_of(size_t bytes, enum guard_side side);
void guarded_free(struct guarded *g);
int8_t *guarded_vectors(const struct guarded *g);

/* From here on its bytes may only be read. */
void guarded_seal(const struct guarded *g);

/* The built-in book and codebook, and a book of codes that all have one length in their table. */
struct tables { uint8_t book[CABUNLIS_BOOK_BYTES], plain[CABUNLIS_BOOK_BYTES], codebook[CABUNLIS_CODEBOOK_BYTES]; };
const struct tables *tables(void);

/* The tables of a book file, in the book's order. */
enum { BOOK_TABLE_COUNT = 6, BOOK_ENTRIES = 932, BOOK_FILE_MOST = 40000 };
extern const struct book_table { const char *name; unsigned entries; } BOOK_TABLES[BOOK_TABLE_COUNT];

/* The lines of a book file: the entry that each speaks of. Entry `odd` gets another length and value; BOOK_ENTRIES means none. */
struct book_lines { size_t entry[BOOK_ENTRIES + 1], count, odd; unsigned length, value; };

/* Each entry once, in the order of the file. */
struct book_lines book_lines_in_order(void);

/* Lines of a book as text, at most BOOK_FILE_MOST bytes. Answers its length. */
size_t book_text_of(char *text, const uint8_t *book, const struct book_lines *lines);

/* A book as its file. */
size_t book_file_of(char *file, const uint8_t *book);

void test_cards(void);
void test_refusals(void);
void test_round_trips(void);
void test_margins(void);
void test_pictures(void);
void test_picture_refusals(void);
void test_damaged(void);
void test_visible(void);
void test_rooms(void);
void test_books(void);
void test_short(void);
void test_threads(void);

#endif
