/*
 * Cabunlis: inter planes of SVQ1 (Sorenson Video 1), written and read back.
 *
 * The built-in ("house") book and codebook stand in for the format's own tables and are not them: what is written under them plays
 * in this library alone. Any other book and codebook can be lent in their place; the format's own are not part of this library.
 * Picture headers and key pictures are not written here either: a picture is three planes, and the planes' bits are all that there
 * is.
 *
 * For x86-64 Linux (ELF, System V calls). The library calls memcpy, memmove and memset, nothing else; it may stand in a program or
 * in a shared object, position-independent or not. C99 and later, C++98 and later. Link:
 *     cc program.c $(pkg-config --cflags --libs cabunlis)      (where it is installed: ./install)
 *     cc program.c -Iinclude target/staticlib/libcabunlis.a    (in the repository, after host/build-library)
 *
 * What every entry has in common
 *
 * - A slice is a pointer and a length in elements. The caller sees to it that the pointer is valid for so many elements and is not
 *   NULL, not even that of a slice of length 0. Nothing can check that: it is what the proofs assume of a caller.
 * - The same holds of this: a slice that an entry writes (out, vx, vy, stated; recon, book and codebook where they are filled)
 *   overlaps no other slice of the same call, in a picture none of the other planes' slices either, and nobody else reads or
 *   writes it during the call. A slice of length 0 overlaps nothing. Slices that are only read may overlap each other, also those
 *   of several planes of a picture; nobody writes them during the call.
 * - Nothing is kept between calls and nothing is allocated. Calls on slices of their own may run on any number of threads at once.
 * - Every call ends, touches nothing outside the slices, and refuses what it cannot take by a number (below). A refused call
 *   leaves every slice as it was, except where the number says that it came in the middle of a plane.
 * - Stack: at most CABUNLIS_STACK_BYTES a call.
 *
 * What an entry answers, and every byte that it leaves, is proved. That this header says the same as the library, and the stack,
 * are tested and not proved; so are the short calls at the end of the header, which are C.
 *
 * Words
 *
 * A source is width x height samples, row by row, packed: the first sample of a row comes directly behind the last one of the row
 * above.
 *
 * A plane of width x height samples is written against a reference: a canvas of stride x rows samples, row by row, where stride
 * and rows are width and height rounded up to a multiple of 16. The first `width` samples of its first `height` rows are the
 * plane's; the others may hold anything, but they are predicted from like the rest, so the reader has to be lent the same
 * reference as the writer. What a call leaves in `recon` is such a canvas, and serves as it is as the reference of the next plane:
 * keep two canvases and let them change places. The padded source is the source with its last column and row repeated up to stride
 * and rows.
 *
 * The canvas is divided into 16 x 16 macroblocks, row by row, so there are (stride / 16) * (rows / 16). An 8 x 8 block (row r,
 * column c) has its motion vector, in half samples and from -32 to 31 on each axis, at r * (stride / 8) + c of vx and vy: four a
 * macroblock, the same one four times where it has one, zeros where it is skipped or intra. Samples that a vector reads outside the
 * canvas are the nearest ones at its edge.
 *
 * A bit string is bytes, the highest bit of a byte first. Bits are counted from the first of the slice, whatever the start bit.
 *
 * A picture is three planes, each of its own size and with its own source and reference, one behind the other in one bit string.
 * There are always three: none can be left out, and a size of 0 is refused (1). Nothing is predicted from one plane to another.
 *
 * Questions
 *
 * - Does a stream tell its length? No. It carries neither its length nor the plane's size, tables or settings: the host has to send
 *   what the reader has to be lent. A plane ends with its last macroblock; the answer's `next` says where, and bits behind it
 *   change nothing.
 * - How do several planes stand in one string? Each starts at the `next` of the one before, at whatever bit that is. Their rooms
 *   add up: planes that follow each other from bit 0 all fit into the sum of their rooms. The picture call writes three planes so.
 *   There is no reader of pictures: read plane by plane, each from the `next` of the one before.
 * - How to keep a picture within what the link carries? Write it by the picture call, which takes an allowance of bits for its
 *   three planes together and never passes it. The reader needs no allowance.
 * - How to start without a key picture? Lend both sides the same first reference, whatever it holds, such as a canvas of 128
 *   everywhere. The first plane then codes most of the picture anew. After a loss, both sides start so again.
 * - What to put into `recon` before reading? A plane that is cut or damaged ends at a macroblock, and the samples behind it stay as
 *   they were. Copy the reference into `recon` (stride x rows bytes) before the call, and set vx and vy to 0: what was not read
 *   then shows the picture before, as if it were skipped, and no stale samples.
 *
 * A plane of 176 x 144 written, and read back
 *
 *     enum { W = 176, H = 144, BLOCKS = (W / 16) * (H / 16) };
 *     static uint8_t book[CABUNLIS_BOOK_BYTES], codebook[CABUNLIS_CODEBOOK_BYTES];
 *     static uint8_t source[W * H], reference[W * H], recon[W * H];
 *     static int8_t vx[4 * BLOCKS], vy[4 * BLOCKS];
 *     static struct cabunlis_plane plane; // static, so all zeros before it is filled
 *     static struct cabunlis_settings settings;
 *
 *     cabunlis_house_book(book, sizeof book);
 *     cabunlis_house_codebook(codebook, sizeof codebook);
 *     struct cabunlis_tables tables = {book, sizeof book, codebook, sizeof codebook};
 *     size_t room = cabunlis_plane_room_under(W, H, book, sizeof book).bytes;
 *     struct cabunlis_output output = {(uint8_t *)malloc(room), room, 0};
 *     plane.width = plane.stride = W; // 176 and 144 are multiples of 16
 *     plane.height = plane.rows = H;
 *     plane.source = source, plane.source_length = sizeof source;
 *     plane.reference = reference, plane.reference_length = sizeof reference;
 *     plane.recon = recon, plane.recon_length = sizeof recon;
 *     plane.vx = vx, plane.vx_length = sizeof vx;
 *     plane.vy = vy, plane.vy_length = sizeof vy;
 *     settings.lambda = 32, settings.radius = 8, settings.four = 1, settings.margin = 0;
 *
 *     struct cabunlis_answer a = cabunlis_write(&plane, &tables, &settings, &output);
 *     // a.refusal is 0, a.done is BLOCKS, a.next is the plane's last bit + 1: send (a.next + 7) / 8 bytes
 *     struct cabunlis_input input = {output.bytes, (a.next + 7) / 8, 0};
 *     struct cabunlis_answer b = cabunlis_read(&plane, &tables, &input);
 *     // b.next is a.next, and recon, vx and vy are what the writer left
 *     struct cabunlis_visible shown = cabunlis_visible_error(W, H, W, H, source, sizeof source, recon, sizeof recon);
 *     // shown.error is a.error, for no sample lies beyond the picture
 */
#ifndef CABUNLIS_H
#define CABUNLIS_H

#include <stddef.h>
#include <stdint.h>

/*
 * The version. MAJOR is the interface's number: it is raised with every change of an entry's arguments or of a struct that it
 * answers, and each entry's symbol in the library carries it. So a program that was compiled with another interface's header does
 * not link, and never runs with its arguments shifted. MINOR is raised when something is added, or answered otherwise under the
 * same arguments and structs, PATCH with the rest.
 */
#define CABUNLIS_VERSION_MAJOR 2
#define CABUNLIS_VERSION_MINOR 1
#define CABUNLIS_VERSION_PATCH 0

/* One number that grows with the version, for #if (1.2.3 is 1002003), and text, as "1.2.3". */
#define CABUNLIS_VERSION_NUMBER (CABUNLIS_VERSION_MAJOR * 1000000 + CABUNLIS_VERSION_MINOR * 1000 + CABUNLIS_VERSION_PATCH)
#define CABUNLIS_VERSION \
    CABUNLIS_TEXT(CABUNLIS_VERSION_MAJOR) "." CABUNLIS_TEXT(CABUNLIS_VERSION_MINOR) "." CABUNLIS_TEXT(CABUNLIS_VERSION_PATCH)
#define CABUNLIS_TEXT(number) CABUNLIS_TEXT_OF(number)
#define CABUNLIS_TEXT_OF(number) #number

/* The entries' symbols: cabunlis2_encode_inter_plane and so on. Debuggers show these names. */
#define CABUNLIS_ENTRY(name) CABUNLIS_ENTRY_OF(CABUNLIS_VERSION_MAJOR, name)
#define CABUNLIS_ENTRY_OF(major, name) CABUNLIS_ENTRY_NAME(major, name)
#define CABUNLIS_ENTRY_NAME(major, name) cabunlis##major##_##name
#define cabunlis_encode_inter_plane CABUNLIS_ENTRY(encode_inter_plane)
#define cabunlis_encode_inter_plane_stated CABUNLIS_ENTRY(encode_inter_plane_stated)
#define cabunlis_encode_picture CABUNLIS_ENTRY(encode_picture)
#define cabunlis_decode_inter_plane CABUNLIS_ENTRY(decode_inter_plane)
#define cabunlis_visible_error CABUNLIS_ENTRY(visible_error)
#define cabunlis_plane_room CABUNLIS_ENTRY(plane_room)
#define cabunlis_plane_room_under CABUNLIS_ENTRY(plane_room_under)
#define cabunlis_read_book_file CABUNLIS_ENTRY(read_book_file)
#define cabunlis_write_book_file CABUNLIS_ENTRY(write_book_file)
#define cabunlis_house_book CABUNLIS_ENTRY(house_book)
#define cabunlis_house_codebook CABUNLIS_ENTRY(house_codebook)

#ifdef __cplusplus
extern "C" {
#endif

/* The largest width and the largest height. */
#define CABUNLIS_LARGEST_SIDE 1024

/*
 * A book: 932 entries of three bytes, the code's high byte, its low byte and its length in bits, 1 to 32; a code of more than 16
 * bits begins with zeros. In order: 4 modes (INTER, INTER_4MV, INTRA, SKIP), 64 vector differences (-32 to 31), 256 intra means,
 * 512 inter means (-256 to 255), then 48 entries of the intra stages and 48 of the inter stages (eight for each level, 0 to 5:
 * skip, then 0 to 6 stages). That makes sixteen tables: four, and six of eight entries for each half's stages.
 */
#define CABUNLIS_BOOK_BYTES 2796

/*
 * A codebook: signed bytes, two's complement. A page has six stages of sixteen vectors, one behind the other, each as long as a
 * block of its level: level 3 is 8 x 8 samples, level 2 is 8 wide and 4 high, level 1 is 4 x 4, level 0 is 4 wide and 2 high.
 * Levels 4 and 5 have no page. Where a page begins, intra and inter: level 3 at 0 and 6,144, level 2 at 12,288 and 15,360, level 1
 * at 18,432 and 19,968, level 0 at 21,504 and 22,272. A vector's samples go row by row; those of levels 3 and 2 by tiles of 4 x 4,
 * tile by tile in rows, each row by row.
 */
#define CABUNLIS_CODEBOOK_BYTES 23040

/* The longest bit string, in bytes. */
#define CABUNLIS_MOST_BYTES ((size_t)1 << 28)

/* Stack that a call may take, in bytes. Measured: a plane written 45,184, a picture 45,792, the reader 44,112, a book file read
 * 8,104 and written 4,488, a room under a book 4,296, the visible error 664, the others next to nothing. */
#define CABUNLIS_STACK_BYTES 49152

/* The refusals that a C host can meet; no other number comes. */
enum cabunlis_refusal {
    CABUNLIS_OK = 0,
    /* width or height 0 or above 1,024 */
    CABUNLIS_ERR_SIZE = 1,
    /* source length not width x height */
    CABUNLIS_ERR_SOURCE = 2,
    /* stride or rows not the size rounded up to 16 */
    CABUNLIS_ERR_STRIDE = 3,
    /* length of reference, or of recon where it is only read, not stride x rows */
    CABUNLIS_ERR_REFERENCE = 4,
    /* book or codebook of another size; a line of a book file malformed, missing or doubled */
    CABUNLIS_ERR_TABLES = 5,
    /* a code's length outside 1 to 32, or its value not below 2^length */
    CABUNLIS_ERR_CODE = 6,
    /* in one of the sixteen tables a code begins another or equals it */
    CABUNLIS_ERR_PREFIX = 7,
    /* reader: the bits left neither begin with a code nor are the start of one */
    CABUNLIS_ERR_NO_CODE = 10,
    /* reader: an intra leaf that skips, or stages at level 4 or 5 */
    CABUNLIS_ERR_LEAF = 11,
    /* vx or vy shorter than four entries a macroblock, or the slice for a book's file shorter than the file (longer is fine, the
     * rest stays); or recon length not stride x rows */
    CABUNLIS_ERR_RESULTS = 20,
    /* bit string longer than CABUNLIS_MOST_BYTES, or start bit beyond its end: above 8 x its length */
    CABUNLIS_ERR_BITS = 21,
    /* writer: the next macroblock does not fit into `out` */
    CABUNLIS_ERR_FULL = 22,
    /* reader: the bits end before the last macroblock is whole */
    CABUNLIS_ERR_CUT = 24,
    /* a book file that has every line once, and not in the order of the book; tested behind 5 and before 6 */
    CABUNLIS_ERR_ORDER = 30,
    /* picture: an allowance below the length of SKIP's code x the macroblocks of the three planes; tested behind all checks of the
     * three planes */
    CABUNLIS_ERR_ALLOWANCE = 31
};

/*
 * What a plane call answers. Where refusal is 0 the plane is whole. Where it is 10, 11, 22 or 24 the call came to the macroblock of
 * index `macroblock`: those before it are done, with their bits, samples and vectors, the rest is untouched, and `next` is where it
 * begins. With any other refusal nothing is done and every other field is 0. The lowest number that applies is answered, 20 and 21
 * behind 1 to 7. A picture has such an answer for each plane (below); there a plane with refusal 0 may also not have been reached.
 */
struct cabunlis_answer {
    uint32_t refusal;
    size_t macroblock; /* its index with 10, 11, 22 and 24, else 0 */
    size_t done;       /* macroblocks done */
    size_t next;       /* the bit behind them, counted from the first of the slice */
    uint64_t bits;     /* writer: their bits; reader: 0 */
    uint64_t error;    /* writer: their squared error against the padded source; reader: 0 */
};

/*
 * Writes a plane from bit `start` of `out` on.
 *
 * lambda weighs bits against squared error: a macroblock is coded in the way of least error + lambda x bits, at equal cost the one
 * of fewest bits, then the first of SKIP, INTER, INTRA and INTER_4MV. Any 64-bit number is taken; 0 buys every gain, 32 is a fair
 * start. Costs are counted to 2^64 - 1 and no further: up to a lambda of 2^48 none comes to that, above it several may, and are
 * then equal. radius is the search's, any number from 0 to 255: the zero vector is tried, then those that lie up to so many whole
 * samples to each side of the vector predicted from the neighbours, then the half samples around the best; so a vector may be
 * longer than the radius, and a radius above 31 finds nothing more. Four vectors a macroblock are tried unless `four` is 0.
 *
 * margin is what a stage has to earn. A block is shown as its prediction plus a mean and up to six vectors of the codebook, one
 * behind the other, each a stage of four bits. A stage stays exactly if the squared error of its block before it is greater than
 * that after it plus the margin; the first that does not ends the block's stages. Any 32-bit number is taken, and no sum with it
 * wraps: 0 keeps every stage that lessens the error at all, and from 16,646,400 on none stays. What it does to the picture: what a
 * stage that goes would have drawn is missing, and a block's error is never less at a greater margin. What it does to the bits: a
 * stage that goes takes its four bits with it, and the code that counts the stages is another one. Of a whole plane neither has to
 * follow, for with other blocks a tree may be split otherwise and another mode be cheapest. In the drawn scenes that are measured,
 * at lambda 32, a margin of 64 takes up to 2% off the bits and less than 0.1 dB off luma, one of 1,024 takes off 9% to 16% and 0.7
 * to 1.0 dB; the time is the same. A margin is no part of what is written, and the reader needs none.
 *
 * Time grows with the number of macroblocks, up to a radius of 32 with the radius (by half from 8 to 32), and with how little of
 * the picture is known from the one before: where it is all noise, the worst measured, a macroblock takes two to three times as
 * long as in a drawn scene. On one core of a server, in pictures of three planes a second at radius 8 and 32: luma of 176 x 144
 * drawn 134 and 97, noise 42 to 50 and 35 to 40; of 352 x 288 drawn 36 and 24, noise 13 and 10. These were taken of the library
 * that an older kit built.
 *
 * Leaves: in `out` the bits of the macroblocks done, zeros behind them to the end of their last byte, everything else as it was,
 * the bits before `start` too (where none is done, every byte); in `recon` their samples as a reader shows them; in `vx` and `vy`
 * their vectors.
 *
 * Refusals: 1 to 7, 20, 21; 22 with the macroblock that does not fit.
 */
struct cabunlis_answer cabunlis_encode_inter_plane(
    size_t width, size_t height, size_t stride, size_t rows,
    const uint8_t *source, size_t source_length,
    const uint8_t *reference, size_t reference_length,
    const uint8_t *book, size_t book_length,
    const uint8_t *codebook, size_t codebook_length,
    uint64_t lambda, uint8_t radius, uint8_t four, uint32_t margin,
    uint8_t *out, size_t out_length, size_t start,
    uint8_t *recon, size_t recon_length,
    int8_t *vx, size_t vx_length,
    int8_t *vy, size_t vy_length);

/* How a macroblock is coded. */
enum cabunlis_mode {
    CABUNLIS_INTER = 0,
    CABUNLIS_INTER_4MV = 1,
    CABUNLIS_INTRA = 2,
    CABUNLIS_SKIP = 3
};

/*
 * The same, and in `stated` three numbers for each macroblock done, as far as it has room for all three: its mode (enum
 * cabunlis_mode), its bits, its squared error against the padded source. What lies behind them stays. `stated` is aligned as a
 * uint32_t is, to four bytes; its length is in numbers, not in bytes, and may be 0.
 */
struct cabunlis_answer cabunlis_encode_inter_plane_stated(
    size_t width, size_t height, size_t stride, size_t rows,
    const uint8_t *source, size_t source_length,
    const uint8_t *reference, size_t reference_length,
    const uint8_t *book, size_t book_length,
    const uint8_t *codebook, size_t codebook_length,
    uint64_t lambda, uint8_t radius, uint8_t four, uint32_t margin,
    uint8_t *out, size_t out_length, size_t start,
    uint8_t *recon, size_t recon_length,
    int8_t *vx, size_t vx_length,
    int8_t *vy, size_t vy_length,
    uint32_t *stated, size_t stated_length);

/*
 * What the picture call answers: the picture's refusal, 0 for none, and for each plane what a plane call answers.
 *
 * Where refusal is 0 all three planes are whole. Where it is 22 the planes before the one that answers 22 are whole, that one is
 * written up to the macroblock that does not fit, and those behind it are not reached: their refusal is 0, nothing of them is done
 * or changed, their totals are 0, and their `next` is the bit where writing ended. So in both cases planes[2].next is the bit
 * behind everything that was written. With any other refusal nothing is done and every other field is 0, but that the plane whose
 * checks met the refusal answers it too; with 31 no plane does. Whether the allowance limited anything is not answered.
 */
struct cabunlis_picture_answer {
    uint32_t refusal;
    size_t macroblock;                /* its index with 22, counted through the planes, else 0 */
    size_t done;                      /* macroblocks done in all planes */
    struct cabunlis_answer planes[3]; /* a macroblock's index is within its plane; bits and error are the plane's */
};

/*
 * Writes three planes one behind the other, from bit `start` of `out` on, in at most `allowance` bits. Each plane has its size, its
 * source, its reference and the slices that are written, as cabunlis_encode_inter_plane_stated takes them: a slice `stated` may
 * have length 0, but its pointer is never NULL. Book, codebook, lambda, radius, four, margin and `out` are one for the picture.
 *
 * The allowance counts the bits of this picture and not those before `start`; any 64-bit number from the least on is taken (31),
 * and 2^64 - 1 limits nothing. The least is book[3 * CABUNLIS_SKIP + 2], the length of SKIP's code, times the macroblocks of all
 * three planes. A mode fits if, after its bits, what is left of the allowance still holds a SKIP code for each macroblock to come,
 * in this plane and in those behind it. Of the modes that fit, that of least error + lambda x bits is written, ties as in a plane
 * alone. SKIP itself always fits, so the picture's bits never pass the allowance. The modes are those that a plane alone would try,
 * with the same trees and vectors: none is made cheaper so that it fits. Where every first choice fits, each plane that is reached
 * has the bits, samples, vectors and answer that a plane call from the bit where it begins would give.
 *
 * The allowance is spent from the first macroblock on, and nothing is held back for later ones but their SKIP codes. Where it is
 * short, it is short at the picture's end: most of the last rows of a plane and of the planes behind it are then skipped and show
 * their references, however much they have changed. So the plane that matters most stands first, and a host that would rather have
 * it short everywhere takes a greater lambda. Up to a lambda of 2^48 no plane that is written whole costs more, in error + lambda x
 * bits, than skipping all of it would, whatever the allowance. A short allowance saves bits and no time: every mode is tried all
 * the same.
 *
 * Room in `out` is no part of fitting. The mode chosen goes in, or the call ends with 22, though SKIP would have gone in. 22 cannot
 * come where the allowance fits behind the start bit (allowance <= 8 * out_length - start), nor where the rooms of the three planes
 * do (start + 8 * their sum <= 8 * out_length).
 *
 * To read the picture, read plane 0 from `start`, plane 1 from planes[0].next, plane 2 from planes[1].next. The reader's own
 * answers have the same `next`, so the host sends only what it sends for planes.
 *
 * Leaves: in `out` the bits of the macroblocks done, plane behind plane without a gap, zeros behind them to the end of their last
 * byte, everything else as it was, the bits before `start` too (where none is done, every byte); in the slices of each plane what a
 * plane call leaves there of the macroblocks done, and nothing changed in those of a plane that is not reached.
 *
 * Refusals, tested in this order: 1 to 7, 20 and 21 of plane 0, then those of plane 1, then those of plane 2, each plane through
 * all of them before the next; then 31, where the allowance is below the length of SKIP's code in the book x the macroblocks of all
 * three planes (equal is enough). Then, while writing, 22 with the macroblock that does not fit. What the planes share is judged in
 * plane 0's turn, so of the planes behind it only 1 to 4 and 20 are met.
 */
struct cabunlis_picture_answer cabunlis_encode_picture(
    size_t width0, size_t height0, size_t stride0, size_t rows0,
    const uint8_t *source0, size_t source0_length,
    const uint8_t *reference0, size_t reference0_length,
    uint8_t *recon0, size_t recon0_length,
    int8_t *vx0, size_t vx0_length,
    int8_t *vy0, size_t vy0_length,
    uint32_t *stated0, size_t stated0_length,
    size_t width1, size_t height1, size_t stride1, size_t rows1,
    const uint8_t *source1, size_t source1_length,
    const uint8_t *reference1, size_t reference1_length,
    uint8_t *recon1, size_t recon1_length,
    int8_t *vx1, size_t vx1_length,
    int8_t *vy1, size_t vy1_length,
    uint32_t *stated1, size_t stated1_length,
    size_t width2, size_t height2, size_t stride2, size_t rows2,
    const uint8_t *source2, size_t source2_length,
    const uint8_t *reference2, size_t reference2_length,
    uint8_t *recon2, size_t recon2_length,
    int8_t *vx2, size_t vx2_length,
    int8_t *vy2, size_t vy2_length,
    uint32_t *stated2, size_t stated2_length,
    const uint8_t *book, size_t book_length,
    const uint8_t *codebook, size_t codebook_length,
    uint64_t lambda, uint8_t radius, uint8_t four, uint32_t margin, uint64_t allowance,
    uint8_t *out, size_t out_length, size_t start);

/*
 * Reads a plane from bit `start` of `bytes` on. Leaves the samples of the macroblocks done in `recon`, their vectors in `vx` and
 * `vy`, and everything else as it was.
 *
 * Refusals: 1, 3 to 7, 20, 21; 10, 11 and 24 with the macroblock met.
 */
struct cabunlis_answer cabunlis_decode_inter_plane(
    size_t width, size_t height, size_t stride, size_t rows,
    const uint8_t *reference, size_t reference_length,
    const uint8_t *book, size_t book_length,
    const uint8_t *codebook, size_t codebook_length,
    const uint8_t *bytes, size_t bytes_length, size_t start,
    uint8_t *recon, size_t recon_length,
    int8_t *vx, size_t vx_length,
    int8_t *vy, size_t vy_length);

/* What cabunlis_visible_error answers: 0 and the error, or a refusal and 0. */
struct cabunlis_visible {
    uint32_t refusal;
    uint64_t error;
};

/*
 * The squared error of a canvas against a source over the samples that the panel shows, the first `width` of each of the first
 * `height` rows: the squares of their differences from the source's samples at the same places, summed. What the canvas holds
 * beyond them does not count.
 *
 * The writer's `error` and the errors in `stated` are another figure, by which the writer chooses: they are taken over whole
 * macroblocks, against the padded source. This one is what the program `listing` prints. Of a plane that was written whole it is
 * never above the writer's, and where width and height are multiples of 16 it equals that.
 *
 * It may be asked of any source and any canvas of a size: of what the writer left, of what the reader left, also where the plane
 * ended early, of a reference. Both slices are only read; no byte is changed.
 *
 * Refusals: 1 to 4, the lowest that applies.
 */
struct cabunlis_visible cabunlis_visible_error(
    size_t width, size_t height, size_t stride, size_t rows,
    const uint8_t *source, size_t source_length,
    const uint8_t *recon, size_t recon_length);

/* What a room call answers: 0 and the bytes, or a refusal and 0. */
struct cabunlis_room {
    uint32_t refusal;
    size_t bytes;
};

/*
 * How many bytes a plane of this size takes at most under any book that 5, 6 and 7 do not refuse. With that many bytes behind its
 * start bit (start + 8 * bytes <= 8 * out_length) a plane that is not refused is written to its last macroblock: 22 cannot come.
 * Refusal: 1.
 */
struct cabunlis_room cabunlis_plane_room(size_t width, size_t height);

/* The same under this book: usually much less. Refusals: 1, 5, 6, 7. */
struct cabunlis_room cabunlis_plane_room_under(size_t width, size_t height, const uint8_t *book, size_t book_length);

/*
 * A book file is a book as text: a line `table,position,length,code` for each of its 932 entries, ended by a line feed, in the
 * order of the book. The tables are mode, vector, intramean, intermean, intrastage and interstage, one behind the other, and in
 * each the positions rise from 0 on. All numbers are decimal and without leading zeros. So a book has one file, and two books are
 * the same exactly where their files are. The built-in book's begins
 *
 *     mode,0,3,2
 *     mode,1,3,3
 *     mode,2,5,4
 *     mode,3,1,1
 *     vector,0,13,65
 */

/* The longest file of a book that 5, 6 and 7 do not refuse, in bytes; no file that is read without a refusal is longer. */
#define CABUNLIS_MOST_BOOK_FILE_BYTES 20902

/*
 * Reads a book file into `book`, which is written whole, or not at all where the file is refused. Answers 0 or a refusal.
 *
 * Refusals, tested in this order: 5 (also where `book` has another length), 30, 6, 7. Each is judged on the whole file: where a
 * line is malformed, missing or doubled, 5 comes before 30 wherever they stand, and a file in another order is 30 whatever its
 * codes are.
 */
uint32_t cabunlis_read_book_file(const uint8_t *file, size_t file_length, uint8_t *book, size_t book_length);

/* What writing a book's file answers: 0 and how many bytes the file has, or a refusal and 0. */
struct cabunlis_written {
    uint32_t refusal;
    size_t bytes;
};

/*
 * Writes the file of `book` to the front of `out`; CABUNLIS_MOST_BOOK_FILE_BYTES are room for any. Leaves in `out` the file, and
 * what lies behind it as it was; where the call is refused, every byte. `book` is only read. The first `bytes` bytes of `out` are
 * the file: reading them gives the same book back, while with anything behind the last line feed they are no file (5).
 *
 * Refusals, tested in this order: 5, 6 and 7 of the book, then 20 where `out` is shorter than the file; as long is enough.
 */
struct cabunlis_written cabunlis_write_book_file(const uint8_t *book, size_t book_length, uint8_t *out, size_t out_length);

/*
 * Fill `book` and `codebook` with the built-in ones. Answer 0, or 5 where the slice has another length; then it stays as it was.
 * Entry by entry the book is that of its rule, and byte i of the codebook stands for ((37 i + i / 16) mod 61) - 30, i / 16 rounded
 * down; the program print_house works both out from their rules and prints them as text.
 */
uint32_t cabunlis_house_book(uint8_t *book, size_t book_length);
uint32_t cabunlis_house_codebook(uint8_t *codebook, size_t codebook_length);

/*
 * The short calls: the plane entries and the picture's with their arguments gathered in structs. They are C and not proved; each
 * passes every field on to the argument of its name and does nothing else. A struct has to be all zeros before it is filled in
 * (static, memset, {0} in C, {} in C++), or is filled in by braces, which set what they leave out to zero: a later version may
 * append fields, and zero will mean what was before.
 */

/* A plane's size, its canvas, and its slices; lengths in elements. */
struct cabunlis_plane {
    size_t width, height;
    size_t stride, rows;
    const uint8_t *source; /* the reader does not look at it */
    size_t source_length;
    const uint8_t *reference;
    size_t reference_length;
    uint8_t *recon;
    size_t recon_length;
    int8_t *vx;
    size_t vx_length;
    int8_t *vy;
    size_t vy_length;
    uint32_t *stated; /* NULL where nothing is to be stated; the reader does not look at it */
    size_t stated_length;
};

/* The book and the codebook. */
struct cabunlis_tables {
    const uint8_t *book;
    size_t book_length;
    const uint8_t *codebook;
    size_t codebook_length;
};

/* How the writer chooses. */
struct cabunlis_settings {
    uint64_t lambda;
    uint8_t radius;
    uint8_t four;
    uint32_t margin;
};

/* The bits to be written, and to be read, from a start bit on. */
struct cabunlis_output {
    uint8_t *bytes;
    size_t length;
    size_t start;
};

struct cabunlis_input {
    const uint8_t *bytes;
    size_t length;
    size_t start;
};

/* cabunlis_encode_inter_plane_stated, or cabunlis_encode_inter_plane where `stated` is NULL. */
static inline struct cabunlis_answer cabunlis_write(
    const struct cabunlis_plane *plane, const struct cabunlis_tables *tables, const struct cabunlis_settings *settings,
    const struct cabunlis_output *output)
{
    if (plane->stated)
        return cabunlis_encode_inter_plane_stated(
            plane->width, plane->height, plane->stride, plane->rows,
            plane->source, plane->source_length,
            plane->reference, plane->reference_length,
            tables->book, tables->book_length,
            tables->codebook, tables->codebook_length,
            settings->lambda, settings->radius, settings->four, settings->margin,
            output->bytes, output->length, output->start,
            plane->recon, plane->recon_length,
            plane->vx, plane->vx_length,
            plane->vy, plane->vy_length,
            plane->stated, plane->stated_length);
    return cabunlis_encode_inter_plane(
        plane->width, plane->height, plane->stride, plane->rows,
        plane->source, plane->source_length,
        plane->reference, plane->reference_length,
        tables->book, tables->book_length,
        tables->codebook, tables->codebook_length,
        settings->lambda, settings->radius, settings->four, settings->margin,
        output->bytes, output->length, output->start,
        plane->recon, plane->recon_length,
        plane->vx, plane->vx_length,
        plane->vy, plane->vy_length);
}

/* cabunlis_encode_picture; a plane whose `stated` is NULL lends a slice of length 0 for it. */
static inline struct cabunlis_picture_answer cabunlis_write_picture(
    const struct cabunlis_plane planes[3], const struct cabunlis_tables *tables, const struct cabunlis_settings *settings,
    uint64_t allowance, const struct cabunlis_output *output)
{
    uint32_t none = 0; /* what such a slice points to */
    return cabunlis_encode_picture(
        planes[0].width, planes[0].height, planes[0].stride, planes[0].rows,
        planes[0].source, planes[0].source_length,
        planes[0].reference, planes[0].reference_length,
        planes[0].recon, planes[0].recon_length,
        planes[0].vx, planes[0].vx_length,
        planes[0].vy, planes[0].vy_length,
        planes[0].stated ? planes[0].stated : &none, planes[0].stated ? planes[0].stated_length : 0,
        planes[1].width, planes[1].height, planes[1].stride, planes[1].rows,
        planes[1].source, planes[1].source_length,
        planes[1].reference, planes[1].reference_length,
        planes[1].recon, planes[1].recon_length,
        planes[1].vx, planes[1].vx_length,
        planes[1].vy, planes[1].vy_length,
        planes[1].stated ? planes[1].stated : &none, planes[1].stated ? planes[1].stated_length : 0,
        planes[2].width, planes[2].height, planes[2].stride, planes[2].rows,
        planes[2].source, planes[2].source_length,
        planes[2].reference, planes[2].reference_length,
        planes[2].recon, planes[2].recon_length,
        planes[2].vx, planes[2].vx_length,
        planes[2].vy, planes[2].vy_length,
        planes[2].stated ? planes[2].stated : &none, planes[2].stated ? planes[2].stated_length : 0,
        tables->book, tables->book_length,
        tables->codebook, tables->codebook_length,
        settings->lambda, settings->radius, settings->four, settings->margin, allowance,
        output->bytes, output->length, output->start);
}

/* cabunlis_decode_inter_plane. */
static inline struct cabunlis_answer cabunlis_read(
    const struct cabunlis_plane *plane, const struct cabunlis_tables *tables, const struct cabunlis_input *input)
{
    return cabunlis_decode_inter_plane(
        plane->width, plane->height, plane->stride, plane->rows,
        plane->reference, plane->reference_length,
        tables->book, tables->book_length,
        tables->codebook, tables->codebook_length,
        input->bytes, input->length, input->start,
        plane->recon, plane->recon_length,
        plane->vx, plane->vx_length,
        plane->vy, plane->vy_length);
}

#ifdef __cplusplus
}
#endif

#endif
