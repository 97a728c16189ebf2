/* zfpi in a process: raw integer arrays to their streams and back, in memory that the caller lends.
 *
 * Every call is proved to do what is said here, for every input (crates/zfpi_c); streams are those of the program
 * `zfpi`. A call allocates its working memory by malloc, and gives it back before it returns; calls share nothing, so
 * threads may call at once.
 *
 * What the caller owes, which nothing checks:
 *  - each pointer is to memory that is there, aligned, initialized and as long as is said, and is not NULL, also where
 *    a length is 0;
 *  - `out`, `len`, `info` and `most` are nobody else's while the call runs, and overlap nothing that the call reads;
 *  - what the call reads is not written meanwhile;
 *  - malloc, realloc and free belong together and align to 16 bytes;
 *  - no call is made in a signal handler, or in a forked child of a process with several threads. */
#ifndef ZFPI_H
#define ZFPI_H
#include <stddef.h>
#include <stdint.h>

#ifdef __cplusplus
extern "C" {
#endif

/* The version that this file belongs to: 10000 times the first number, 100 times the second, and the third. */
#define ZFPI_VERSION 10100

/* Types of values. The stream of one of the last four says int32: restore it by zfpi_restore_narrow, with the type. */
enum { ZFPI_INT32 = 1, ZFPI_INT64 = 2, ZFPI_INT8 = 3, ZFPI_UINT8 = 4, ZFPI_INT16 = 5, ZFPI_UINT16 = 6 };

/* Modes. A rate is bits a block of 4, 16, 64 or 256 values, 1 to 32768; a precision is bit planes, 1 to 128. */
enum { ZFPI_REVERSIBLE = 1, ZFPI_RATE = 2, ZFPI_PRECISION = 3 };

/* What a call answers. */
enum {
    ZFPI_OK = 0,
    ZFPI_TYPE = 1,        /* the number says no type, or none of 8 or 16 bits where one is wanted */
    ZFPI_SHAPE = 2,       /* not one to four dimensions; a size of 0 or above 2^27, 2^24, 2^16, 2^12 in 1 to 4
                             dimensions; or more than 2^27 values */
    ZFPI_MODE = 3,        /* no mode, or its parameter is out of range */
    ZFPI_RAW_SHORT = 4,   /* fewer raw bytes than the field needs */
    ZFPI_RAW_LONG = 5,    /* more raw bytes than the field needs */
    ZFPI_ROOM = 6,        /* `out` is too small: `len` says how many bytes are needed */
    ZFPI_MEMORY = 7,      /* out of memory */
    ZFPI_HEADER = 8,      /* the bytes begin with no header that is read */
    ZFPI_TRUNCATED = 9,   /* the stream ends too early */
    ZFPI_PAD = 10,        /* a bit of the fill behind the last block is one */
    ZFPI_TRAILING = 11,   /* a byte follows the stream */
    ZFPI_NOT_NARROW = 12, /* the stream's values are int64 */
    ZFPI_PART = 13,       /* the array has no such block or window */
    ZFPI_INDEX = 14       /* the places are not those of this stream */
};

/* An array: its type, its shape, the fastest-varying axis first, and the mode of its stream. Sizes of axes that are
 * not used are not looked at, nor is the parameter of ZFPI_REVERSIBLE. */
typedef struct {
    uint32_t type, dims;
    uint64_t nx, ny, nz, nw;
    uint32_t mode, parameter;
} zfpi_field;

/* What the header of a stream says. `raw_len`: how many bytes the raw values have. `stream_len`: how many bytes the
 * stream has at a rate, else 0. */
typedef struct {
    zfpi_field field;
    uint64_t raw_len, stream_len;
} zfpi_info;

/* A number along each axis, the fastest-varying first. Those of axes that are not used are not looked at. */
typedef struct {
    uint64_t x, y, z, w;
} zfpi_axes;

#if defined(__cplusplus)
static_assert(sizeof(zfpi_field) == 48 && sizeof(zfpi_info) == 64, "the layout of crates/zfpi_c");
#else
_Static_assert(sizeof(zfpi_field) == 48 && sizeof(zfpi_info) == 64, "the layout of crates/zfpi_c");
#endif

/* The version of the library that is linked, ZFPI_VERSION of its own header. */
uint32_t zfpi_version(void);

/* The most bytes that a stream of this field can have, of whatever values; at a rate each has so many.
 * ZFPI_TYPE, ZFPI_SHAPE, ZFPI_MODE: `most` is as before. */
uint32_t zfpi_most(const zfpi_field *field, uint64_t *most);

/* Writes the stream of raw values, little-endian, the fastest-varying axis first, to the start of `out`, and says in
 * `len` how many bytes it has. All behind them stays.
 * ZFPI_TYPE, ZFPI_SHAPE, ZFPI_MODE, ZFPI_MEMORY: `out` is as before. ZFPI_RAW_SHORT, ZFPI_RAW_LONG: a prefix of a
 * stream stands over its start, maybe nothing. ZFPI_ROOM: the first out_len bytes of the stream stand there. `len` is
 * written by ZFPI_OK and ZFPI_ROOM alone. */
uint32_t zfpi_compress(const zfpi_field *field, const uint8_t *raw, size_t raw_len, uint8_t *out, size_t out_len,
                       uint64_t *len);

/* Writes the raw values of a stream, little-endian, the fastest-varying axis first, to the start of `out`, and says in
 * `len` how many bytes they have. All behind them stays.
 * ZFPI_HEADER, ZFPI_MEMORY: `out` is as before. ZFPI_TRUNCATED, ZFPI_PAD, ZFPI_TRAILING: a prefix of the values stands
 * over its start, maybe nothing. ZFPI_ROOM: the stream is good, and the first out_len bytes of its values stand there.
 * `len` is written by ZFPI_OK and ZFPI_ROOM alone. */
uint32_t zfpi_restore(const uint8_t *stream, size_t stream_len, uint8_t *out, size_t out_len, uint64_t *len);

/* The same where the values were of 8 or 16 bits, of this type. ZFPI_TYPE, ZFPI_NOT_NARROW: `out` is as before. */
uint32_t zfpi_restore_narrow(uint32_t type, const uint8_t *stream, size_t stream_len, uint8_t *out, size_t out_len,
                             uint64_t *len);

/* What the header says that a stream begins with. ZFPI_HEADER: `info` is as before. */
uint32_t zfpi_header(const uint8_t *stream, size_t stream_len, zfpi_info *info);

/* Parts of a stream, which may be a file that is mapped: it is not copied, and at a rate only the header, the fill and
 * the codes of the part are looked at; else all codes are walked over. Values have 4 bytes where the stream says int32,
 * and 8 where it says int64. A block has 4, 16, 64 or 256 values, in 1 to 4 dimensions, the fastest-varying axis
 * first; those that lie outside of the array mean nothing. Blocks are numbered in that order, too.
 * After each status but ZFPI_OK `out` is as before, and the stream that is written to. */

/* Reads a window: its raw values to the start of `out`, the fastest-varying axis first. All behind them stays.
 * ZFPI_PART: a size is 0, or the window does not lie in the array. ZFPI_ROOM: `out` is too small. */
uint32_t zfpi_read(const uint8_t *stream, size_t stream_len, const zfpi_axes *origin, const zfpi_axes *size,
                   uint8_t *out, size_t out_len);

/* Reads a block: its raw values to the start of `out`. ZFPI_PART: there is no such block. */
uint32_t zfpi_read_block(const uint8_t *stream, size_t stream_len, uint64_t block, uint8_t *out, size_t out_len);

/* Reads `count` blocks, in the order of the list, one behind the other. */
uint32_t zfpi_read_blocks(const uint8_t *stream, size_t stream_len, const uint64_t *list, size_t count, uint8_t *out,
                          size_t out_len);

/* Over an index no code is looked at but those of the part, whatever the mode: it is made once by a walk over all codes,
 * in the caller's memory, and holds as long as the stream stays as it is. No index can make a call read or write
 * outside of what it was lent: over places of another stream it answers ZFPI_INDEX, or ZFPI_OK with values that mean
 * nothing. So does a stream that is damaged behind its header, whose fill and length are not looked at here. */

/* Writes the bit of the stream at which the code of each block begins, of block 0 first, to the start of `places`. All
 * behind them stays. ZFPI_ROOM: there are more blocks than `count`, which is the product over the axes of their sizes
 * divided by 4, rounded up. After each status but ZFPI_OK `places` is as before. */
uint32_t zfpi_index(const uint8_t *stream, size_t stream_len, uint64_t *places, size_t count);

/* As zfpi_read, over the places that zfpi_index wrote for this stream. ZFPI_INDEX: they are not those, or fewer. */
uint32_t zfpi_read_at(const uint8_t *stream, size_t stream_len, const uint64_t *places, size_t count,
                      const zfpi_axes *origin, const zfpi_axes *size, uint8_t *out, size_t out_len);

/* As zfpi_read_blocks, over them. */
uint32_t zfpi_read_blocks_at(const uint8_t *stream, size_t stream_len, const uint64_t *places, size_t count,
                             const uint64_t *list, size_t list_len, uint8_t *out, size_t out_len);

/* Makes the code of a block of a stream at a rate that of these raw values. All other bits of the stream stay.
 * ZFPI_MODE: the stream has no rate. ZFPI_RAW_SHORT, ZFPI_RAW_LONG: there are fewer or more bytes than a block has. */
uint32_t zfpi_write_block(uint8_t *stream, size_t stream_len, uint64_t block, const uint8_t *raw, size_t raw_len);

#ifdef __cplusplus
}
#endif
#endif
