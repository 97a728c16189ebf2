/* Each allocation of a call refused in turn: out of memory, with nothing written, told or kept. It counts and refuses by
 * malloc and realloc of its own, before those of the C library.
 *     memory      prints for each field how many allocations there and back, and the most bytes that were held; and for
 *                 each call on parts how many allocations */
#define _GNU_SOURCE
#include <dlfcn.h>
#include <malloc.h>
#include <stdio.h>
#include <stdlib.h>
#include <string.h>
#include <zfpi.h>

#define NEVER ((size_t)-1)

static int counting;
static size_t held, most_held, calls, refused = NEVER;

static void *took(void *place) {
    held += place ? malloc_usable_size(place) : 0;
    if (held > most_held) most_held = held;
    return place;
}

void *malloc(size_t len) {
    static void *(*real)(size_t);
    if (!real) real = (void *(*)(size_t))dlsym(RTLD_NEXT, "malloc");
    if (!counting) return real(len);
    return calls++ == refused ? NULL : took(real(len));
}

void *realloc(void *place, size_t len) {
    static void *(*real)(void *, size_t);
    if (!real) real = (void *(*)(void *, size_t))dlsym(RTLD_NEXT, "realloc");
    if (!counting) return real(place, len);
    if (calls++ == refused) return NULL;
    held -= place ? malloc_usable_size(place) : 0;
    return took(real(place, len));
}

void free(void *place) {
    static void (*real)(void *);
    if (!real) real = (void (*)(void *))dlsym(RTLD_NEXT, "free");
    if (counting && place) held -= malloc_usable_size(place);
    real(place);
}

static void begin(size_t which) { held = most_held = calls = 0, refused = which, counting = 1; }

static size_t is_filled(const uint8_t *bytes, size_t len) {
    for (size_t k = 0; k < len; k++)
        if (bytes[k] != 7) return 0;
    return 1;
}

/* How many cases of this field are wrong. */
static int tried(zfpi_field field, size_t raw_len) {
    uint64_t room = 0, len = 0, n = 0;
    int wrong = 0;
    zfpi_most(&field, &room);
    uint8_t *raw = malloc(raw_len), *back = malloc(raw_len), *out = malloc(room);
    for (size_t k = 0; k < raw_len; k++) raw[k] = (uint8_t)(k / 400 * (k % 77));
    begin(NEVER);
    wrong += zfpi_compress(&field, raw, raw_len, out, room, &len) != ZFPI_OK;
    counting = 0;
    size_t there = calls, there_most = most_held;
    wrong += held != 0;
    begin(NEVER);
    wrong += zfpi_restore(out, len, back, raw_len, &n) != ZFPI_OK;
    counting = 0;
    size_t here = calls, here_most = most_held;
    wrong += held != 0;
    uint8_t *copy = malloc(len);
    for (size_t k = 0; k < there; k++) {
        memset(copy, 7, len), n = 9;
        begin(k);
        uint32_t status = zfpi_compress(&field, raw, raw_len, copy, len, &n);
        counting = 0;
        wrong += status != ZFPI_MEMORY || held != 0 || n != 9 || !is_filled(copy, len);
    }
    for (size_t k = 0; k < here; k++) {
        memset(back, 7, raw_len), n = 9;
        begin(k);
        uint32_t status = zfpi_restore(out, len, back, raw_len, &n);
        counting = 0;
        wrong += status != ZFPI_MEMORY || held != 0 || n != 9 || !is_filled(back, raw_len);
    }
    printf("%zu raw bytes: %zu allocations and %zu bytes there, %zu and %zu back, %d wrong\n", raw_len, there, there_most, here,
           here_most, wrong);
    free(raw), free(back), free(out), free(copy);
    return wrong;
}

/* A stream, an index of it, and room for what is read of it. */
typedef struct {
    uint8_t *stream, *out;
    uint64_t *places;
    size_t len, room, count, block;
} lent;

static const zfpi_axes ORIGIN = {1, 1, 1, 1}, SIZE = {3, 3, 3, 3};
static const uint64_t LIST[] = {1, 0};

static uint32_t reads(lent it) { return zfpi_read(it.stream, it.len, &ORIGIN, &SIZE, it.out, it.room); }
static uint32_t reads_block(lent it) { return zfpi_read_block(it.stream, it.len, 1, it.out, it.room); }
static uint32_t reads_blocks(lent it) { return zfpi_read_blocks(it.stream, it.len, LIST, 2, it.out, it.room); }
static uint32_t indexes(lent it) { return zfpi_index(it.stream, it.len, it.places, it.count); }
static uint32_t reads_at(lent it) {
    return zfpi_read_at(it.stream, it.len, it.places, it.count, &ORIGIN, &SIZE, it.out, it.room);
}
static uint32_t reads_blocks_at(lent it) {
    return zfpi_read_blocks_at(it.stream, it.len, it.places, it.count, LIST, 2, it.out, it.room);
}
static uint32_t writes_block(lent it) { return zfpi_write_block(it.stream, it.len, 1, it.out, it.block); }

/* How many cases of a call on parts are wrong: with any allocation refused all that is lent stays. */
static int stays_each(const char *name, uint32_t (*call)(lent), lent it) {
    uint8_t *places = (uint8_t *)it.places;
    uint8_t *stream = malloc(it.len), *index = malloc(8 * it.count), *out = malloc(it.room);
    memcpy(stream, it.stream, it.len), memcpy(index, places, 8 * it.count), memcpy(out, it.out, it.room);
    uint32_t status = ZFPI_MEMORY;
    int wrong = 0;
    size_t k = 0;
    for (; status == ZFPI_MEMORY; k++) {
        begin(k);
        status = call(it);
        counting = 0;
        wrong += held != 0;
        if (status == ZFPI_MEMORY)
            wrong += memcmp(stream, it.stream, it.len) || memcmp(index, places, 8 * it.count) || memcmp(out, it.out, it.room);
    }
    wrong += status != ZFPI_OK || calls != k - 1;
    printf("%s: %zu allocations, %d wrong\n", name, k - 1, wrong);
    free(stream), free(index), free(out);
    return wrong;
}

/* How many cases of the calls on parts of this field's stream are wrong. The field has more than one block. */
static int parts(zfpi_field field, size_t raw_len, size_t count) {
    size_t block = (field.type == ZFPI_INT64 ? 8 : 4) << (2 * field.dims);
    uint64_t room = 0, len = 0;
    zfpi_most(&field, &room);
    lent it = {malloc(room), malloc(2 * block), malloc(8 * count), 0, 2 * block, count, block};
    uint8_t *raw = malloc(raw_len);
    for (size_t k = 0; k < raw_len; k++) raw[k] = (uint8_t)(k / 400 * (k % 77));
    int wrong = zfpi_compress(&field, raw, raw_len, it.stream, room, &len) != ZFPI_OK;
    it.len = len;
    memset(it.out, 7, it.room), memset(it.places, 7, 8 * count);
    wrong += stays_each("zfpi_index", indexes, it);
    wrong += stays_each("zfpi_read", reads, it);
    wrong += stays_each("zfpi_read_block", reads_block, it);
    wrong += stays_each("zfpi_read_blocks", reads_blocks, it);
    wrong += stays_each("zfpi_read_at", reads_at, it);
    wrong += stays_each("zfpi_read_blocks_at", reads_blocks_at, it);
    if (field.mode == ZFPI_RATE) wrong += stays_each("zfpi_write_block", writes_block, it);
    free(it.stream), free(it.out), free(it.places), free(raw);
    return wrong;
}

int main(void) {
    int wrong = tried((zfpi_field){ZFPI_INT32, 3, 64, 64, 64, 0, ZFPI_REVERSIBLE, 0}, 1 << 20);
    wrong += tried((zfpi_field){ZFPI_INT32, 3, 64, 64, 64, 0, ZFPI_RATE, 512}, 1 << 20);
    wrong += tried((zfpi_field){ZFPI_INT64, 2, 1024, 1024, 0, 0, ZFPI_PRECISION, 20}, 8 << 20);
    wrong += tried((zfpi_field){ZFPI_INT32, 2, 4, 4, 0, 0, ZFPI_REVERSIBLE, 0}, 64);
    wrong += parts((zfpi_field){ZFPI_INT32, 3, 16, 16, 16, 0, ZFPI_RATE, 512}, 16384, 64);
    wrong += parts((zfpi_field){ZFPI_INT32, 2, 33, 9, 0, 0, ZFPI_REVERSIBLE, 0}, 1188, 27);
    wrong += parts((zfpi_field){ZFPI_INT64, 4, 5, 5, 5, 5, ZFPI_PRECISION, 20}, 5000, 16);
    return wrong != 0;
}
