/* Every call on one field: guards around what is lent, the exact room and one byte less, each status that can come.
 *     calls RAW TYPE DIMS NX NY NZ NW MODE PARAMETER STREAM
 * writes the stream to the file STREAM. Its exit code is 0, or the line of what is not as zfpi.h says. */
#include <stdio.h>
#include <stdlib.h>
#include <string.h>
#include <zfpi.h>

#define GUARD 64
#define WANT(holds) do { if (!(holds)) { fprintf(stderr, "line %d: %s\n", __LINE__, #holds); exit(1); } } while (0)

static uint8_t *slurp(const char *name, size_t *len) {
    FILE *file = fopen(name, "rb");
    WANT(file);
    fseek(file, 0, SEEK_END);
    *len = (size_t)ftell(file);
    rewind(file);
    uint8_t *bytes = malloc(*len + 1);
    WANT(bytes && fread(bytes, 1, *len, file) == *len);
    fclose(file);
    return bytes;
}

/* So many bytes of one value between two guards. */
static uint8_t *guarded(size_t len) {
    uint8_t *all = malloc(len + 2 * GUARD);
    WANT(all);
    memset(all, 0xA5, len + 2 * GUARD);
    return all + GUARD;
}

static int stays(const uint8_t *room, size_t from, size_t to) {
    for (size_t k = from; k < to; k++)
        if (room[k] != 0xA5) return 0;
    return 1;
}

static int guards_hold(const uint8_t *room, size_t len) {
    return stays(room - GUARD, 0, GUARD) && stays(room, len, len + GUARD);
}

static uint32_t restored(uint32_t type, const uint8_t *stream, size_t len, uint8_t *out, size_t room, uint64_t *n) {
    return type <= ZFPI_INT64 ? zfpi_restore(stream, len, out, room, n)
                              : zfpi_restore_narrow(type, stream, len, out, room, n);
}

static void refusals(zfpi_field field, const uint8_t *raw, size_t raw_len, const uint8_t *stream, size_t len) {
    uint64_t n = 77, most = 78;
    uint8_t *out = guarded(raw_len);
    zfpi_field wrong = field;
    wrong.dims = 5;
    WANT(zfpi_compress(&wrong, raw, raw_len, out, raw_len, &n) == ZFPI_SHAPE && zfpi_most(&wrong, &most) == ZFPI_SHAPE);
    wrong = field, wrong.nx = 0;
    WANT(zfpi_compress(&wrong, raw, raw_len, out, raw_len, &n) == ZFPI_SHAPE && zfpi_most(&wrong, &most) == ZFPI_SHAPE);
    wrong = field, wrong.nx = UINT64_MAX;
    WANT(zfpi_compress(&wrong, raw, raw_len, out, raw_len, &n) == ZFPI_SHAPE);
    wrong = field, wrong.type = 7;
    WANT(zfpi_compress(&wrong, raw, raw_len, out, raw_len, &n) == ZFPI_TYPE && zfpi_most(&wrong, &most) == ZFPI_TYPE);
    wrong = field, wrong.mode = ZFPI_RATE, wrong.parameter = 32769;
    WANT(zfpi_compress(&wrong, raw, raw_len, out, raw_len, &n) == ZFPI_MODE && zfpi_most(&wrong, &most) == ZFPI_MODE);
    wrong = field, wrong.mode = ZFPI_PRECISION, wrong.parameter = 0;
    WANT(zfpi_compress(&wrong, raw, raw_len, out, raw_len, &n) == ZFPI_MODE);
    WANT(restored(ZFPI_INT32, raw, 8, out, raw_len, &n) == ZFPI_HEADER);
    WANT(zfpi_restore_narrow(ZFPI_INT64, stream, len, out, raw_len, &n) == ZFPI_TYPE);
    if (field.type == ZFPI_INT64)
        WANT(zfpi_restore_narrow(ZFPI_INT8, stream, len, out, raw_len, &n) == ZFPI_NOT_NARROW);
    zfpi_info info;
    memset(&info, 0x5A, sizeof info);
    WANT(zfpi_header(raw, 8, &info) == ZFPI_HEADER && info.raw_len == 0x5A5A5A5A5A5A5A5A);
    /* nothing was told and nothing written */
    WANT(n == 77 && most == 78 && stays(out, 0, raw_len) && guards_hold(out, raw_len));
    WANT(raw_len == 0 || zfpi_compress(&field, raw, raw_len - 1, out, 0, &n) == ZFPI_RAW_SHORT);
    WANT(restored(field.type, stream, len - 8, out, raw_len, &n) == ZFPI_TRUNCATED && n == 77);
    uint8_t *more = malloc(len + 1);
    memcpy(more, stream, len), more[len] = 0;
    WANT(restored(field.type, more, len + 1, out, raw_len, &n) == ZFPI_TRAILING && n == 77);
    WANT(guards_hold(out, raw_len));
    free(more), free(out - GUARD);
}

/* The place of a value among all of an array, and of its block and in it. */
typedef struct {
    uint64_t raster, block, place;
} place;

static place place_of(const zfpi_info *info, const uint64_t p[4]) {
    uint64_t n[4] = {info->field.nx, info->field.ny, info->field.nz, info->field.nw};
    place at = {0, 0, 0};
    for (uint32_t axis = info->field.dims; axis-- > 0;) {
        at.raster = at.raster * n[axis] + p[axis];
        at.block = at.block * ((n[axis] + 3) / 4) + p[axis] / 4;
        at.place = at.place * 4 + p[axis] % 4;
    }
    return at;
}

/* Windows and blocks of a stream beside all its values, which are of 4 or 8 bytes. */
static void parts(uint8_t *stream, size_t len, const uint8_t *all, size_t all_len) {
    zfpi_info info;
    WANT(zfpi_header(stream, len, &info) == ZFPI_OK && info.raw_len == all_len);
    size_t wide = info.field.type == ZFPI_INT64 ? 8 : 4, size = (size_t)1 << (2 * info.field.dims);
    uint64_t n[4] = {info.field.nx, info.field.ny, info.field.nz, info.field.nw}, from[4] = {0};
    uint64_t many[4] = {1, 1, 1, 1}, count = 1, blocks = 1;
    for (uint32_t axis = 0; axis < info.field.dims; axis++) {
        from[axis] = n[axis] / 3, many[axis] = n[axis] - from[axis] - (n[axis] > 3);
        count *= many[axis], blocks *= (n[axis] + 3) / 4;
    }
    zfpi_axes origin = {from[0], from[1], from[2], from[3]}, sizes = {many[0], many[1], many[2], many[3]};
    uint8_t *out = guarded(count * wide + 5), *block = guarded(2 * size * wide);
    WANT(zfpi_read(stream, len, &origin, &sizes, out, count * wide - 1) == ZFPI_ROOM && stays(out, 0, count * wide + 5));
    WANT(zfpi_read(stream, len, &origin, &sizes, out, count * wide + 5) == ZFPI_OK);
    WANT(stays(out, count * wide, count * wide + 5) && guards_hold(out, count * wide + 5));
    for (uint64_t k = 0; k < count; k++) {
        uint64_t rest = k, p[4] = {0};
        for (uint32_t axis = 0; axis < info.field.dims; rest /= many[axis], axis++)
            p[axis] = from[axis] + rest % many[axis];
        place at = place_of(&info, p);
        WANT(memcmp(out + k * wide, all + at.raster * wide, wide) == 0);
        uint64_t list[2] = {blocks - 1, at.block};
        if (k % 7) continue;
        WANT(zfpi_read_blocks(stream, len, list, 2, block, 2 * size * wide) == ZFPI_OK);
        WANT(memcmp(block + (size + at.place) * wide, all + at.raster * wide, wide) == 0);
        WANT(zfpi_read_block(stream, len, at.block, block, size * wide) == ZFPI_OK);
        WANT(memcmp(block + at.place * wide, all + at.raster * wide, wide) == 0 && guards_hold(block, 2 * size * wide));
    }
    sizes.x = n[0] + 1;
    WANT(zfpi_read(stream, len, &origin, &sizes, out, count * wide) == ZFPI_PART);
    WANT(zfpi_read_block(stream, len, blocks, block, size * wide) == ZFPI_PART);
    WANT(zfpi_read_block(stream, len - 8, 0, block, size * wide) == ZFPI_TRUNCATED);
    WANT(zfpi_read_block(stream, 8, 0, block, size * wide) == ZFPI_HEADER);
    /* a block that is written changes its own values alone */
    uint8_t *other = malloc(len), *back = malloc(all_len);
    uint64_t told;
    WANT(other && back);
    memcpy(other, stream, len), memset(block, 0, size * wide);
    if (info.field.mode != ZFPI_RATE) {
        WANT(zfpi_write_block(other, len, 0, block, size * wide) == ZFPI_MODE && memcmp(other, stream, len) == 0);
    } else {
        WANT(zfpi_write_block(other, len, blocks, block, size * wide) == ZFPI_PART);
        WANT(zfpi_write_block(other, len, 0, block, size * wide - 1) == ZFPI_RAW_SHORT);
        WANT(memcmp(other, stream, len) == 0);
        WANT(zfpi_write_block(other, len, blocks - 1, block, size * wide) == ZFPI_OK);
        WANT(zfpi_restore(other, len, back, all_len, &told) == ZFPI_OK && told == all_len);
        for (uint64_t k = 0; k < all_len / wide; k++) {
            uint64_t rest = k, p[4] = {0}, zero = 0;
            for (uint32_t axis = 0; axis < info.field.dims; axis++) p[axis] = rest % n[axis], rest /= n[axis];
            const void *want = place_of(&info, p).block == blocks - 1 ? (const void *)&zero : all + k * wide;
            WANT(memcmp(back + k * wide, want, wide) == 0);
        }
    }
    free(other), free(back), free(out - GUARD), free(block - GUARD);
}

/* Windows and blocks over an index are those without one. Over other places there is a status, or values that mean nothing,
 * and in either case nothing outside of what is lent: the stream stands at the end of its memory here, for valgrind. */
static void over_index(const uint8_t *whole, size_t len) {
    uint8_t *stream = malloc(len);
    WANT(stream);
    memcpy(stream, whole, len);
    zfpi_info info;
    WANT(zfpi_header(stream, len, &info) == ZFPI_OK);
    size_t wide = info.field.type == ZFPI_INT64 ? 8 : 4, size = (size_t)1 << (2 * info.field.dims);
    uint64_t n[4] = {info.field.nx, info.field.ny, info.field.nz, info.field.nw}, from[4] = {0}, many[4] = {1, 1, 1, 1};
    uint64_t room = wide, blocks = 1, drawn = 1;
    for (uint32_t axis = 0; axis < info.field.dims; axis++) {
        from[axis] = n[axis] / 3, many[axis] = n[axis] - from[axis];
        room *= many[axis], blocks *= (n[axis] + 3) / 4;
    }
    zfpi_axes origin = {from[0], from[1], from[2], from[3]}, sizes = {many[0], many[1], many[2], many[3]};
    uint64_t *places = (uint64_t *)guarded((blocks + 1) * 8), *other = malloc(blocks * 8);
    uint64_t list[4] = {blocks - 1, 0, blocks / 2, blocks - 1};
    uint8_t *bytes = (uint8_t *)places, *with = guarded(room), *without = guarded(room);
    size_t listed = 4 * size * wide;
    uint8_t *some = guarded(listed), *same = guarded(listed);
    WANT(other);
    WANT(zfpi_index(stream, len, places, blocks - 1) == ZFPI_ROOM && zfpi_index(stream, 8, places, blocks) == ZFPI_HEADER);
    WANT(zfpi_index(stream, len - 8, places, blocks) == ZFPI_TRUNCATED && stays(bytes, 0, (blocks + 1) * 8));
    WANT(zfpi_index(stream, len, places, blocks + 1) == ZFPI_OK && stays(bytes, blocks * 8, (blocks + 1) * 8));
    WANT(guards_hold(bytes, (blocks + 1) * 8));
    WANT(zfpi_read(stream, len, &origin, &sizes, without, room) == ZFPI_OK);
    WANT(zfpi_read_at(stream, len, places, blocks, &origin, &sizes, with, room - 1) == ZFPI_ROOM);
    WANT(zfpi_read_at(stream, len, places, blocks - 1, &origin, &sizes, with, room) == ZFPI_INDEX);
    WANT(zfpi_read_at(stream, 8, places, blocks, &origin, &sizes, with, room) == ZFPI_HEADER && stays(with, 0, room));
    WANT(zfpi_read_at(stream, len, places, blocks, &origin, &sizes, with, room) == ZFPI_OK && guards_hold(with, room));
    WANT(memcmp(with, without, room) == 0);
    WANT(zfpi_read_blocks(stream, len, list, 4, same, listed) == ZFPI_OK);
    WANT(zfpi_read_blocks_at(stream, len, places, blocks, list, 4, some, listed - 1) == ZFPI_ROOM && stays(some, 0, listed));
    WANT(zfpi_read_blocks_at(stream, len, places, blocks, list, 4, some, listed) == ZFPI_OK && guards_hold(some, listed));
    WANT(memcmp(some, same, listed) == 0);
    sizes.x++, list[1] = blocks;
    WANT(zfpi_read_at(stream, len, places, blocks, &origin, &sizes, with, room) == ZFPI_PART);
    WANT(zfpi_read_blocks_at(stream, len, places, blocks, list, 4, some, listed) == ZFPI_PART);
    sizes.x--, list[1] = 0;
    for (unsigned turn = 0; turn < 60; turn++) {
        for (uint64_t k = 0; k < blocks; k++) {
            drawn = drawn * 6364136223846793005u + 1442695040888963407u;
            uint64_t within = drawn % (8 * len + 1), end = 8 * len - turn;
            uint64_t wrong[6] = {places[k] + turn, places[blocks - 1 - k], drawn >> 33, within, drawn, end};
            other[k] = turn < 12 ? (uint64_t[]){8 * len, 8 * len + 1, UINT64_MAX, 0}[turn % 4] : wrong[turn % 6];
        }
        memset(with, 0xA5, room), memset(some, 0xA5, listed);
        uint32_t window = zfpi_read_at(stream, len, other, blocks, &origin, &sizes, with, room);
        uint32_t block = zfpi_read_blocks_at(stream, len, other, blocks, list, 4, some, listed);
        WANT(window == ZFPI_OK || (window == ZFPI_INDEX && stays(with, 0, room)));
        WANT(block == ZFPI_OK || (block == ZFPI_INDEX && stays(some, 0, listed)));
        WANT(turn >= 12 || turn % 4 == 3 || (window == ZFPI_INDEX && block == ZFPI_INDEX));
        WANT(guards_hold(with, room) && guards_hold(some, listed));
    }
    free(stream), free(other), free(bytes - GUARD), free(with - GUARD), free(without - GUARD);
    free(some - GUARD), free(same - GUARD);
}

int main(int argc, char **argv) {
    WANT(argc == 11);
    size_t raw_len;
    uint8_t *raw = slurp(argv[1], &raw_len);
    zfpi_field field = {(uint32_t)atoi(argv[2]), (uint32_t)atoi(argv[3]), strtoull(argv[4], 0, 10), strtoull(argv[5], 0, 10),
                        strtoull(argv[6], 0, 10), strtoull(argv[7], 0, 10), (uint32_t)atoi(argv[8]), (uint32_t)atoi(argv[9])};
    WANT(zfpi_version() == ZFPI_VERSION);
    uint64_t most = 0, len = 0, n = 0;
    WANT(zfpi_most(&field, &most) == ZFPI_OK);
    uint8_t *out = guarded(most);
    WANT(zfpi_compress(&field, raw, raw_len, out, most, &len) == ZFPI_OK && len <= most);
    WANT(stays(out, len, most) && guards_hold(out, most) && (field.mode != ZFPI_RATE || len == most));

    uint8_t *exact = guarded(len), *less = guarded(len - 1);
    WANT(zfpi_compress(&field, raw, raw_len, exact, len, &n) == ZFPI_OK && n == len && guards_hold(exact, len));
    WANT(memcmp(exact, out, len) == 0);
    n = 0;
    WANT(zfpi_compress(&field, raw, raw_len, less, len - 1, &n) == ZFPI_ROOM && n == len && guards_hold(less, len - 1));
    WANT(memcmp(less, out, len - 1) == 0);

    zfpi_info info;
    WANT(zfpi_header(exact, len, &info) == ZFPI_OK && info.field.nx == field.nx && info.field.mode == field.mode);
    WANT(field.mode == ZFPI_RATE ? info.stream_len == len : info.stream_len == 0);
    uint8_t *back = guarded(raw_len);
    WANT(restored(field.type, exact, len, back, raw_len, &n) == ZFPI_OK && n == raw_len && guards_hold(back, raw_len));
    WANT(field.mode != ZFPI_REVERSIBLE || memcmp(back, raw, raw_len) == 0);
    uint8_t *shorter = guarded(raw_len - 1);
    n = 0;
    WANT(restored(field.type, exact, len, shorter, raw_len - 1, &n) == ZFPI_ROOM && n == raw_len);
    WANT(memcmp(shorter, back, raw_len - 1) == 0 && guards_hold(shorter, raw_len - 1));
    refusals(field, raw, raw_len, exact, len);
    uint64_t all_len = info.raw_len;
    uint8_t *all = guarded(all_len);
    WANT(zfpi_restore(exact, len, all, all_len, &n) == ZFPI_OK);
    parts(exact, len, all, all_len);
    over_index(exact, len);
    free(all - GUARD);

    FILE *file = fopen(argv[10], "wb");
    WANT(file && fwrite(exact, 1, len, file) == len && fclose(file) == 0);
    free(raw), free(out - GUARD), free(exact - GUARD), free(less - GUARD), free(back - GUARD), free(shorter - GUARD);
    return 0;
}
