/* zfpi as a filter of HDF5: a plugin that is found at run time by HDF5_PLUGIN_PATH.
 *
 * Its number, 347, is one of those that HDF5 keeps for testing: no number has been registered, so give files that leave
 * your hands another filter beside, or none. A chunk has one to four dimensions longer than 1 of int8, uint8, int16,
 * uint16, int32 or int64, in either byte order; what has more has its slowest ones joined. can_apply refuses others.
 *
 *   options that the user gives: mode (1 reversible, 2 rate, 3 precision), parameter (bits a block, or bit planes)
 *   options as they are stored: type, dims, nx, ny, nz, nw, mode, parameter, 1 where bytes are to be swapped */
#include <H5PLextern.h>
#include <hdf5.h>
#include <stdlib.h>
#include <string.h>
#include <zfpi.h>

#define FILTER 347
#define STORED 9

/* The number of an HDF5 type, or 0. */
static uint32_t type_of(hid_t type) {
    if (H5Tget_class(type) != H5T_INTEGER) return 0;
    int is_signed = H5Tget_sign(type) == H5T_SGN_2;
    switch (H5Tget_size(type)) {
    case 1: return is_signed ? ZFPI_INT8 : ZFPI_UINT8;
    case 2: return is_signed ? ZFPI_INT16 : ZFPI_UINT16;
    case 4: return is_signed ? ZFPI_INT32 : 0;
    case 8: return is_signed ? ZFPI_INT64 : 0;
    default: return 0;
    }
}

static size_t value_len(uint32_t type) {
    static const uint8_t lens[] = {0, 4, 8, 1, 1, 2, 2};
    return type < sizeof lens ? lens[type] : 0;
}

/* The shape of a chunk, fastest-varying axis first, without axes of size 1; how many axes, or 0. */
static unsigned shape_of(hid_t dcpl, hsize_t sizes[4]) {
    hsize_t all[H5S_MAX_RANK];
    int rank = H5Pget_chunk(dcpl, H5S_MAX_RANK, all);
    unsigned dims = 0;
    for (int k = rank - 1; k >= 0; k--) {
        if (all[k] == 1) continue;
        if (dims < 4) sizes[dims++] = all[k];
        else sizes[3] *= all[k];
    }
    if (rank > 0 && dims == 0) sizes[dims++] = 1;
    return dims;
}

static zfpi_field field_of(const unsigned stored[]) {
    zfpi_field field = {stored[0], stored[1], stored[2], stored[3], stored[4], stored[5], stored[6], stored[7]};
    return field;
}

/* What is stored of a dataset whose user gave these options; whether it can be. */
static int stored_of(hid_t dcpl, hid_t type, size_t count, const unsigned given[], unsigned stored[STORED]) {
    hsize_t sizes[4] = {0, 0, 0, 0};
    uint64_t most;
    stored[0] = type_of(type);
    stored[1] = shape_of(dcpl, sizes);
    for (unsigned k = 0; k < 4; k++) {
        if (sizes[k] > 1u << 27) return 0;
        stored[2 + k] = (unsigned)sizes[k];
    }
    stored[6] = count > 0 ? given[0] : ZFPI_REVERSIBLE;
    stored[7] = count > 1 ? given[1] : 0;
    stored[8] = H5Tget_order(type) == H5T_ORDER_BE;
    zfpi_field field = field_of(stored);
    return zfpi_most(&field, &most) == ZFPI_OK;
}

static int options_of(hid_t dcpl, unsigned *flags, size_t *count, unsigned given[STORED]) {
    *count = STORED;
    return H5Pget_filter_by_id2(dcpl, FILTER, flags, count, given, 0, NULL, NULL) >= 0;
}

static htri_t can_apply(hid_t dcpl, hid_t type, hid_t space) {
    unsigned flags, given[STORED] = {0}, stored[STORED];
    size_t count;
    (void)space;
    if (!options_of(dcpl, &flags, &count, given)) return -1;
    return stored_of(dcpl, type, count, given, stored);
}

static herr_t set_local(hid_t dcpl, hid_t type, hid_t space) {
    unsigned flags, given[STORED] = {0}, stored[STORED];
    size_t count;
    (void)space;
    if (!options_of(dcpl, &flags, &count, given) || !stored_of(dcpl, type, count, given, stored)) return -1;
    return H5Pmodify_filter(dcpl, FILTER, flags, STORED, stored);
}

static void swap_bytes(uint8_t *bytes, size_t len, size_t value) {
    for (size_t at = 0; at + value <= len; at += value)
        for (size_t k = 0; k < value / 2; k++) {
            uint8_t kept = bytes[at + k];
            bytes[at + k] = bytes[at + value - 1 - k];
            bytes[at + value - 1 - k] = kept;
        }
}

static size_t compressed(const unsigned stored[], uint8_t *raw, size_t raw_len, size_t *room, uint8_t **out) {
    zfpi_field field = field_of(stored);
    uint64_t most, len;
    if (zfpi_most(&field, &most) != ZFPI_OK || !(*out = malloc(most))) return 0;
    *room = most;
    if (stored[8]) swap_bytes(raw, raw_len, value_len(stored[0]));
    uint32_t status = zfpi_compress(&field, raw, raw_len, *out, most, &len);
    if (stored[8]) swap_bytes(raw, raw_len, value_len(stored[0]));
    return status == ZFPI_OK ? len : 0;
}

static size_t restored(const unsigned stored[], const uint8_t *stream, size_t stream_len, size_t *room, uint8_t **out) {
    zfpi_info info;
    uint64_t len;
    if (zfpi_header(stream, stream_len, &info) != ZFPI_OK) return 0;
    /* a damaged header must not claim more than the chunk has */
    zfpi_field field = field_of(stored);
    uint64_t values = 1;
    for (unsigned k = 0; k < field.dims && k < 4; k++) values *= stored[2 + k];
    size_t wanted = values * value_len(field.type);
    int is_narrow = field.type > ZFPI_INT64;
    if (!(*out = malloc(wanted))) return 0;
    *room = wanted;
    uint32_t status = is_narrow ? zfpi_restore_narrow(field.type, stream, stream_len, *out, wanted, &len)
                                : zfpi_restore(stream, stream_len, *out, wanted, &len);
    if (status != ZFPI_OK || len != wanted) return 0;
    if (stored[8]) swap_bytes(*out, len, value_len(field.type));
    return len;
}

static size_t filter(unsigned flags, size_t count, const unsigned stored[], size_t len, size_t *room, void **bytes) {
    uint8_t *out = NULL;
    size_t out_room = 0;
    if (count != STORED) return 0;
    size_t out_len = flags & H5Z_FLAG_REVERSE ? restored(stored, *bytes, len, &out_room, &out)
                                              : compressed(stored, *bytes, len, &out_room, &out);
    if (out_len == 0) {
        free(out);
        return 0;
    }
    free(*bytes);
    *bytes = out;
    *room = out_room;
    return out_len;
}

static const H5Z_class2_t ZFPI[1] = {{H5Z_CLASS_T_VERS, FILTER, 1, 1, "zfpi", can_apply, set_local, filter}};

H5PL_type_t H5PLget_plugin_type(void) { return H5PL_TYPE_FILTER; }
const void *H5PLget_plugin_info(void) { return ZFPI; }
