/* Compresses a field of 48 x 32 values of int32 from standard input to standard output:
 *     cc example.c $(pkg-config --cflags --libs zfpi) -o example */
#include <stdio.h>
#include <stdlib.h>
#include <zfpi.h>

int main(void) {
    static uint8_t raw[4 * 48 * 32];
    zfpi_field field = {.type = ZFPI_INT32, .dims = 2, .nx = 48, .ny = 32, .mode = ZFPI_REVERSIBLE};
    size_t raw_len = fread(raw, 1, sizeof raw, stdin);
    uint64_t most, len;
    if (zfpi_most(&field, &most) != ZFPI_OK) return 1;
    uint8_t *out = malloc(most);
    if (!out || zfpi_compress(&field, raw, raw_len, out, most, &len) != ZFPI_OK) return 1;
    return fwrite(out, 1, len, stdout) == len ? 0 : 1;
}
