// The header file in C++, and a field there and back.
#include <cstdint>
#include <vector>
#include <zfpi.h>

int main() {
    std::vector<std::int32_t> values(4096), back(4096);
    for (int k = 0; k < 4096; k++) values[k] = k * k;
    zfpi_field field{ZFPI_INT32, 3, 16, 16, 16, 0, ZFPI_REVERSIBLE, 0};
    std::uint64_t most = 0, len = 0, back_len = 0;
    if (zfpi_most(&field, &most) != ZFPI_OK) return 1;
    std::vector<std::uint8_t> out(most);
    auto raw = reinterpret_cast<const std::uint8_t *>(values.data());
    if (zfpi_compress(&field, raw, 16384, out.data(), out.size(), &len) != ZFPI_OK) return 2;
    if (zfpi_restore(out.data(), len, reinterpret_cast<std::uint8_t *>(back.data()), 16384, &back_len) != ZFPI_OK) return 3;
    return back == values && back_len == 16384 ? 0 : 4;
}
