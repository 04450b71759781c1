// A column there and back, a refusal and the version, in C++11.
#include <cstdint>
#include <iostream>
#include <stdexcept>
#include <string>
#include <taripomune.h>
#include <vector>

namespace {

void check(bool holds, const char *what) {
    if (!holds) throw std::runtime_error(std::string("not so: ") + what);
}

using Transform = tari_write_reply (*)(std::uint32_t, std::uint32_t *, std::uint64_t, std::uint32_t *, std::uint64_t);

tari_write_reply transform(Transform call, std::uint32_t log_size, std::vector<std::uint32_t> &column) {
    std::vector<std::uint32_t> scratch(column.size());
    return call(log_size, column.data(), column.size(), scratch.data(), scratch.size());
}

}  // namespace

int main() {
    const std::vector<std::uint32_t> balances{1250, 0, 730, 2020, 5, 81, 0, 99};
    auto column = balances;
    check(transform(tari_interpolate, 3, column).number == TARI_ACCEPTED, "interpolation is accepted");
    check(column != balances, "coefficients are other words");
    check(transform(tari_evaluate, 3, column).number == TARI_ACCEPTED, "evaluation is accepted");
    check(column == balances, "the balances return");

    column[5] = UINT32_MAX;
    const auto refused = transform(tari_interpolate, 3, column);
    check(refused.number == TARI_REFUSED_WORD && refused.position == 5, "word 5 is refused");

    check(tari_version().value == TARI_VERSION, "the library goes with the header");
    std::cout << "there and back\n";
}
