/* A test at random whose failure is made least: the bits that a run reads are bytes of this program, which makes them smaller while the
 * property still fails. What a library for such tests hands out, as RapidCheck does, will do as well.
 *
 *   links with: zar
 *   prints: fails with 200, by 10 bits
 */
#include <algorithm>
#include <cstdint>
#include <cstdlib>
#include <iostream>
#include <optional>
#include <random>
#include <string>
#include <vector>
#include <zar.h>

using bytes = std::vector<std::uint8_t>;

// The number that the program makes of these bits, and how many it read of them; none where it needs more.
static std::optional<zar_ran> made(const bytes &bits) {
    const std::string text = "x ~ uniform(1000); return x;";
    zar_ran ran;
    const auto said = zar_run(reinterpret_cast<const std::uint8_t *>(text.data()), text.size(), bits.data(), bits.size(), 0, 1000, 1, &ran);
    if (said.status != ZAR_DONE)
        std::exit(said.status);
    return ran.end == ZAR_VALUE ? std::optional(ran) : std::nullopt;
}

static bool holds(std::int64_t x) { return x < 200; } // the property that is tried

static bool fails(const bytes &bits) {
    const auto ran = made(bits);
    return ran && !holds(ran->value);
}

// Each byte in turn as small as it may be for the property to fail, until none gets smaller.
static bytes least(bytes bits) {
    for (bool smaller = true; smaller;) {
        smaller = false;
        for (auto &byte : bits)
            for (int other = 0; other < byte; other++) {
                bytes tried = bits;
                tried[static_cast<std::size_t>(&byte - bits.data())] = static_cast<std::uint8_t>(other);
                if (fails(tried)) {
                    byte = static_cast<std::uint8_t>(other);
                    smaller = true;
                }
            }
    }
    return bits;
}

int main() {
    std::mt19937_64 random(1);
    bytes bits(64);
    do
        std::generate(bits.begin(), bits.end(), [&] { return static_cast<std::uint8_t>(random()); });
    while (!fails(bits));
    const auto ran = made(least(bits));
    std::cout << "fails with " << ran->value << ", by " << ran->read << " bits\n";
}
