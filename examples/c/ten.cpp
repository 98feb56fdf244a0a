/* Ten draws of a die that shows an even number, and the exact probability of each.
 *   links with: zar
 *   prints: 4 2 4 2 6 6 2 4 6 6
 *           value 2 mass 1/3
 *           value 4 mass 1/3
 *           value 6 mass 1/3
 */
#include <array>
#include <cstdint>
#include <iostream>
#include <string>
#include <zar.h>

int main() {
    const std::string die = "face ~ uniform(6); observe face % 2 = 1; return face + 1;";
    const auto text = reinterpret_cast<const std::uint8_t *>(die.data());
    const zar_limits limits = {65536, 1000, 1000, 1000}; // of bits, turns, attempts and rounds of a draw
    std::array<std::int64_t, 10> faces;
    std::array<std::uint8_t, 10> ends;
    std::string lines(4096, '\0');
    const auto drawn = zar_draws(text, die.size(), 1, 0, &limits, faces.data(), faces.size(), ends.data(), ends.size()); // seed 1
    const auto weighed = zar_mass(text, die.size(), 30, 0, 0, reinterpret_cast<std::uint8_t *>(lines.data()), lines.size()); // 30 turns
    if (drawn.status != ZAR_DONE || weighed.status != ZAR_DONE || weighed.length > lines.size())
        return 1;
    for (std::size_t k = 0; k < faces.size(); k++) {
        if (ends[k] != ZAR_VALUE)
            return 1;
        std::cout << faces[k] << (k + 1 < faces.size() ? ' ' : '\n');
    }
    std::cout << lines.substr(0, weighed.length);
}
