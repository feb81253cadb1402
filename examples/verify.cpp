// A present key, an absent key and a forged proof, by the C library, from C++.
//
//     c++ -std=c++17 -I../include verify.cpp ../crates/mst_verifier/out/libmst_verifier.a -o verify
#include "mst_verifier.h"

#include <array>
#include <cstdint>
#include <iostream>
#include <optional>
#include <stdexcept>
#include <string>
#include <string_view>
#include <vector>

// The root digest of the map of "a" and "abc", with the values "1" and "x".
constexpr std::array<std::uint8_t, 32> root = {
    0xd4, 0xa8, 0xa9, 0xfc, 0x55, 0x05, 0x84, 0x27, 0x16, 0x3b, 0xd8, 0xa1,
    0xf0, 0x9c, 0xa5, 0xec, 0x54, 0x2d, 0xe1, 0xcd, 0xaf, 0x28, 0xdf, 0x10,
    0x0b, 0xe5, 0x47, 0x2e, 0x47, 0xb7, 0x25, 0x03,
};

// Returns the value of a key, or none if it is absent. Throws if the proof shows neither.
std::optional<std::string> look(std::string_view key, const std::vector<std::uint8_t> &proof)
{
    std::array<std::uint8_t, MST_VALUE_ROOM> value;
    auto bytes = reinterpret_cast<const std::uint8_t *>(key.data());
    auto told = mst_verify(1, root.data(), root.size(), bytes, key.size(), proof.data(),
                           proof.size(), value.data(), value.size());
    if (told == MST_ABSENT)
        return std::nullopt;
    if (told < 0)
        throw std::runtime_error("refused " + std::to_string(told));
    return std::string(value.begin(), value.begin() + told);
}

void tell(std::string_view key, const std::vector<std::uint8_t> &proof)
{
    try {
        auto value = look(key, proof);
        std::cout << (value ? "present " + *value : "absent") << "\n";
    } catch (const std::runtime_error &refused) {
        std::cout << refused.what() << "\n";
    }
}

int main()
{
    // That map's proof, which is the same for each key: its one node has both entries.
    const std::vector<std::uint8_t> proof = {
        0x01, 0x01, 0x00, 0x00, 0x00, 0x11, 0x01, 0x00, 0x00, 0x02, 0x00, 0x01,
        0x61, 0x01, 0x31, 0x00, 0x03, 0x61, 0x62, 0x63, 0x01, 0x78, 0x00,
    };
    auto forged = proof;
    forged[14] = '2'; // the value of "a"
    tell("a", proof);
    tell("b", proof);
    tell("a", forged);
}
