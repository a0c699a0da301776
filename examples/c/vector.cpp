// Calls the library from C++, with what an empty vector has for its octets: vector
#include <plistconv.h>

#include <array>
#include <cstdio>
#include <random>
#include <vector>

using Key = std::array<uint8_t, PLISTCONV_HASH_KEY_OCTETS>;

// The key of this process, which nobody outside learns.
static Key fresh_key() {
    std::random_device device;
    Key key;
    for (auto &octet : key) octet = static_cast<uint8_t>(device());
    return key;
}
static const Key key = fresh_key();

// The canonical file of the octets, empty if they are refused.
static std::vector<uint8_t> canonical(const std::vector<uint8_t> &octets) {
    plistconv_refusal refusal;
    size_t length;
    std::vector<uint8_t> file;
    while (plistconv_canonical(octets.data(), octets.size(), key.data(), file.data(), file.size(), &length, &refusal) == 0) {
        if (length <= file.size()) return file;
        file.resize(length);
    }
    return {};
}

int main() {
    const std::vector<uint8_t> nothing, table = {'{', '}'}, broken = {'{'};
    const auto file = canonical(nothing);
    if (file.empty() || file != canonical(table) || !canonical(broken).empty()) return 1;
    std::puts("vector: as expected");
}
