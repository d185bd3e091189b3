// sheetdensity in plain C++ (reference.cpp), to compare lines and times with. It holds the whole file.
//
//     density [FILE]    the file, or without one standard input
#include "reference.hpp"

#include <cstdio>

namespace {

// A thousand of the longest pieces and a byte more settle any file.
std::uint8_t bytes[1000 * (3 + 4096) + 1];

} // namespace

int main(int count, char **words) {
    std::FILE *file = count > 1 ? std::fopen(words[1], "rb") : stdin;
    if (count > 2 || file == nullptr)
        return 1;
    const std::size_t held = std::fread(bytes, 1, sizeof bytes, file);
    if (std::ferror(file) != 0)
        return 1;
    const std::string lines = reference::densities(bytes, held);
    const bool printed = std::fwrite(lines.data(), 1, lines.size(), stdout) == lines.size() && std::fflush(stdout) == 0;
    return printed ? 0 : 1;
}
