// What both parts of check share: buffers between pages that nobody may touch, and the count of calls and differences.
#pragma once

#include <algorithm>
#include <cstdint>
#include <cstdio>
#include <cstdlib>
#include <string>
#include <sys/mman.h>
#include <unistd.h>
#include <vector>

using Bytes = std::vector<std::uint8_t>;

inline std::string hex(const std::uint8_t *bytes, std::size_t length) {
    static const char digits[] = "0123456789abcdef";
    std::string text;
    for (std::size_t k = 0; k < length; ++k)
        text += {digits[bytes[k] / 16], digits[bytes[k] % 16]};
    return text;
}

inline Bytes from_hex(const std::string &text) {
    Bytes bytes;
    for (std::size_t at = 0; at + 1 < text.size(); at += text[at] == ' ' ? 1 : 2)
        if (text[at] != ' ')
            bytes.push_back(static_cast<std::uint8_t>(std::stoi(text.substr(at, 2), nullptr, 16)));
    return bytes;
}

// The count, and the call under way for the report of a difference or a fault.

inline unsigned long calls = 0, differences = 0;
inline std::string (*present)() = [] { return std::string("no call"); };

inline void report(const char *what) { std::printf("%s: %s\n", what, present().c_str()); }

inline void ask(bool holds, const char *what) {
    if (!holds && ++differences <= 20)
        report(what);
}

// Pages between two that nobody may touch. A buffer lies against the one or the other.
class Pages {
  public:
    explicit Pages(std::size_t count) : size(count * page()) {
        void *all = mmap(nullptr, size + 2 * page(), PROT_NONE, MAP_PRIVATE | MAP_ANONYMOUS, -1, 0);
        if (all == MAP_FAILED)
            std::abort();
        first = static_cast<std::uint8_t *>(all) + page();
        allow(PROT_READ | PROT_WRITE);
    }
    void allow(int access) {
        if (mprotect(first, size, access) != 0)
            std::abort();
    }
    std::uint8_t *buffer(std::size_t length, bool at_end) { return at_end ? first + size - length : first; }
    std::uint8_t *first;
    const std::size_t size;

  private:
    static std::size_t page() { return static_cast<std::size_t>(sysconf(_SC_PAGESIZE)); }
};

// Pages that nobody may write while they are lent, one set for each end. To change their access is dear, so bytes that
// stand there already are left alone.
class Shown {
  public:
    const std::uint8_t *show(const Bytes &bytes, bool at_end) {
        Pages &pages = ends[at_end];
        std::uint8_t *lent = pages.buffer(bytes.size(), at_end);
        if (shown[at_end] != bytes) {
            pages.allow(PROT_READ | PROT_WRITE);
            std::copy(bytes.begin(), bytes.end(), lent);
            pages.allow(PROT_READ);
            shown[at_end] = bytes;
        }
        return lent;
    }

  private:
    Pages ends[2] = {Pages(4), Pages(4)};
    Bytes shown[2];
};

// What stands in a lent buffer before a call.
inline Bytes pattern(std::size_t length) {
    Bytes bytes(length);
    for (std::size_t k = 0; k < length; ++k)
        bytes[k] = static_cast<std::uint8_t>(k % 251 + 3);
    return bytes;
}
