#include "sheets.hpp"

#include <mollavisce.hpp>

#include <random>

const Bench bench[9] = {
    {"01 00 00", "00 00 00 00 00 00"},                                                                   // P1
    {"01 01 00 01 00 01 00 01 01 00 00", "01 00 00 00 01 01 00"},                                        // P2
    {"01 01 00 02 00 01 00 01 01 00 01 01 00 01 00 00", "00 00 00 00 00 00"},                            // P3
    {"01 02 00 01 02 00 01 00 01 02 00 01 01 00 01 01 01 01 02 00 00 01 01", "03 00 00 00 02 02 00 01"}, // P4
    {"01 02 00 01 02 00 01 00 01 02 00 01 01 01 01 01 01 01 02 00 00 01 01", "00 00 00 00 00 00"},       // P5
    {"01 02 00 01 03 00 01 00 01 02 00 01 01 00 01 01 01 01 02 00 00 01 01 02 01 00 01 01 00 01",
     "07 00 00 00 03 02 00 01"}, // P6
    {"01 02 00 01 03 00 01 00 02 02 00 02 01 00 01 01 01 01 02 00 02 01 01 02 00 02 00 00 01 00",
     "00 00 00 00 00 00"}, // P7
    {"01 03 00 01 02 03 00 01 00 02 02 00 02 01 00 01 01 01 01 02 00 02 01 01 02 01 02 01 03 00 00 01 00 02 00",
     "07 00 00 00 03 01 02"},                                                                                  // P8
    {"01 02 00 01 03 00 01 00 01 01 00 01 01 01 01 01 02 00 00 01 00 02 00 01 00 00", "03 00 00 00 02 01 01"}, // P9
};

unsigned below(unsigned bound) {
    static std::mt19937_64 source(20261115);
    return static_cast<unsigned>(source() % bound);
}

Bytes written(const reference::Table &table) {
    Bytes sheet(mollavisce::longest_sheet);
    sheet.resize(reference::write(table, sheet.data(), sheet.size()));
    return sheet;
}

reference::Table random_table() {
    static const unsigned reaches[] = {2, 2, 3, 4, 130, 65536};
    const unsigned reach = one_of(reaches), open = below(5) * 25, live = below(5) * 25, blocked = below(101),
                   joined = below(11) * below(11);
    reference::Table table;
    for (bool &is_open : table.open)
        is_open = below(100) <= open;
    for (unsigned k = 0; k < 32; ++k) {
        if (below(100) > live)
            continue;
        reference::Task &task = table.task[k];
        task.state = reference::State::running;
        const unsigned awaited = below(16);
        if (table.open[awaited] && below(100) < blocked)
            task = {reference::State::blocked, awaited, below(reach)};
        for (unsigned p = 0; p < 16; ++p)
            if (table.open[p] && below(100) < joined) {
                table.member[k][p] = true;
                table.phase[k][p] = below(reach);
            }
    }
    return table;
}

// On phaser p task 2p has phase 1 and task 2p + 1 phase 0, so (p, 2) leads to the one and (p, 1) to the other.
Bytes stepping(const unsigned (&next)[32]) {
    reference::Table table;
    for (bool &open : table.open)
        open = true;
    for (unsigned k = 0; k < 32; ++k) {
        table.task[k] = {reference::State::blocked, next[k] / 2, 2 - next[k] % 2};
        table.member[k][k / 2] = true;
        table.phase[k][k / 2] = 1 - k % 2;
    }
    return written(table);
}

reference::Table longest_table() {
    reference::Table table;
    for (bool &open : table.open)
        open = true;
    for (unsigned k = 0; k < 32; ++k) {
        table.task[k] = {reference::State::blocked, k % 16, 65535};
        for (unsigned p = 0; p < 16; ++p) {
            table.member[k][p] = true;
            table.phase[k][p] = p == k % 16 || (p + 1) % 16 == k % 16 ? 65534 : 65535;
        }
    }
    return table;
}

void damage(Bytes &sheet) {
    static const std::uint8_t values[] = {0, 1, 2, 15, 16, 31, 32, 127, 128, 255};
    const std::size_t at = below(static_cast<unsigned>(sheet.size()));
    const std::uint8_t value = below(2) ? one_of(values) : static_cast<std::uint8_t>(below(256));
    const auto place = sheet.begin() + static_cast<long>(at);
    switch (below(4)) {
    case 0:
        *place = value;
        break;
    case 1:
        sheet.insert(place, value);
        break;
    case 2:
        sheet.erase(place);
        break;
    default:
        sheet.resize(at);
    }
}

void each_damage(const Bytes &sheet, const Trial &trial) {
    for (std::size_t at = 0; at < sheet.size(); ++at) {
        trial({sheet.begin(), sheet.begin() + static_cast<long>(at)});
        for (unsigned value = 0; value < 256; ++value) {
            Bytes damaged = sheet;
            damaged[at] = static_cast<std::uint8_t>(value);
            trial(damaged);
        }
    }
    for (unsigned value = 0; value < 256; ++value) {
        Bytes longer = sheet;
        longer.push_back(static_cast<std::uint8_t>(value));
        trial(longer);
    }
}

void each_number(const Bytes &sheet, const Trial &trial) {
    static const char *const numbers[] = {"0f",     "10",     "11",     "1f",     "20",     "21",     "7f",
                                          "8000",   "8100",   "8001",   "ff7f",   "808000", "818000", "808001",
                                          "ffff03", "808004", "818004", "ffff7f", "808080", "ffffff", "80808001"};
    for (std::size_t at = 0; at < sheet.size(); ++at)
        for (const char *number : numbers) {
            const auto place = sheet.begin() + static_cast<long>(at);
            const Bytes bytes = from_hex(number);
            Bytes damaged(sheet.begin(), place);
            damaged.insert(damaged.end(), bytes.begin(), bytes.end());
            trial(damaged);
            damaged.insert(damaged.end(), place + 1, sheet.end());
            trial(damaged);
        }
}

Bytes random_bytes() {
    static const std::uint8_t values[] = {0, 1, 1, 2, 3, 128, 129, 255};
    Bytes sheet = {1};
    const unsigned kinds = 1 + below(8);
    for (unsigned length = below(40); length > 0; --length)
        sheet.push_back(values[below(kinds)]);
    return sheet;
}
