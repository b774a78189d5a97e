// The rack test from C++: all calls, on the set whose file is named.
//
//     c++ -Iinclude examples/use.cpp target/staticlib/librack.a -o target/use_cpp
//     target/use_cpp examples/x.set
#include <algorithm>
#include <cstddef>
#include <cstdint>
#include <fstream>
#include <iostream>
#include <iterator>
#include <vector>

#include "rack.h"

// Prints what a verdict says; false where the set was refused.
static bool print_verdict(const char *call, const rack_verdict &verdict) {
    if (verdict.number == RACK_OK) {
        std::cout << call << ": accepted\n";
    } else if (verdict.number == RACK_OVERRUN) {
        std::cout << call << ": " << verdict.x << " ticks may carry " << verdict.w << " units\n";
    } else {
        std::cout << "refused " << verdict.number << " at record " << verdict.place << '\n';
        return false;
    }
    return true;
}

// Hands in the set as a poor link does, in parts that end anywhere.
static rack_verdict upload_in_parts(const std::uint8_t *set, std::size_t len,
                                    std::size_t part_len) {
    std::vector<std::uint8_t> room(65536);
    rack_upload upload = rack_upload_begin();
    for (std::size_t at = 0; at < len; at += part_len)
        rack_upload_part(&upload, room.data(), room.size(), set + at, std::min(part_len, len - at));
    return rack_upload_close(&upload, room.data(), room.size(), 2, 1, 1);
}

int main(int count, char **names) {
    std::ifstream file(count == 2 ? names[1] : "", std::ios::binary);
    if (!file) {
        std::cerr << "usage: use_cpp SET\n";
        return 2;
    }
    const std::vector<char> bytes{std::istreambuf_iterator<char>(file), {}};
    const auto *set = reinterpret_cast<const std::uint8_t *>(bytes.data());

    if (!print_verdict("judge on 2 processors at 1/1", rack_judge(set, bytes.size(), 2, 1, 1)))
        return 1;

    // With 0/0 the library picks the speed and names it: there is one, since no task was dense.
    const rack_verdict unnamed = rack_judge(set, bytes.size(), 2, 0, 0);
    std::cout << "judge on 2 processors at 0/0: the speed is " << unnamed.p << '/' << unnamed.q
              << '\n';

    const rack_task_figures figures = rack_figures(set, bytes.size(), 0);
    std::cout << "figures of task 0: length " << figures.length << ", volume " << figures.volume
              << '\n';

    const rack_task_demand demand = rack_demand(set, bytes.size(), 0, 1, 1, 65);
    if (demand.number == RACK_OK)
        std::cout << "demand of task 0 at 1/1, tick 65: " << demand.work << '\n';

    std::vector<std::uint32_t> table(512);
    const rack_task_layers layers =
        rack_layers(set, bytes.size(), 0, 1, 1, table.data(), table.size());
    std::cout << "layers of task 0 at 1/1:";
    for (std::uint64_t i = 0; i < layers.pairs; i++)
        std::cout << " (" << table[2 * i] << ',' << table[2 * i + 1] << ')';
    std::cout << '\n';

    print_verdict("upload in parts of 7 bytes, judged on 2 processors at 1/1",
                  upload_in_parts(set, bytes.size(), 7));
}
