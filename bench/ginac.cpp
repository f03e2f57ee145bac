// Tables on standard input, a line of hexadecimal digits each, decoded first; `ginac N` then makes GiNaC's expression of each N times,
// which is where GiNaC combines like terms and factors. It does more than the paper on some inputs (powers of integers are evaluated) and
// writes no table.
#include <chrono>
#include <cstdint>
#include <cstdio>
#include <cstdlib>
#include <ginac/ginac.h>
#include <iostream>
#include <string>
#include <vector>

using bytes = std::vector<uint8_t>;
static std::vector<GiNaC::symbol> symbols;

static GiNaC::ex tree(const bytes &t, size_t &at) {
    const uint8_t *r = &t[16 * at++];
    int64_t n = 0;
    for (int i = 7; i >= 0; i--) n = static_cast<int64_t>(static_cast<uint64_t>(n) << 8 | r[8 + i]);
    if (r[0] == 0) return GiNaC::numeric(static_cast<long>(n));
    if (r[0] == 1) return symbols[r[8]];
    if (r[0] == 4) {
        GiNaC::ex base = tree(t, at), exponent = tree(t, at);
        return GiNaC::power(base, exponent);
    }
    GiNaC::exvector members;
    for (unsigned i = r[2] + 256u * r[3]; i > 0; i--) members.push_back(tree(t, at));
    if (r[0] == 2) return GiNaC::add(members);
    return GiNaC::mul(members);
}

int main(int argc, char **argv) {
    if (argc != 2) { std::puts("usage: ginac N"); return 2; }
    for (int i = 0; i < 256; i++) symbols.emplace_back("s" + std::to_string(i));
    std::vector<bytes> tables;
    std::string line;
    while (std::getline(std::cin, line)) {
        bytes t;
        for (size_t i = 0; i + 1 < line.size(); i += 2) t.push_back(static_cast<uint8_t>(std::stoi(line.substr(i, 2), nullptr, 16)));
        tables.push_back(t);
    }
    size_t operands = 0;
    auto start = std::chrono::steady_clock::now();
    for (long n = std::atol(argv[1]); n > 0; n--) {
        for (const bytes &t : tables) {
            size_t at = 0;
            operands += tree(t, at).nops();
        }
    }
    std::chrono::duration<double, std::nano> took = std::chrono::steady_clock::now() - start;
    std::printf("%.0f ns, %zu operands\n", took.count(), operands);
}
