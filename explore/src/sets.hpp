// Sets of files and of records, as bits, and short names of numbers.
#ifndef EXPLORE_SETS_HPP
#define EXPLORE_SETS_HPP

#include <cstdint>
#include <string>

using u8 = std::uint8_t;
using u16 = std::uint16_t;
using u32 = std::uint32_t;
using u64 = std::uint64_t;

// A set of files: file f is bit f, from 1 to LAST_FILE.
using Files = u32;
constexpr unsigned LAST_FILE = 31;

// The set of one file. There is no file 0.
inline Files only(unsigned file) {
    return file == 0 ? 0 : Files(1) << file;
}

inline unsigned least(Files files) {
    return unsigned(__builtin_ctz(files));
}

// The numbers of a set, each behind a space and a sign.
inline std::string words(Files files, const char *sign) {
    std::string text;
    for (unsigned file = 1; file <= LAST_FILE; file++) {
        text += files & only(file) ? std::string(" ") + sign + std::to_string(file) : "";
    }
    return text;
}

// Mixes the bits of a number, so that numbers that differ a little are far apart.
inline u64 mixed(u64 number) {
    number ^= number >> 32;
    number *= 0xd6e8feb86659fd93u;
    number ^= number >> 32;
    number *= 0xd6e8feb86659fd93u;
    return number ^ number >> 32;
}

#endif
