// What all parts of the engine share: its sizes, the reaction to faults, and choices by the seed.
#ifndef ENGINE_COMMON_HPP
#define ENGINE_COMMON_HPP

#include <chrono>
#include <cstdint>
#include <filesystem>
#include <iostream>
#include <sstream>
#include <string>
#include <thread>
#include <unistd.h>
#include <vector>

namespace fs = std::filesystem;
using Files = std::vector<uint64_t>;

constexpr unsigned PARTITIONS = 12; // of the stream
constexpr unsigned TASKS = 4;       // the job's first parallelism
constexpr unsigned OTHER_TASKS = 3; // that which it is restored in once

template <class... Parts> std::string text_of(const Parts &...parts) {
    std::ostringstream text;
    (text << ... << parts);
    return text.str();
}

// Ends the process at once if the condition does not hold: no other thread goes on.
#define CHECK(condition, ...)                                                                          \
    do {                                                                                               \
        if (!(condition)) {                                                                            \
            std::cerr << text_of("engine: ", __VA_ARGS__, " (", __FILE__, ", line ", __LINE__, ")\n"); \
            _exit(1);                                                                                  \
        }                                                                                              \
    } while (0)

// A number that looks random, and is the same for the same x.
inline uint64_t mixed(uint64_t x) {
    x += 0x9e3779b97f4a7c15u;
    x = (x ^ (x >> 30)) * 0xbf58476d1ce4e5b9u;
    x = (x ^ (x >> 27)) * 0x94d049bb133111ebu;
    return x ^ (x >> 31);
}

// Choices by a seed, for one thread.
struct Chance {
    uint64_t state;

    uint64_t below(uint64_t most) {
        state = mixed(state);
        return state % most;
    }
};

// Milliseconds of a clock that never jumps.
inline uint64_t now() {
    using namespace std::chrono;
    return uint64_t(duration_cast<milliseconds>(steady_clock::now().time_since_epoch()).count());
}

inline void sleep_ms(uint64_t ms) {
    std::this_thread::sleep_for(std::chrono::milliseconds(ms));
}

// Makes an empty folder. Whatever was there is removed.
inline void empty_folder(const fs::path &path) {
    fs::remove_all(path);
    fs::create_directory(path);
}

#endif
