// A breadth-first search. States are told apart by a hash of 64 bits.
#include "search.hpp"

#include "steps.hpp"

#include <chrono>
#include <cstdio>

namespace {

struct Node {
    u64 hash;
    u32 parent; // its place
    u16 step;   // the number of the step that led here from the parent
} __attribute__((packed));

// The states that were found, in the order of finding.
class Found {
public:
    std::vector<Node> nodes;

    bool add(u64 hash, u32 parent, u16 step) {
        size_t place = hash & (places.size() - 1);
        for (; places[place]; place = (place + 1) & (places.size() - 1)) {
            if (nodes[places[place] - 1].hash == hash) {
                return false;
            }
        }
        nodes.push_back({hash, parent, step});
        places[place] = u32(nodes.size());
        if (nodes.size() * 2 > places.size()) {
            grow();
        }
        return true;
    }

private:
    std::vector<u32> places = std::vector<u32>(1 << 20); // a hash table, at most half full

    size_t free_place(u64 hash) const {
        size_t place = hash & (places.size() - 1);
        while (places[place]) {
            place = (place + 1) & (places.size() - 1);
        }
        return place;
    }
    void grow() {
        places.assign(places.size() * 2, 0);
        for (u32 at = 0; at < nodes.size(); at++) {
            places[free_place(nodes[at].hash)] = at + 1;
        }
    }
};

struct Level {
    std::vector<State> states;
    std::vector<u32> places; // of their nodes
};

class Search {
public:
    int run();

private:
    Found found;
    Level level, following;
    Steps steps;
    u64 made = 0;
    unsigned depth = 0;
    std::string fault; // of the last node

    bool is_over() const { return !fault.empty() || found.nodes.size() > scope.most_states; }
    void visit(u32 parent, unsigned step);
    void expand();
    // The steps that led to the last node.
    std::vector<u16> path() const;
    // Makes the steps again, and each call of the library anew.
    void print_trace() const;
    std::string result(double seconds) const;
};

void Search::visit(u32 parent, unsigned step) {
    made++;
    if (is_over() || !found.add(hash_of(steps.next), parent, u16(step))) {
        return;
    }
    following.states.push_back(steps.next);
    following.places.push_back(u32(found.nodes.size()) - 1);
    fault = fault_of(steps.next);
}

void Search::expand() {
    for (size_t at = 0; at < level.states.size() && !is_over(); at++) {
        const u32 parent = level.places[at];
        steps.of(level.states[at], [&](unsigned step) { visit(parent, step); });
    }
}

std::vector<u16> Search::path() const {
    std::vector<u16> path;
    for (u32 at = u32(found.nodes.size()) - 1; at != 0; at = found.nodes[at].parent) {
        path.push_back(found.nodes[at].step);
    }
    return {path.rbegin(), path.rend()};
}

void Search::print_trace() const {
    library.clear();
    State state = first_state();
    Steps telling;
    telling.is_telling = true;
    telling.tell_opening(state);
    for (u16 step : path()) {
        telling.chosen = step;
        telling.of(state, [](unsigned) {});
        state = telling.next;
    }
    telling.print();
    if (fault_of(state) != fault) {
        die("the same steps lead to another state");
    }
}

std::string Search::result(double seconds) const {
    const double states = double(found.nodes.size());
    const unsigned whole = depth - (is_over() && fault.empty() ? 1 : 0);
    char text[256];
    snprintf(text, sizeof text, "# %s %s depth %u states %.0f steps %llu seconds %.1f states/s %.0f images %zu calls %llu",
        !fault.empty() ? "fault"
        : is_over()    ? "cut"
                       : "holds",
        fault.c_str(), whole, states, static_cast<unsigned long long>(made), seconds, states / seconds, library.size(),
        static_cast<unsigned long long>(library.made()));
    return text;
}

int Search::run() {
    const auto start = std::chrono::steady_clock::now();
    level.states.push_back(first_state());
    level.places.push_back(0);
    found.add(hash_of(level.states[0]), 0, 0);
    while (!level.states.empty() && !is_over()) {
        following.states.clear();
        following.places.clear();
        expand();
        std::swap(level, following);
        depth += !level.states.empty();
    }
    const std::string told = result(std::chrono::duration<double>(std::chrono::steady_clock::now() - start).count());
    if (!fault.empty()) {
        print_trace();
    }
    puts(told.c_str());
    print_seen();
    return fault.empty() ? 0 : 1;
}

} // namespace

int search() {
    return Search().run();
}
