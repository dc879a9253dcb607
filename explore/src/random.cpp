// Random runs with seeds. At each crash the log is replayed, line by line, and must give the coordinator that the state has.
#include "search.hpp"

#include "steps.hpp"

#include <cstdio>

namespace {

// splitmix64
class Random {
public:
    explicit Random(u64 seed) : state(seed) {}
    u64 below(u64 limit) { return word() % limit; }
    u64 word() {
        u64 word = state += 0x9e3779b97f4a7c15u;
        word = (word ^ word >> 30) * 0xbf58476d1ce4e5b9u;
        word = (word ^ word >> 27) * 0x94d049bb133111ebu;
        return word ^ word >> 31;
    }

private:
    u64 state;
};

class Run {
public:
    Run(u64 seed, u64 *made, u64 *replays) : random(seed), made(made), replays(replays) {
        steps.loses = true;
        steps.log = &log;
        steps.is_telling = scope.prints_trace;
        steps.tell_opening(state);
    }
    // Returns what is wrong with the last state.
    std::string go();
    void print() const { steps.print(); }

private:
    // Looking for files that stay takes calls of the library, so only each sixteenth state is looked at.
    static constexpr unsigned SELDOM = 16;
    Random random;
    u64 *made, *replays;
    Log log;
    Steps steps;
    State state = first_state();

    bool step();
    void check_replay();
};

void Run::check_replay() {
    if (library.replayed(log.lines, log.first, random.word()) != library.text(state.durable.image)) {
        die("the log's replay gives another coordinator");
    }
    ++*replays;
}

bool Run::step() {
    const std::vector<std::string> told = steps.lines;
    steps.is_telling = false;
    steps.log = nullptr;
    steps.chosen = Steps::ALL - 1; // none: it counts them
    const unsigned count = steps.of(state, [](unsigned) {});
    steps.is_telling = scope.prints_trace;
    steps.log = &log;
    if (count == 0) {
        return false; // only faults are left
    }
    steps.chosen = unsigned(random.below(count));
    bool is_made = false;
    const size_t lines = log.lines.size();
    steps.of(state, [&](unsigned) { is_made = true; });
    if (is_made) {
        state = steps.next;
        ++*made;
    } else { // a tick that triggers nothing
        log.lines.resize(lines);
        steps.lines = told;
    }
    return is_made;
}

std::string Run::go() {
    const u64 rarity = 4 + 8 * random.below(4);
    const bool checks_leaks = scope.checks_leaks;
    std::string fault;
    for (unsigned at = 0; at < scope.length && fault.empty(); at++) {
        const bool was_down = state.is_down;
        steps.has_faults = random.below(rarity) == 0;
        if (step() && !was_down && state.is_down && scope.is_on[ONE_LOG]) {
            check_replay();
        }
        scope.checks_leaks = checks_leaks && (at % SELDOM == SELDOM - 1 || at + 1 == scope.length);
        fault = fault_of(state);
    }
    scope.checks_leaks = checks_leaks;
    return fault;
}

} // namespace

int run_randomly() {
    u64 made = 0, replays = 0;
    for (u64 run = 0; run < scope.runs; run++) {
        if (library.size() > 300000) {
            library.clear();
        }
        Run it(scope.seed + run, &made, &replays);
        const std::string fault = it.go();
        if (scope.prints_trace) {
            it.print();
        }
        if (!fault.empty()) {
            printf("# fault %s seed %llu\n", fault.c_str(), static_cast<unsigned long long>(scope.seed + run));
            return 1;
        }
    }
    const auto number = [](u64 it) { return static_cast<unsigned long long>(it); };
    printf("# holds runs %llu steps %llu replays %llu calls %llu\n", number(scope.runs), number(made), number(replays),
        number(library.made()));
    print_seen();
    return 0;
}
