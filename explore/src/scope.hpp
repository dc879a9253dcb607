// What a search explores: the rules that are on, how often each fault may happen, and the settings of the job.
#ifndef EXPLORE_SCOPE_HPP
#define EXPLORE_SCOPE_HPP

#include "sets.hpp"

enum Rule {
#define NAMED(it, name, words) it,
#include "rules.def"
    RULES
};

enum Budget {
#define NAMED(it, name, words) it,
#include "limits.def"
    BUDGETS
};

// With elements a set of records, or of elements, is a byte.
constexpr unsigned LAST_RECORD = 7;

struct Scope {
    bool is_on[RULES];
    unsigned limit[BUDGETS] = {3, 0, 0, 1, 0, 1, 0, 0, 1, 0, 0, 0, 4, 3, 0, 0, 0, 0, 0, 0, 0, 0};
    bool names = false;       // the coordinator has terms and gives the names
    bool checks_leaks = true; // else only lost files and mixed records are looked for
    bool may_keep = true;
    unsigned subtasks = 1, at_once = 1, retained = 1, tolerable = 1000;
    u64 most_states = 40000000;
    u64 runs = 0, seed = 1; // random runs instead of a search
    unsigned length = 400;
    bool prints_trace = false; // a random run that finds nothing prints its trace too
    // Tasks read elements and a sink publishes them. No task has files then.
    bool has_elements() const { return limit[ELEMENTS] > 0; }
    // The storage has manifests, from which a job that lost its log is made again.
    bool has_manifests() const { return limit[LOSSES] > 0; }
    bool has_operations() const { return limit[NOW] + limit[CONFIGURES] + limit[STOPS] + limit[BACKS] > 0; }
    Scope();
};

extern Scope scope;

// Reads the command line into the scope. Ends the program, with status 2, if it is wrong.
void read_scope(int argc, char **argv);

// Ends the program with status 2: the explorer itself is at fault, or its caller.
[[noreturn]] void die(const std::string &why);

#endif
