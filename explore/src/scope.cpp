// The names of the rules and of the limits, and the command line.
#include "scope.hpp"

#include <cstdio>
#include <cstdlib>
#include <cstring>
#include <functional>
#include <map>
#include <type_traits>

struct Named {
    const char *name, *words;
};

static const Named RULE[RULES] = {
#define NAMED(it, name, words) {name, words},
#include "rules.def"
};

static const Named BUDGET[BUDGETS] = {
#define NAMED(it, name, words) {name, words},
#include "limits.def"
};

Scope scope;

Scope::Scope() {
    for (bool &rule : is_on) {
        rule = true;
    }
}

void die(const std::string &why) {
    fprintf(stderr, "explore: %s\n", why.c_str());
    exit(2);
}

static int place_of(const Named *list, int len, const std::string &name) {
    for (int place = 0; place < len; place++) {
        if (name == list[place].name) {
            return place;
        }
    }
    die("there is no " + name);
}

static u64 number_of(const std::string &text) {
    char *end = nullptr;
    u64 number = strtoull(text.c_str(), &end, 10);
    if (text.empty() || *end != 0 || text[0] == '-') {
        die("not a number: " + text);
    }
    return number;
}

static const char OPTIONS[] = R"(explore [OPTION..] [LIMIT=N..]: searches all states of a scope for a fault.
Its status is 0 (there is none), 1 (a fault) or 2 (its own).
  --off RULE        without this rule; may come several times
  --subtasks N, --at-once N, --retained N, --tolerable N   of the job
  --names           the coordinator has terms and gives the names of files
  --no-leaks        files that stay are no fault
  --no-keep         no task keeps a file for a later record
  --states N        ends a search that has found so many states
  --runs N, --seed N, --length N   random runs instead, of so many steps
  --trace           a random run prints its trace
)";

static void print_words() {
    printf("%srules\n", OPTIONS);
    for (const Named &rule : RULE) {
        printf("  %-17s %s\n", rule.name, rule.words);
    }
    printf("limits\n");
    for (const Named &budget : BUDGET) {
        printf("  %-17s %s\n", budget.name, budget.words);
    }
}

static void print_help() {
    print_words();
    exit(0);
}

static void check_elements() {
    const unsigned *limit = scope.limit;
    const unsigned records = limit[TRIGGERS] + limit[DECLINES] + limit[SAVEPOINTS] + limit[NOW] + limit[STOPS] + limit[BACKS];
    if (limit[ELEMENTS] > LAST_RECORD || records > LAST_RECORD || limit[NAMES] > 0 || limit[SCALES] > 0) {
        die("out of range: with elem, at most 7 elements, trig, decl, save, now, stop and back up to 7 together, name=0 and no scale");
    }
}

static void check_scope() {
    const unsigned *limit = scope.limit;
    if (scope.has_elements()) {
        check_elements();
    }
    if (scope.subtasks < 1 || scope.subtasks > 2 || scope.at_once < 1 || scope.at_once > 3 || limit[MESSAGES] > 6 || limit[NAMES] > 30 ||
        limit[TRIGGERS] + limit[SAVEPOINTS] + limit[NOW] + limit[STOPS] + limit[BACKS] > 30) {
        die("out of range: --subtasks 1 or 2, --at-once 1 to 3, msg up to 6, name up to 30, trig, save, now, stop and back up to 30 "
            "together");
    }
    if (limit[SCALES] > 0 && (scope.subtasks != 2 || limit[LOSSES] > 0)) {
        die("scale is for --subtasks 2, with which a job begins, and not with lose");
    }
}

using Option = std::function<void(const std::string &)>;

// The options that have a value.
static std::map<std::string, Option> valued() {
    auto into = [](auto &field) { return [&field](const std::string &text) { field = std::decay_t<decltype(field)>(number_of(text)); }; };
    return {
        {"--off", [](const std::string &text) { scope.is_on[place_of(RULE, RULES, text)] = false; }},
        {"--subtasks", into(scope.subtasks)},
        {"--at-once", into(scope.at_once)},
        {"--retained", into(scope.retained)},
        {"--tolerable", into(scope.tolerable)},
        {"--states", into(scope.most_states)},
        {"--runs", into(scope.runs)},
        {"--seed", into(scope.seed)},
        {"--length", into(scope.length)},
    };
}

static std::map<std::string, std::function<void()>> switches() {
    return {
        {"--names", [] { scope.names = true; }},
        {"--no-leaks", [] { scope.checks_leaks = false; }},
        {"--no-keep", [] { scope.may_keep = false; }},
        {"--trace", [] { scope.prints_trace = true; }},
        {"--help", print_help},
    };
}

void read_scope(int argc, char **argv) {
    const auto with_value = valued();
    const auto without = switches();
    for (int at = 1; at < argc; at++) {
        const std::string word = argv[at];
        const size_t equals = word.find('=');
        if (auto found = without.find(word); found != without.end()) {
            found->second();
        } else if (auto option = with_value.find(word); option != with_value.end()) {
            option->second(at + 1 < argc ? argv[++at] : "");
        } else if (equals != std::string::npos) {
            scope.limit[place_of(BUDGET, BUDGETS, word.substr(0, equals))] = unsigned(number_of(word.substr(equals + 1)));
        } else {
            die("there is no " + word);
        }
    }
    check_scope();
}
