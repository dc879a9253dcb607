/* aligner ROWS UNALIGNED: the alignment and the recorder of the C++ header, by the steps of examples/alignment.rows and examples/unaligned.rows; and
 * acknowledgements that take a cut. */
#include "../../include/relkvanu.hpp"

#include <cstdio>
#include <cstdlib>
#include <fstream>
#include <sstream>
#include <type_traits>

using ckpt::aligner;
using ckpt::recorder;

static_assert(!std::is_copy_constructible_v<aligner> && std::is_nothrow_move_constructible_v<aligner>);
static_assert(!std::is_copy_constructible_v<recorder> && std::is_nothrow_move_constructible_v<recorder> &&
              !std::is_copy_constructible_v<ckpt::complete>);
static_assert(!std::is_copy_constructible_v<ckpt::cut> && !std::is_constructible_v<ckpt::cut, std::uint64_t>);
static_assert(noexcept(std::declval<aligner &>().barrier(0, 1)) &&noexcept(std::declval<const aligner &>().element(0)));

static void check(bool holds, const char *what) {
    if (!holds) {
        std::fprintf(stderr, "%s does not hold\n", what);
        std::exit(1);
    }
}

#define CHECK(condition) check(condition, #condition)

static const char *name(ckpt::step step) {
    switch (step) {
    case ckpt::step::process: return "process";
    case ckpt::step::hold: return "hold";
    case ckpt::step::nothing: return "nothing";
    case ckpt::step::wait: return "wait";
    case ckpt::step::late: return "late";
    case ckpt::step::unknown_input: return "unknown_input";
    case ckpt::step::held_input: return "held_input";
    case ckpt::step::ended_input: return "ended_input";
    case ckpt::step::bad_inputs: return "bad_inputs";
    case ckpt::step::record: return "record";
    default: return "unknown";
    }
}

/* What an answer is in a row. */
struct telling {
    std::string operator()(ckpt::step step) const { return std::string(name(step)) + " 0"; }
    std::string operator()(const ckpt::cut &cut) const { return "cut " + std::to_string(cut.id()); }
    std::string operator()(const ckpt::abandon &abandon) const { return "abandon " + std::to_string(abandon.id); }
    std::string operator()(const ckpt::snap &snap) const { return "snap " + std::to_string(snap.id); }
    std::string operator()(const ckpt::complete &complete) const { return "complete " + std::to_string(complete.of.id()); }
};

template <class Task> static std::string opened(std::optional<Task> &task, std::size_t inputs) {
    std::variant<Task, ckpt::step> opened = Task::open(inputs);
    if (const ckpt::step *why = std::get_if<ckpt::step>(&opened)) {
        return telling()(*why);
    }
    task.emplace(std::get<Task>(std::move(opened)));
    return telling()(ckpt::step::nothing);
}

template <class Task>
static std::string made(std::optional<Task> &task, const std::string &event, std::uint64_t first, std::uint64_t second) {
    if (event == "open") {
        return opened(task, first);
    }
    std::uint32_t input = static_cast<std::uint32_t>(first);
    if (event == "element") {
        return telling()(task->element(input));
    }
    if (event == "barrier") {
        return std::visit(telling(), task->barrier(input, second));
    }
    if constexpr (std::is_same_v<Task, recorder>) {
        if (event == "overtake") {
            return std::visit(telling(), task->overtake(first));
        }
    }
    return std::visit(telling(), event == "end" ? task->end(input) : task->give_up(first));
}

template <class Task> static int rows(const char *path) {
    std::ifstream file(path);
    std::optional<Task> task;
    int count = 0;
    for (std::string row; std::getline(file, row);) {
        std::size_t middle = row.find(" = ");
        if (middle == std::string::npos) {
            continue;
        }
        std::istringstream words(row.substr(0, middle));
        std::string event;
        std::uint64_t first = 0, second = 0;
        words >> event >> first >> second;
        std::string is = made(task, event, first, second), wanted = row.substr(middle + 3);
        if (is != wanted) {
            std::fprintf(stderr, "%s: it is %s\n", row.c_str(), is.c_str());
            std::exit(1);
        }
        count++;
    }
    return count;
}

static ckpt::cut cut_of(std::uint64_t record) {
    aligner task = std::get<aligner>(aligner::open(1));
    return std::get<ckpt::cut>(task.barrier(0, record));
}

static void acknowledges() {
    relkvanu_settings settings{};
    settings.interval = 1000;
    settings.at_once = settings.timeout = settings.retained = 1;
    const std::vector<std::uint64_t> shape{1}, file{7};
    ckpt::Coordinator job = std::get<ckpt::Coordinator>(ckpt::Coordinator::open(settings, shape, 0));
    CHECK(std::get<ckpt::triggered>(job.tick(1000)).id == 1);
    CHECK(std::get<ckpt::ack_completed>(job.ack_cut(1000, cut_of(1), 0, 0, file)).released == 0 && job.count(7) == 1);
    ckpt::Coordinator named = std::get<ckpt::Coordinator>(ckpt::Coordinator::open_fenced(settings, shape, 0, 1, 7));
    CHECK(std::get<ckpt::triggered>(named.tick(1000)).id == 1 && std::get<ckpt::reserved>(named.reserve(1, 1)).first == 7);
    CHECK(std::get<ckpt::refused>(named.ack_cut_in(2, 1000, cut_of(1), 0, 0, file)).why == ckpt::error::fenced_old_term);
    CHECK(std::get<ckpt::ack_completed>(named.ack_cut_in(1, 1000, cut_of(1), 0, 0, file)).released == 0);
}

int main(int argc, char **argv) {
    CHECK(argc == 3 && rows<aligner>(argv[1]) > 80 && rows<recorder>(argv[2]) > 60);
    acknowledges();
    return 0;
}
