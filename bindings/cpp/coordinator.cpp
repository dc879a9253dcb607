/* The C++ header, call by call and read by read, with values that are worked out from docs/RULES.md. */
#include "../../include/relkvanu.hpp"

#include "aborts.hpp"

#include <cstdio>
#include <cstdlib>
#include <type_traits>
#include <vector>

using ckpt::Coordinator;

static_assert(!std::is_copy_constructible_v<Coordinator> && !std::is_copy_assignable_v<Coordinator>);
static_assert(std::is_nothrow_move_constructible_v<Coordinator> && std::is_nothrow_move_assignable_v<Coordinator>);

static_assert(noexcept(std::declval<Coordinator &>().ack(0, 0, 0, 0, {})) &&noexcept(std::declval<Coordinator &>().count(0)));
static_assert(!noexcept(std::declval<Coordinator &>().show(0)));
static_assert(noexcept(std::declval<Coordinator &>().ack_in(1, 0, 0, 0, 0, {})) &&noexcept(std::declval<Coordinator &>().reserve(1, 1)));

/* Whether braces of a pointer and a length, or of the files 0 and 2, are taken for a list of files. */
template <class C, class = void> struct takes_pointer : std::false_type {};
template <class C> struct takes_pointer<C, std::void_t<decltype(std::declval<C &>().ack(0, 0, 0, 0, {(const std::uint64_t *)nullptr, 2}))>>
    : std::true_type {};
template <class C, class = void> struct takes_zero : std::false_type {};
template <class C> struct takes_zero<C, std::void_t<decltype(std::declval<C &>().ack(0, 0, 0, 0, {0, 2}))>> : std::true_type {};
static_assert(takes_pointer<Coordinator>::value && !takes_zero<Coordinator>::value);

static void check(bool holds, const char *what) {
    if (!holds) {
        std::fprintf(stderr, "%s does not hold\n", what);
        std::exit(1);
    }
}

#define CHECK(condition) check(condition, #condition)

static relkvanu_settings settings() {
    relkvanu_settings it{};
    it.interval = 1000;
    it.at_once = 2;
    it.timeout = 5000;
    it.retained = 1;
    return it;
}

static Coordinator opened(std::vector<std::uint64_t> of = {2}) {
    return std::get<Coordinator>(Coordinator::open(settings(), of, 0));
}

template <class Answer> static bool is(const Answer &answer, ckpt::error why, std::uint64_t file = 0) {
    const ckpt::refused *refused = std::get_if<ckpt::refused>(&answer);
    return refused != nullptr && refused->why == why && refused->file == file;
}

/* Checkpoint 1 is completed, savepoint 2 is pending, and checkpoint 3 replaces checkpoint 1. */
static Coordinator with_checkpoint_3() {
    Coordinator job = opened();
    const std::vector<std::uint64_t> first{1, 2}, second{3}, third{4}, fourth{5}, reused{1};
    CHECK(std::get<ckpt::triggered>(job.tick(1000)).id == 1);
    CHECK(std::get<ckpt::ack_pending>(job.ack(1100, 1, 0, 0, first)).missing == 1);
    CHECK(std::get<ckpt::savepoint_triggered>(job.savepoint(1200)).id == 2);
    CHECK(std::get<ckpt::ack_completed>(job.ack(1300, 1, 0, 1, second)).released == 0);
    CHECK(std::get<ckpt::triggered>(job.tick(2000)).id == 3);
    CHECK(std::get<ckpt::ack_pending>(job.ack(2100, 3, 0, 0, third, reused)).missing == 1);
    ckpt::ack_completed completed = std::get<ckpt::ack_completed>(job.ack(2100, 3, 0, 1, fourth));
    CHECK(completed.dropped == 1 &&
          completed.released == 2); /* the savepoint was triggered before checkpoint 1 was complete, and pins nothing */
    return job;
}

static void reads() {
    Coordinator job = with_checkpoint_3();
    CHECK(job.mode() == ckpt::mode::running && job.due() == 3000 && job.oldest_expiry() == 6200);
    CHECK(job.moment() == 2100);
    CHECK(std::get<ckpt::checkpoint>(job.choice()).id == 3);
    CHECK(job.live(0)->id == 2 && job.live(0)->is_savepoint && !job.live(0)->is_done);
    CHECK(job.live(1)->id == 3 && !job.live(1)->is_savepoint && job.live(1)->is_done && !job.live(2));
    CHECK(job.missing(2) == 2 && !job.missing(3));
    CHECK(job.count(1) == 1 && job.count(2) == 0);
    CHECK(std::get<std::string>(job.show(3)).find("\"files\":[1,4]") != std::string::npos);
}

using list = std::vector<std::uint64_t>;

static void recovers() {
    Coordinator job = with_checkpoint_3();
    CHECK(job.live_from(3)->id == 3 && job.live_from(3)->is_done && !job.live_from(4));
    CHECK(job.standing(0) == ckpt::standing::never && job.standing(2) == ckpt::standing::pending &&
          job.standing(4) == ckpt::standing::not_yet);
    CHECK(job.files_of(3, 0, 0) == (list{1, 4}) && !job.files_of(2, 0, 0));
    CHECK(std::get<ckpt::triggered>(job.tick(3000)).id == 4 && std::get<list>(job.pins_of(4)) == (list{1, 4, 5}));
    CHECK(job.waiting_file(1) == 3 && !job.waiting_file(2));
    std::uint64_t buffer[1];
    CHECK(std::get<ckpt::files>(job.take(buffer)).size() == 1 && std::get<list>(job.taken_files()) == list{2});
}

static void is_saved() {
    Coordinator job = with_checkpoint_3();
    std::string image = std::get<std::string>(job.save());
    Coordinator again = std::get<Coordinator>(Coordinator::open_saved(image));
    CHECK(std::get<std::string>(again.save()) == image);
    CHECK(std::get<ckpt::triggered>(again.tick(3000)).id == 4 && std::get<ckpt::triggered>(job.tick(3000)).id == 4);
    CHECK(std::get<std::string>(again.save()) == std::get<std::string>(job.save()));
    CHECK(is(Coordinator::open_saved("{}"), ckpt::error::bad_image) && is(Coordinator::open_saved(""), ckpt::error::bad_image));
}

static void files() {
    Coordinator job = with_checkpoint_3();
    std::uint64_t buffer[4];
    CHECK(std::get<ckpt::cancelled>(job.cancel(2200)).released == 3);
    relkvanu_counts counts = job.file_counts();
    CHECK(counts.in_use == 0 && counts.waiting + counts.taken == 5);
    ckpt::files taken = std::get<ckpt::files>(job.take(buffer));
    CHECK(taken.size() == 4 && taken.data() == buffer);
    CHECK(std::get<ckpt::reported>(job.deleted(taken[0])).file == buffer[0]);
    CHECK(std::get<ckpt::reported>(job.undeleted(taken[1])).file == buffer[1]);
    CHECK(is(job.deleted(taken[0]), ckpt::error::not_taken));
    CHECK(std::get<ckpt::files>(job.take({})).empty());
}

static void restores() {
    Coordinator job = with_checkpoint_3();
    const std::vector<std::uint64_t> wider{1, 3}, none, bad(257, 1);
    CHECK(std::get<ckpt::ack_pending>(job.ack(2200, 2, 0, 0, none)).missing == 1);
    CHECK(std::get<ckpt::ack_completed>(job.ack(2200, 2, 0, 1, none)).dropped == 0);
    CHECK(std::get<ckpt::checkpoint>(std::get<ckpt::restored>(job.restore(2300)).from).id == 3);
    CHECK(std::get<ckpt::savepoint>(std::get<ckpt::restored>(job.roll_back(2300, 2, wider)).from).id == 2);
    CHECK(is(job.roll_back(2300, 0), ckpt::error::no_such_savepoint));
    CHECK(is(job.restore(std::uint64_t{1} << 62, bad), ckpt::error::bad_shape)); /* before any refusal */
    CHECK(is(job.dispose(2), ckpt::error::in_use));
    CHECK(std::get<ckpt::triggered>(job.tick(4000)).id == 4);
    CHECK(job.missing(4) == 4);
    CHECK(std::get<ckpt::decline_failed>(job.decline(4000, 4, 1, 2)).released == 0);
    CHECK(job.mode() == ckpt::mode::failed && !job.next_tick(job.tick(4000)));
}

static void refusals() {
    Coordinator job = opened();
    const std::vector<std::uint64_t> file{7};
    CHECK(std::get<ckpt::triggered>(job.tick(1000)).id == 1);
    ckpt::ack_answer answer = job.ack(1000, 1, 0, 0, {}, file);
    CHECK(is(answer, ckpt::error::file_gone, 7));
    std::error_code why = std::get<ckpt::refused>(answer).why;
    CHECK(why.message() == "FileGone" && std::string(why.category().name()) == "relkvanu");
    CHECK(ckpt::make_error_code(ckpt::error::no_memory) == std::errc::not_enough_memory);
    Coordinator other = std::move(job);
    CHECK(!job && other && is(job.tick(1000), ckpt::error::closed));
    other = opened();
    CHECK(!other.missing(1));
    CHECK(is(Coordinator::open(settings(), {}, 0), ckpt::error::bad_shape));
    CHECK(is(Coordinator::open({}, {}, 0), ckpt::error::bad_config));
    CHECK(is(Coordinator::open(settings(), file, 0, 0), ckpt::error::bad_first));
}

/* Each read of a coordinator that was moved from aborts the process, as no answer would be right. */
static void moved_from() {
    Coordinator old = with_checkpoint_3(), job = std::move(old);
    CHECK(!old && is(old.tick(3000), ckpt::error::closed) && is(old.take({}), ckpt::error::closed) &&
          is(old.pins_of(3), ckpt::error::closed));
    CHECK(aborts([&] { return old.mode(); }) && aborts([&] { return old.due(); }) && aborts([&] { return old.oldest_expiry(); }));
    CHECK(aborts([&] { return old.count(1); }) && aborts([&] { return old.choice(); }) && aborts([&] { return old.standing(1); }));
    CHECK(aborts([&] { return old.live(0); }) && aborts([&] { return old.live_from(0); }) && aborts([&] { return old.missing(1); }));
    CHECK(aborts([&] { return old.files_of(3, 0, 0); }) && aborts([&] { return old.waiting_file(0); }) &&
          aborts([&] { return old.file_counts(); }));
    CHECK(aborts([&] { return old.next_tick(ckpt::held_interval{0}); }) && !aborts([&] { return job.mode(); }));
}

static void ticks() {
    Coordinator job = opened({1});
    CHECK(job.next_tick(job.tick(0)) == 1000);
    CHECK(job.next_tick(job.tick(1000)) == 2000);
    CHECK(job.next_tick(job.tick(2000)) == 3000);
    ckpt::tick_answer held = job.tick(3000);
    CHECK(std::holds_alternative<ckpt::held_at_once>(held) && job.next_tick(held) == 6000);
}

static void lines() {
    Coordinator job = opened({1, 2});
    const std::vector<std::uint64_t> of{1, 2}, many(9000, ~std::uint64_t{0});
    std::uint64_t buffer[2];
    relkvanu_call call{};
    CHECK(is(ckpt::call_line(call), ckpt::error::bad_kind));
    call.kind = RELKVANU_CALL_ACK;
    CHECK(is(ckpt::call_line(call, many), ckpt::error::line_too_long));
    CHECK(std::get<std::string>(ckpt::opening_lines(settings(), of, 7)) == "config 1000 0 2 5000 0 1 delete\njob 1 2\nstart 7\n");
    CHECK(std::get<ckpt::answered>(job.line("tick 1000")).answer.what == RELKVANU_TICK_TRIGGERED);
    CHECK(std::get<ckpt::answered>(job.line("ack 1000 1 0.0 +1 +2\r")).answer.a == 2);
    CHECK(std::get<std::string>(job.line(" show  01 ")) == std::get<std::string>(job.show(1)));
    CHECK(std::holds_alternative<ckpt::skipped>(job.line("# a comment")) && std::holds_alternative<ckpt::skipped>(job.line("")));
    CHECK(is(job.line("tick"), ckpt::error::line_missing) && is(job.line("show 9"), ckpt::error::no_such_record));
    CHECK(std::get<ckpt::answered>(job.line("cancel 1000")).answer.what == RELKVANU_CANCELLED);
    CHECK(is(job.line("take 9"), ckpt::error::too_short) && std::get<ckpt::refused>(job.line("take 9")).places == 2);
    CHECK(std::get<ckpt::files>(job.line("take 9", buffer)).size() == 2 && buffer[0] == 1 && buffer[1] == 2);
}

/* A line says the call that it was written for. */
static void line_says_its_call() {
    ckpt::line_call_answer ack = ckpt::line_call("ack 5 1 1.2 +12 =7 +11");
    const ckpt::said_call &it = std::get<ckpt::said_call>(ack);
    CHECK(it.call.kind == RELKVANU_CALL_ACK && it.call.vertex == 1 && it.call.index == 2 && it.call.now == 5 && it.call.number == 1);
    CHECK((it.first == list{11, 12} && it.second == list{7}));
    CHECK(std::get<std::string>(ckpt::call_line(it.call, it.first, it.second)) == "ack 5 1 1.2 +11 +12 =7");
    CHECK(std::holds_alternative<ckpt::skipped>(ckpt::line_call({})) && is(ckpt::line_call("tick"), ckpt::error::line_missing));
    CHECK(is(ckpt::line_call("restore 5 0"), ckpt::error::no_such_savepoint));
}

/* A moment that is far ahead is refused, and changes nothing. */
static void ahead() {
    const std::uint64_t day = 24 * 60 * 60 * 1000, late = 1000 + 5000 + day + 1; /* a timer may wait until checkpoint 1 expires */
    const std::uint64_t file[] = {1};
    Coordinator job = opened({1});
    CHECK(std::get<ckpt::triggered>(job.tick(1000)).id == 1);
    std::string image = std::get<std::string>(job.save());
    for (std::uint64_t now : {late, (std::uint64_t{1} << 62) - 1, std::uint64_t{1} << 62}) {
        CHECK(is(job.tick(now), ckpt::error::moment_too_large) && is(job.savepoint(now), ckpt::error::moment_too_large));
        CHECK(
            is(job.ack(now, 1, 0, 0, file), ckpt::error::moment_too_large) && is(job.decline(now, 1, 0, 0), ckpt::error::moment_too_large));
        CHECK(is(job.restore(now), ckpt::error::moment_too_large) && is(job.cancel(now), ckpt::error::moment_too_large));
    }
    CHECK(std::get<std::string>(job.save()) == image);
    CHECK(std::holds_alternative<ckpt::ack_completed>(job.ack(late - 1, 1, 0, 0, file)));
    job.set_most_ahead(2 * day);
    Coordinator moved = std::move(job);
    CHECK(std::holds_alternative<ckpt::triggered>(moved.tick(late + day)) && moved.moment() == late + day);
    CHECK(std::holds_alternative<ckpt::answered>(moved.line("tick 1000000000000")) && moved.moment() == 1000000000000);
}

static bool runs(Coordinator &job, std::uint64_t term, std::uint64_t next_name) {
    ckpt::running_term told = std::get<ckpt::running_term>(job.term());
    return told.term == term && told.next_name == next_name;
}

/* Whether the garbage and the unissued ones of these files are those. */
static bool sorts(Coordinator &job, const list &files, const list &garbage, const list &unissued) {
    ckpt::sorted_files told = std::get<ckpt::sorted_files>(job.garbage(files));
    return told.garbage == garbage && told.unissued == unissued;
}

/* A task reserves the names 5 to 7, and acknowledges with two. The job is restored: the task can do nothing more, and 7 is garbage. */
static void names() {
    const list of{1}, two{6, 5}, seven{7}, eight{8}, files{9, 7, 4, 5, 6, 8};
    Coordinator job = std::get<Coordinator>(Coordinator::open_fenced(settings(), of, 0, 1, 5));
    ckpt::reserved names = std::get<ckpt::reserved>(job.reserve(1, 3));
    CHECK(names.first == 5 && names.count == 3 && runs(job, 1, 8));
    CHECK(std::get<ckpt::triggered>(job.tick(1000)).id == 1);
    CHECK(is(job.ack(1000, 1, 0, 0, two), ckpt::error::fenced_old_term));
    CHECK(is(job.ack_in(1, 1000, 1, 0, 0, eight), ckpt::error::fenced_never_reserved, 8));
    CHECK(std::holds_alternative<ckpt::ack_completed>(job.ack_in(1, 1000, 1, 0, 0, two)) && sorts(job, files, {4}, {9, 8}));
    CHECK(std::get<ckpt::checkpoint>(std::get<ckpt::restored>(job.restore(2100)).from).id == 1 && runs(job, 2, 8));
    CHECK(is(job.decline_in(1, 2200, 2, 0, 0), ckpt::error::fenced_old_term) && is(job.forfeit(1, seven), ckpt::error::fenced_old_term));
    CHECK(std::get<ckpt::reserved>(job.reserve(2, 2)).first == 8 && std::holds_alternative<ckpt::forfeited>(job.forfeit(2, eight)));
    CHECK(sorts(job, files, {7, 4, 8}, {}) && sorts(job, {}, {}, {}));
    CHECK(std::get<ckpt::triggered>(job.tick(3100)).id == 2 &&
          std::get<ckpt::decline_failed>(job.decline_in(2, 3100, 2, 0, 0)).released == 0);
    Coordinator moved = std::move(job);
    CHECK(is(job.term(), ckpt::error::closed) && is(job.garbage(files), ckpt::error::closed));
    CHECK(is(moved.advance(4200, 6, 0), ckpt::error::bad_name));
    CHECK(std::get<ckpt::checkpoint>(std::get<ckpt::restored>(moved.advance(4200, 6, 50)).from).id == 1 && runs(moved, 7, 50));
}

/* What a coordinator with names, or one without, refuses. */
static void fences() {
    const list of{1}, file{5};
    CHECK(is(Coordinator::open_fenced(settings(), of, 0, 1, 0), ckpt::error::bad_name));
    Coordinator job = opened({1});
    CHECK(is(job.term(), ckpt::error::fenced_no_names) && is(job.reserve(0, 0), ckpt::error::fenced_no_names));
    CHECK(is(job.garbage(file), ckpt::error::fenced_no_names) && is(job.advance(0, 1, 1), ckpt::error::fenced_no_names));
    CHECK(is(job.fence(0), ckpt::error::bad_name) && std::holds_alternative<ckpt::fenced>(job.fence(6)) && runs(job, 1, 6));
    CHECK(std::get<ckpt::refused>(job.fence(7)).why.message() == "HasNames" && is(job.reserve(1, 0), ckpt::error::fenced_bad_count));
    const std::uint64_t late = 1000 + 5000 + std::uint64_t{48} * 60 * 60 * 1000;
    CHECK(is(job.ack_in(1, late, 2, 0, 0, {}), ckpt::error::moment_too_large) &&
          is(job.decline_in(1, late, 2, 0, 0), ckpt::error::moment_too_large));
    CHECK(std::holds_alternative<ckpt::cancelled>(job.cancel(1000)) && is(job.reserve(2, 1), ckpt::error::fenced_ended));
}

int main() {
    line_says_its_call();
    ahead();
    reads();
    recovers();
    is_saved();
    lines();
    files();
    restores();
    refusals();
    moved_from();
    ticks();
    names();
    fences();
    CHECK(std::string(relkvanu_version()) == RELKVANU_VERSION);
    return 0;
}
