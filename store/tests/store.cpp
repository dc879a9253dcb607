/* store FOLDER: the class ckpt::Store of include/relkvanu_store.hpp: calls, refusals, errors, moves, reads that throw, submits, a discarder, state files and names. */
#include "../../include/relkvanu_store.hpp"

#include <algorithm>
#include <chrono>
#include <cstdio>
#include <fstream>
#include <set>
#include <stdexcept>
#include <thread>

#include <poll.h>
#include <sys/stat.h>
#include <unistd.h>

#define CHECK(condition)                                                         \
    do {                                                                         \
        if (!(condition)) {                                                      \
            std::fprintf(stderr, "%s:%d: %s\n", __FILE__, __LINE__, #condition); \
            std::abort();                                                        \
        }                                                                        \
    } while (0)

static const std::uint64_t two[] = {2};

static relkvanu_store_options options(std::uint32_t flags) {
    relkvanu_store_options it = {};
    it.flags = flags;
    it.settings = relkvanu_settings{10, 0, 1, std::uint64_t{1} << 30, 1000, 1, false};
    it.shape = two;
    it.shape_len = 1;
    return it;
}

static ckpt::Store opened(const std::string &path, std::uint32_t flags) {
    auto it = ckpt::Store::open(path, options(flags));
    if (auto *why = std::get_if<ckpt::not_opened>(&it)) {
        std::fprintf(stderr, "%s\n", why->message.c_str());
        std::abort();
    }
    return std::move(std::get<ckpt::Store>(it));
}

/* With a storage folder of its own. */
static ckpt::Store opened_over(const std::string &folder, const std::string &path) {
    CHECK(mkdir(folder.c_str(), 0700) == 0);
    relkvanu_store_options with = options(RELKVANU_STORE_CREATE);
    with.storage = folder.c_str();
    return std::move(std::get<ckpt::Store>(ckpt::Store::open(path, with)));
}

template <class Answer> static std::error_code why(const Answer &answer) {
    const auto *refused = std::get_if<ckpt::refused>(&answer);
    return refused ? refused->why : std::error_code();
}

static std::uint64_t due(ckpt::Store &job) {
    std::uint64_t moment = 0;
    CHECK(!job.read([&](relkvanu *handle) { moment = relkvanu_due(handle).a; }));
    return moment;
}

/* Reserves the names that were not given out up to the second file. */
static void acknowledge(ckpt::Store &job, std::uint64_t id, std::uint64_t file, std::uint64_t now = RELKVANU_STORE_NOW) {
    auto running = std::get<ckpt::running_term>(job.term());
    if (running.next_name <= file + 1) {
        CHECK(std::get<ckpt::reserved>(job.reserve(running.term, file + 2 - running.next_name)).first == running.next_name);
    }
    for (std::uint16_t index = 0; index < 2; index++) {
        const std::uint64_t fresh[] = {file + index};
        auto answer = job.ack_in(running.term, id, 0, index, fresh, {}, now);
        CHECK(index == 0 ? std::holds_alternative<ckpt::ack_pending>(answer) : std::holds_alternative<ckpt::ack_completed>(answer));
    }
}

static void complete(ckpt::Store &job, std::uint64_t file) {
    std::uint64_t now = due(job);
    acknowledge(job, std::get<ckpt::triggered>(job.tick(now)).id, file, now);
}

static void calls(const std::string &path) {
    ckpt::Store job = opened(path, RELKVANU_STORE_CREATE_ONLY);
    CHECK(!job.report().is_recovered && job.report().steps[0] == RELKVANU_STORE_START_TASKS);
    complete(job, 1);
    CHECK(why(job.tick(std::uint64_t{1} << 61)) == ckpt::error::moment_too_large);
    CHECK(why(job.ack_in(1, 9, 0, 0, {})) == ckpt::error::unknown_checkpoint);
    CHECK(why(job.dispose(9)) == ckpt::error::no_such_savepoint);
    const std::uint64_t bad[] = {0};
    CHECK(why(job.restore(0, bad)) == ckpt::store_error::bad_argument); /* no line has such a shape */
    auto other = ckpt::Store::open(path, options(RELKVANU_STORE_RECOVER));
    CHECK(std::get<ckpt::not_opened>(other).why == ckpt::store_error::in_use &&
          std::get<ckpt::not_opened>(other).message.find("process") != std::string::npos);
    std::uint64_t wait = 0;
    CHECK(!job.next_tick(wait) && wait <= 20);
    CHECK(job.counts().calls == 4 && job.message().empty() && job.folder() == -1);
    ckpt::Store moved = std::move(job);
    CHECK(std::holds_alternative<ckpt::savepoint_triggered>(moved.savepoint()));
    CHECK(
        !moved.read([&](relkvanu *) { CHECK(why(moved.savepoint()) == ckpt::store_error::bad_argument); })); /* it would wait for itself */
    try {
        CHECK(!moved.read([](relkvanu *) { throw std::runtime_error("look"); }));
        CHECK(false);
    } catch (const std::runtime_error &) {
        complete(moved, 11); /* the read has ended */
    }
    moved = opened(path + "2", RELKVANU_STORE_CREATE);
    complete(moved, 1);
}

static void recovery(const std::string &path) {
    ckpt::Store job = opened(path, RELKVANU_STORE_RECOVER);
    CHECK(job.report().is_recovered && job.report().epoch == 2);
    auto restored = std::get<ckpt::restored>(job.restore());
    CHECK(std::get<ckpt::checkpoint>(restored.from).id == 3);
}

/* The choice of each trigger: none, a checkpoint, and the savepoint that the job was rolled back to. Other answers have none. */
static void choices(const std::string &path) {
    ckpt::Store job = opened(path, RELKVANU_STORE_CREATE);
    ckpt::choice base = ckpt::savepoint{99};
    CHECK(std::get<ckpt::triggered>(job.tick(base, due(job))).id == 1 && std::holds_alternative<ckpt::fresh>(base));
    acknowledge(job, 1, 1);
    CHECK(std::get<ckpt::savepoint_triggered>(job.savepoint(base)).id == 2 && std::get<ckpt::checkpoint>(base).id == 1);
    acknowledge(job, 2, 11);
    CHECK(std::get<ckpt::triggered>(job.await_tick(60000, base)).id == 3 && std::get<ckpt::checkpoint>(base).id == 1);
    CHECK(std::holds_alternative<ckpt::held_at_once>(job.tick(base, due(job))) && std::holds_alternative<ckpt::fresh>(base));
    CHECK(std::holds_alternative<ckpt::restored>(job.restore(2)));
    CHECK(std::get<ckpt::triggered>(job.tick(base, due(job))).id == 4 && std::get<ckpt::savepoint>(base).id == 2);
    CHECK(std::holds_alternative<ckpt::held_at_once>(job.tick(due(job)))); // no tick is due from then on, however late the next line comes
    base = ckpt::savepoint{99};
    CHECK(why(job.await_tick(0, base)) == ckpt::store_error::timed_out && std::holds_alternative<ckpt::fresh>(base));
    base = ckpt::checkpoint{99};
    CHECK(why(job.savepoint(base, std::uint64_t{1} << 61)) == ckpt::error::moment_too_large && std::holds_alternative<ckpt::fresh>(base));
}

/* Waits for one completion, and returns its status. */
static int completion(ckpt::Store &job, std::uint64_t token) {
    pollfd it = {job.descriptor(), POLLIN, 0};
    CHECK(poll(&it, 1, 60000) == 1);
    relkvanu_store_completion one[1];
    CHECK(job.completed(one) == 1 && one[0].token == token);
    return one[0].status;
}

static void submits(const std::string &path) {
    ckpt::Store job = opened(path + "7", RELKVANU_STORE_CREATE);
    relkvanu_store_call call = {}, list[2] = {};
    list[0].call.kind = list[1].call.kind = RELKVANU_CALL_SAVEPOINT;
    list[0].call.now = list[1].call.now = RELKVANU_STORE_NOW;
    CHECK(!job.submit(list, 9) && completion(job, 9) == RELKVANU_STORE_OK);
    CHECK(list[1].answer.what == RELKVANU_SAVEPOINT_TRIGGERED && list[1].place == 2);
    CHECK(!job.submit_begin_job(call, 1) && completion(job, 1) == RELKVANU_STORE_NOT_NOW);
    CHECK(!job.submit_stop_job(call, 2) && completion(job, 2) == RELKVANU_STORE_OK && call.answer.what == RELKVANU_SAVEPOINT_TRIGGERED);
    acknowledge(job, call.answer.a, 1);
    CHECK(!job.submit_begin_job(call, 3) && completion(job, 3) == RELKVANU_STORE_OK && call.answer.what == RELKVANU_RESTORED_SAVEPOINT);
}

/* What the function throws ends the discarder, which throws it; the file waits again. */
static void discarder(const std::string &path) {
    ckpt::Store job = opened(path + "4", RELKVANU_STORE_CREATE);
    std::set<std::uint64_t> gone;
    int failures = 0, thrown = 0;
    std::error_code ended;
    auto discards = [&](std::uint64_t file) {
        if (file == 2 && failures++ < 2) {
            throw std::runtime_error("not yet");
        }
        return gone.insert(file).second;
    };
    std::thread thread([&] {
        while (!ended) {
            try {
                ended = job.discard(discards);
            } catch (const std::runtime_error &) {
                thrown++;
            }
        }
    });
    complete(job, 1);
    complete(job, 11);
    relkvanu_counts counts = {};
    do {
        std::this_thread::sleep_for(std::chrono::milliseconds(5));
        CHECK(!job.read([&](relkvanu *handle) { counts = relkvanu_file_counts(handle); }));
    } while (counts.waiting + counts.taken != 0);
    job.stop();
    thread.join();
    CHECK(ended == ckpt::store_error::stopped && failures == 3 && thrown == 2 && gone == (std::set<std::uint64_t>{1, 2}));
    CHECK(why(job.await_tick(1000)) == ckpt::store_error::stopped);
}

/* State files, whose names begin so: two checkpoints, a file that nobody knows, a discarder and a sweep. */
template <class Put, class Discard, class Sweep>
static void keeps_files(ckpt::Store &job, const std::string &path, Put put, Discard discard, Sweep sweep) {
    auto is_there = [&path](const char *file) { return access((path + file).c_str(), F_OK) == 0; };
    for (std::uint64_t file : {1, 2, 11, 12, 77}) {
        CHECK(!put(file));
    }
    std::size_t left = 1;
    CHECK(std::get<ckpt::reserved>(job.reserve(1, 77)).first == 1 && !sweep(left) && left == 0);
    complete(job, 1);
    complete(job, 11);
    std::error_code ended;
    std::thread thread([&] { ended = discard(); });
    while (is_there("1") || is_there("2")) {
        std::this_thread::sleep_for(std::chrono::milliseconds(5));
    }
    job.stop();
    thread.join();
    CHECK(ended == ckpt::store_error::stopped && std::holds_alternative<ckpt::restored>(job.restore()));
    CHECK(!sweep(left) && left == 0 && !is_there("77") && is_there("12"));
}

static void files(const std::string &path) {
    const std::string folder = path + "-state";
    ckpt::Store job = opened_over(folder, path + "5");
    keeps_files(
        job, folder + "/", [&](std::uint64_t file) { return job.put(file, "state"); }, [&] { return job.discard_files(); },
        [&](std::size_t &left) { return job.sweep(left); });
    CHECK(job.put(12, "another") == ckpt::store_error::present);
}

/* Files that come part by part, and those that are there; and what the job of an opening is. */
static void puts(const std::string &path) {
    const std::string folder = path + "-puts";
    ckpt::Store job = opened_over(folder, path + "15");
    CHECK(std::get<ckpt::reserved>(job.reserve(1, 9)).first == 1);
    std::size_t left = 600000;
    auto source = [&left](char *to, std::size_t room) {
        std::size_t len = left < room ? left : room;
        std::fill(to, to + len, left == 600000 ? 'a' : 'b');
        left -= len;
        return len;
    };
    struct stat found;
    CHECK(!job.put_from(1, source) && left == 0 && stat((folder + "/1").c_str(), &found) == 0 && found.st_size == 600000);
    CHECK(job.put_from(1, source) == ckpt::store_error::present);
    bool is_thrown = false;
    try {
        (void)job.put_from(2, [](char *, std::size_t) -> std::size_t { throw std::runtime_error("no source"); });
    } catch (const std::runtime_error &why) {
        is_thrown = why.what() == std::string("no source");
    }
    CHECK(is_thrown && access((folder + "/2").c_str(), F_OK) != 0 && access((folder + "/2.part").c_str(), F_OK) != 0);
    CHECK(!job.put_link(3, folder + "/1") && stat((folder + "/3").c_str(), &found) == 0 && found.st_nlink == 2);
    CHECK(job.put_link(4, folder + "/none") == ckpt::store_error::not_put && errno == ENOENT);
    CHECK(job.put_link(3, folder + "/1") == ckpt::store_error::present);
    relkvanu_settings settings = {};
    std::vector<std::uint64_t> shape;
    CHECK(!job.job(settings, shape) && shape == std::vector<std::uint64_t>{2} && settings.interval == 10 && settings.tolerable == 1000);
}

/* The same files in a storage that the engine has opened by itself. */
static void storage(const std::string &path) {
    const std::string folder = path + "-own";
    CHECK(mkdir(folder.c_str(), 0700) == 0);
    ckpt::Store job = opened(path + "8", RELKVANU_STORE_CREATE);
    ckpt::folder_options how;
    how.is_new = true;
    how.prefix = "s-";
    ckpt::Folder files = std::get<ckpt::Folder>(ckpt::Folder::open(folder, "orders", how));
    auto sweep = [&](std::size_t &left) { return job.sweep_storage(files, left); };
    keeps_files(
        job, folder + "/s-", [&](std::uint64_t file) { return files.put(file, "state"); }, [&] { return job.discard_storage(files); },
        sweep);
    std::size_t left;
    CHECK(rename((folder + "/s-.relkvanu-storage").c_str(), (folder + "/away").c_str()) == 0);
    CHECK(sweep(left) == ckpt::store_error::storage && access((folder + "/s-12").c_str(), F_OK) == 0);
}

/* Each call with names, and one of the errors of each. */
static void names(const std::string &path) {
    ckpt::Store job = opened_over(path + "-names", path + "6");
    CHECK(job.report().term == 1 && job.report().next_name == 1);
    auto held = std::get<ckpt::reserved>(job.reserve(1, 5));
    CHECK(held.first == 1 && held.count == 5 && !job.put(3, "state") && !job.put(9, "state"));
    std::uint64_t id = std::get<ckpt::triggered>(job.tick(due(job))).id;
    const std::uint64_t never[] = {8}, third[] = {3}, all[] = {1, 3, 9};
    auto refused = std::get<ckpt::refused>(job.ack_in(1, id, 0, 0, never));
    CHECK(refused.why == ckpt::error::fenced_never_reserved && refused.file == 8);
    CHECK(std::holds_alternative<ckpt::forfeited>(job.forfeit(1, third)));
    auto sorted = std::get<ckpt::sorted_files>(job.garbage(all));
    CHECK(sorted.garbage == std::vector<std::uint64_t>{3} && sorted.unissued == std::vector<std::uint64_t>{9});
    std::size_t left = 1;
    CHECK(!job.sweep(left) && left == 0 && job.counts().swept == 1 && job.counts().unissued == 1);
    auto restored = std::get<ckpt::restored>(job.restore());
    auto term = std::get<ckpt::running_term>(job.term());
    CHECK(restored.term == 2 && term.term == 2 && term.next_name == 6);
    CHECK(why(job.decline_in(1, id, 0, 0)) == ckpt::error::fenced_old_term && why(job.reserve(2, 0)) == ckpt::error::fenced_bad_count);
}

static std::string not_opened(const std::string &path, const relkvanu_store_options &with, ckpt::store_error expected) {
    auto opening = ckpt::Store::open(path, with);
    CHECK(std::get<ckpt::not_opened>(opening).why == expected);
    return std::get<ckpt::not_opened>(opening).message;
}

static void backups(const std::string &path) {
    std::string copy = path + ".copy";
    ckpt::Store job = opened(path, RELKVANU_STORE_CREATE);
    complete(job, 1);
    CHECK(!job.backup(copy));
    auto again = job.backup(copy), nowhere = job.backup(path + "/copy");
    CHECK(again && again->why == ckpt::store_error::present && again->message.find(copy) == 0);
    CHECK(nowhere && nowhere->why == ckpt::store_error::not_put && nowhere->message.find("directory") != std::string::npos);
    complete(job, 11);
    CHECK(not_opened(copy, options(RELKVANU_STORE_RECOVER), ckpt::store_error::storage).find("it is a backup") != std::string::npos);
    CHECK(not_opened(path + "9", options(RELKVANU_STORE_BACKUP), ckpt::store_error::absent) != "");
    ckpt::Store back = opened(copy, RELKVANU_STORE_BACKUP);
    CHECK(back.report().is_recovered && back.report().epoch == 2 && back.report().image_place + back.report().replayed == 4);
}

static std::uint32_t phase(ckpt::Store &job) {
    relkvanu_store_job_phase found;
    CHECK(!job.phase(found));
    return found.phase;
}

/* The commands of an operator, and what the timer hands over. */
static void commands(const std::string &path) {
    ckpt::Store job = opened(path, RELKVANU_STORE_CREATE_ONLY);
    ckpt::choice base;
    relkvanu_settings other = options(0).settings;
    other.interval = std::uint64_t{1} << 30;
    other.retained = 2;
    CHECK(std::get<ckpt::configured>(job.configure(other)).checkpoints == 0);
    complete(job, 1);
    other.interval = 5;
    CHECK(why(job.configure(other)) == ckpt::store_error::bad_argument);
    auto made = std::get<ckpt::triggered>(job.trigger());
    CHECK(std::get<ckpt::triggered>(job.await(1000, base)).id == made.id && std::get<ckpt::checkpoint>(base).id == 1);
    acknowledge(job, made.id, 11);
    CHECK(why(job.go_back(1, false)) == ckpt::store_error::bad_argument && why(job.go_back(9, true)) == ckpt::error::no_such_record);
    std::uint64_t back = std::get<ckpt::savepoint>(std::get<ckpt::restored>(job.go_back(1, true)).from).id;
    CHECK(std::get<ckpt::savepoint>(std::get<ckpt::restored>(job.await(1000, base)).from).id == back);
    CHECK(why(job.begin_job()) == ckpt::store_error::not_now);
    std::uint64_t id = std::get<ckpt::savepoint_triggered>(job.stop_job()).id;
    CHECK(std::get<ckpt::savepoint_triggered>(job.await(1000, base)).id == id && phase(job) == RELKVANU_STORE_PHASE_STOPPING);
    acknowledge(job, id, 21);
    CHECK(why(job.await(1000, base)) == ckpt::store_error::job_stopped && phase(job) == RELKVANU_STORE_PHASE_STOPPED);
    CHECK(std::holds_alternative<ckpt::restored>(job.begin_job()) && std::holds_alternative<ckpt::restored>(job.await(1000, base)));
    CHECK(phase(job) == RELKVANU_STORE_PHASE_RUNNING && std::get<ckpt::restored>(job.advance(9, 1000)).term == 10);
    CHECK(why(job.await(10, base)) == ckpt::store_error::timed_out);
}

template <class Made> static std::error_code why_not(const Made &made) {
    const auto *it = std::get_if<ckpt::not_made>(&made);
    CHECK(it == nullptr || !it->message.empty());
    return it ? it->why : std::error_code();
}

static std::vector<ckpt::checked_record> checked(const std::string &state) {
    return std::get<std::vector<ckpt::checked_record>>(ckpt::check_records(state));
}

/* A file that changed is found by who reads it. */
static void check_files(const std::string &state) {
    const std::string file = state + "/2";
    CHECK(checked(state).size() == 1 && checked(state)[0].faults.empty() && checked(state)[0].is.unknown == 0);
    std::ofstream(file) << "stats";
    const auto found = checked(state);
    CHECK(found.size() == 1 && found[0].is.changed == 1 && found[0].is.missing == 0 && found[0].faults.size() == 1);
    CHECK(found[0].faults[0].file == 2 && found[0].faults[0].fault == RELKVANU_STORE_FILE_CHANGED);
    CHECK(why_not(ckpt::check_records(state + "/nowhere")) == ckpt::store_error::storage);
    std::ofstream(file) << "state";
    CHECK(checked(state)[0].faults.empty());
}

/* Manifests: a job that lost its file is made again, and a record is carried elsewhere. */
static void portable(const std::string &folder) {
    const std::string state = folder + "/state", path = folder + "/y.db", out = folder + "/out";
    auto given = options(RELKVANU_STORE_CREATE | RELKVANU_STORE_MANIFESTS | RELKVANU_STORE_CHECKSUMS);
    given.storage = state.c_str();
    CHECK(mkdir(folder.c_str(), 0700) == 0 && mkdir(state.c_str(), 0700) == 0);
    {
        auto opened = ckpt::Store::open(path, given);
        auto &job = std::get<ckpt::Store>(opened);
        CHECK(!job.put(1, "state") && !job.put(2, "state"));
        complete(job, 1);
        CHECK(!job.backup(folder + "/copy.db"));
    }
    auto found = std::get<std::vector<ckpt::stored_record>>(ckpt::records(state));
    CHECK(
        found.size() == 1 && found[0].id == 1 && found[0].is_next && found[0].files == 2 && found[0].bytes == 10 && found[0].missing == 0);
    CHECK(why_not(ckpt::records(folder + "/nowhere")) == ckpt::store_error::storage);
    check_files(state);
    CHECK(why_not(ckpt::recover(path, state)) == ckpt::store_error::present && unlink(path.c_str()) == 0);
    CHECK(why_not(ckpt::recover(path, state, 9)) == ckpt::store_error::absent);
    CHECK(std::get<relkvanu_store_recovered>(ckpt::recover(path, state)).record == 1);
    CHECK(std::get<relkvanu_store_carried>(ckpt::export_record(state, out)).bytes == 10);
    CHECK(why_not(ckpt::export_record(state, out)) == ckpt::store_error::present);
    CHECK(std::get<relkvanu_store_recovered>(ckpt::import_record(out, folder + "/a.db", folder + "/a")).record == 1);
    CHECK(std::get<relkvanu_store_recovered>(ckpt::claim_record(out, folder + "/b.db", folder + "/b")).record == 1);
    CHECK(access(out.c_str(), F_OK) != 0);
    given.flags = RELKVANU_STORE_RECOVER;
    for (const char *name : {"/a", "/b", "/state"}) {
        const std::string storage = folder + name;
        given.storage = storage.c_str();
        auto opened = ckpt::Store::open(storage == state ? path : storage + ".db", given);
        CHECK(std::get<ckpt::Store>(opened).report().is_recovered);
    }
    CHECK(std::get<relkvanu_store_recovered>(ckpt::put_back(folder + "/copy.db", path, state)).record == 1);
    CHECK(why_not(ckpt::put_back(folder + "/none.db", path, state)) == ckpt::store_error::failed);
}

/* What acknowledgements have beside their files, a record as a whole, and the history. */
static void payloads(const std::string &folder) {
    const std::string state = folder + "/state", path = folder + "/x.db", too_long(RELKVANU_STORE_MOST_PAYLOAD + 1, 'x');
    auto given = options(RELKVANU_STORE_CREATE);
    given.storage = state.c_str();
    CHECK(mkdir(folder.c_str(), 0700) == 0 && mkdir(state.c_str(), 0700) == 0);
    auto opened = ckpt::Store::open(path, given);
    auto &job = std::get<ckpt::Store>(opened);
    std::uint64_t ended[4] = {};
    relkvanu_store_more more = {};
    CHECK(std::get<ckpt::whole_record>(job.load()).is.kind == 0);
    const auto started = std::get<ckpt::triggered>(job.trigger());
    CHECK(started.id == 1 && std::get<ckpt::reserved>(job.reserve(1, 2)).first == 1 && !job.put(1, "x") && !job.put(2, "x"));
    more.payload = too_long.data();
    more.payload_len = too_long.size();
    CHECK(std::get<ckpt::refused>(job.ack_with(1, 1, 0, 0, {}, {}, more)).why == ckpt::store_error::bad_argument);
    CHECK(ckpt::why().find("4096 bytes") != std::string::npos);
    more.payload = "state";
    more.payload_len = 5;
    more.bytes = 7;
    const std::uint64_t names[] = {2, 1};
    CHECK(std::get_if<ckpt::refused>(&static_cast<const ckpt::ack_answer &>(job.ack_with(1, 1, 0, 9, {}, {}, more))) != nullptr);
    (void)job.ack_with(1, 1, 0, 0, names, {}, more);
    more = relkvanu_store_more{};
    (void)job.ack_with(1, 1, 0, 1, {}, {}, more);
    CHECK(more.kind == RELKVANU_STORE_CHECKPOINT);
    auto whole = std::get<ckpt::whole_record>(job.load());
    CHECK(whole.is.id == 1 && whole.parts.size() == 2 && whole.parts[0].payload == "state" && whole.parts[0].bytes == 7);
    CHECK(whole.parts[0].files == std::vector<std::uint64_t>({2, 1}) && whole.parts[1].payload.empty() && whole.parts[1].index == 1);
    CHECK(std::get<ckpt::triggered>(job.trigger()).id == 2);
    more.reason = "no disk";
    more.reason_len = 7;
    more.ended = ended;
    more.ended_room = 4;
    (void)job.decline_with(1, 2, 0, 0, more);
    CHECK(more.ended_len == 1 && ended[0] == 2);
    relkvanu_store_past past[5];
    std::size_t len = 0;
    CHECK(!job.history(past, len) && len == 2 && past[0].outcome == RELKVANU_STORE_DECLINED && std::string(past[0].reason) == "no disk");
    CHECK(past[1].outcome == RELKVANU_STORE_COMPLETED && past[1].bytes == 7 && past[1].acks == 2);
    CHECK(unlink((state + "/2").c_str()) == 0);
    auto lost = job.load(1);
    CHECK(std::get<ckpt::not_made>(lost).why == ckpt::store_error::file_lost);
    CHECK(std::get<ckpt::not_made>(lost).message == "file 2 of record 1 is missing");
}

int main(int argc, char **argv) {
    CHECK(argc == 2);
    std::string path = std::string(argv[1]) + "/x.db";
    CHECK(std::get<ckpt::not_opened>(ckpt::Store::open(path, options(RELKVANU_STORE_RECOVER))).why == ckpt::store_error::absent);
    calls(path);
    recovery(path);
    choices(path + "12");
    submits(path);
    discarder(path);
    files(path);
    puts(path);
    storage(path);
    names(path);
    backups(path + "10");
    commands(path + "13");
    portable(std::string(argv[1]) + "/portable");
    payloads(std::string(argv[1]) + "/payloads");
    return 0;
}
