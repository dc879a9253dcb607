// The coordinator in a store: see coordinator.hpp.
#include "coordinator.hpp"
#include "trace.hpp"

#include <csignal>

static constexpr size_t MOST_FILES = 512; // of one acknowledgement here
static constexpr uint64_t IMAGE_CALLS = 100;

Coordinator::Coordinator(const fs::path &folder, uint32_t flags, Death at) : death(at) {
    const fs::path path = folder / "job.db", files = folder / "storage";
    const uint64_t shape = TASKS;
    fs::create_directory(files);
    relkvanu_store_options options = {};
    options.flags = RELKVANU_STORE_CREATE | flags;
    options.image_calls = trace_is_on() ? RELKVANU_STORE_NO_IMAGES : IMAGE_CALLS;
    options.storage = files.c_str();
    options.settings.interval = 100;
    options.settings.at_once = 2;
    options.settings.timeout = 20000;
    options.settings.tolerable = 2;
    options.settings.retained = 2;
    options.shape = &shape;
    options.shape_len = 1;
    const int status = relkvanu_store_open(&store, path.c_str(), &options, &report);
    CHECK(status == RELKVANU_STORE_OK, "the job is not opened: status ", status, ", ", report.message);
    CHECK(report.term != 0, "the job has no names");
    trace_answered(report.image_place + report.replayed);
    trace("process ", report.epoch, " starts");
    storage.folder = relkvanu_store_folder(store);
    term = report.term;
    look();
}

Coordinator::~Coordinator() {
    relkvanu_store_close(store);
    trace("process ", report.epoch, " ends");
}

void Coordinator::may_die_at(Place place) {
    std::lock_guard<std::mutex> until_the_end(lock);
    if (death.place == place && death.nth != 0 && --death.nth == 0) {
        kill(getpid(), SIGKILL);
        pause();
    }
}

void Coordinator::check(const char *what, int status) {
    char why[RELKVANU_STORE_MESSAGE] = "";
    if (status != RELKVANU_STORE_OK) {
        relkvanu_store_message(store, why, sizeof why);
        CHECK(false, what, ": status ", status, " ", why);
    }
}

// What is committed, to read. All calls wait meanwhile.
class Reading {
public:
    explicit Reading(Coordinator &of) : store(of.store) { of.check("a read", relkvanu_store_read(store, &handle)); }
    Reading(const Reading &) = delete;
    ~Reading() { relkvanu_store_read_end(store); }

    operator relkvanu *() const { return handle; }

private:
    relkvanu_store *store;
    relkvanu *handle = nullptr;
};

static std::vector<Files> files_of(relkvanu *handle, uint64_t id) {
    std::vector<Files> parts;
    for (unsigned index = 0; index < TASKS; index++) {
        Files files(MOST_FILES);
        const relkvanu_answer told = relkvanu_files_of(handle, id, 0, uint16_t(index), files.data(), files.size());
        CHECK(told.code == RELKVANU_DONE, "the files of record ", id, ": code ", told.code);
        if (told.what == RELKVANU_FILES) {
            files.resize(told.a);
            parts.push_back(files);
        }
    }
    return parts;
}

static std::vector<relkvanu_answer> live_records(relkvanu *handle) {
    std::vector<relkvanu_answer> found;
    relkvanu_answer live = relkvanu_live_from(handle, 0);
    while (live.what != RELKVANU_LIVE_NONE) {
        found.push_back(live);
        live = relkvanu_live_from(handle, live.a + 1);
    }
    return found;
}

void Coordinator::look_for(uint64_t id, const Files &files) {
    for (uint64_t file : files) {
        if (!storage.has(file)) {
            storage.check_marker();
            CHECK(false, "file ", file, " of record ", id, " is missing");
        }
    }
}

// Checks that each file of a done record is in the storage folder.
void Coordinator::look() {
    const Reading reading(*this);
    for (const relkvanu_answer &live : live_records(reading)) {
        for (const Files &files : live.b == 1 ? files_of(reading, live.a) : std::vector<Files>()) {
            look_for(live.a, files);
        }
    }
    looks++;
}

// The text of an answer, without its numbers.
static std::string kind_of(const relkvanu_answer &answer) {
    uint8_t text[RELKVANU_ANSWER_TEXT];
    const size_t len = relkvanu_answer_text(&answer, text, sizeof text);
    std::istringstream words(std::string(text, text + len));
    std::string kind;
    for (std::string word; words >> word;) {
        kind += isdigit(word[0]) ? "" : " " + word;
    }
    return kind;
}

// What the engine has to know of a call that is committed.
void Coordinator::note(const relkvanu_answer &answer) {
    std::lock_guard<std::mutex> until_the_end(lock);
    told[kind_of(answer)]++;
    if (answer.code != RELKVANU_DONE) {
        return;
    }
    switch (answer.what) {
    case RELKVANU_ACK_COMPLETED: completed++; break;
    case RELKVANU_RESTORED_SAVEPOINT: is_rolled_back = true; [[fallthrough]];
    case RELKVANU_RESTORED_CHECKPOINT:
    case RELKVANU_RESTORED_FRESH: completed = 0; break;
    default: break;
    }
}

relkvanu_answer Coordinator::noted(const relkvanu_answer &answer) {
    CHECK(answer.code == RELKVANU_DONE || answer.code == RELKVANU_REFUSED || answer.code == RELKVANU_FENCED, "a call answers code ",
        answer.code, ", what ", answer.what);
    may_die_at(answer.what == RELKVANU_RESERVED ? AFTER_A_RESERVATION : AFTER_A_CALL);
    note(answer);
    look();
    return answer;
}

static relkvanu_store_call call_of(uint32_t kind, uint64_t number = 0) {
    relkvanu_store_call it = {};
    it.call.kind = kind;
    it.call.number = number;
    it.call.now = RELKVANU_STORE_NOW;
    return it;
}

// Makes a call, again while there is no memory for it.
relkvanu_answer Coordinator::committed(relkvanu_store_call &call) {
    int status;
    while ((status = relkvanu_store_calls(store, &call, 1)) == RELKVANU_STORE_NO_MEMORY || call.answer.code == RELKVANU_NO_MEMORY) {
        sleep_ms(100);
    }
    check("a call is not committed", status);
    trace_answered(call.place);
    if (call.call.kind == RELKVANU_CALL_RESTORE && call.answer.code == RELKVANU_DONE) {
        term = call.term;
    }
    return noted(call.answer);
}

relkvanu_answer Coordinator::make(uint32_t kind, uint64_t number) {
    relkvanu_store_call call = call_of(kind, number);
    return committed(call);
}

// A call of a task that is refused has no line in the log: so the trace has it, with a moment that counts as the greatest.
static void trace_refusal(relkvanu_store_call call) {
    char line[8 * 1024];
    call.call.now = 0;
    const relkvanu_answer written = relkvanu_call_line(
        &call.call, call.first, call.first_len, call.second, call.second_len, reinterpret_cast<uint8_t *>(line), sizeof line);
    CHECK(written.code == RELKVANU_DONE, "a line can't be written: ", written.what);
    trace("refused ", std::string(line, written.a));
}

static void trace_message(const Caller &task, const relkvanu_store_call &call) {
    std::string files;
    for (size_t place = 0; place < call.first_len; place++) {
        files += text_of(" +", call.first[place]);
    }
    for (size_t place = 0; place < call.second_len; place++) {
        files += text_of(" =", call.second[place]);
    }
    trace("task ", task.name(), " sends ", call.call.kind == RELKVANU_CALL_ACK ? "ack " : "decline ", call.call.number, files);
}

relkvanu_answer Coordinator::make_by(const Caller &task, uint32_t kind, uint64_t number, const Files &first, const Files &second) {
    relkvanu_store_call call = call_of(kind, number);
    call.call.index = uint16_t(task.index);
    call.call.term = task.term;
    call.first = first.data();
    call.first_len = first.size();
    call.second = second.data();
    call.second_len = second.size();
    if (kind == RELKVANU_CALL_ACK || kind == RELKVANU_CALL_DECLINE) {
        trace_message(task, call);
    }
    const relkvanu_answer answer = committed(call);
    if (answer.code != RELKVANU_DONE && trace_is_on()) {
        trace_refusal(call);
    }
    if (kind == RELKVANU_CALL_ACK) {
        const char *told = answer.code != RELKVANU_DONE ? "refused" : answer.what == RELKVANU_ACK_LATE ? "late" : "accepted";
        trace("answer to ", task.name(), " ", told);
    }
    return answer;
}

std::optional<relkvanu_answer> Coordinator::tick(uint64_t ms) {
    relkvanu_store_call tick;
    const int status = relkvanu_store_await_tick(store, ms, &tick);
    if (status == RELKVANU_STORE_TIMED_OUT || status == RELKVANU_STORE_NO_MEMORY ||
        (status == RELKVANU_STORE_OK && tick.answer.code == RELKVANU_NO_MEMORY)) {
        return {};
    }
    check("a tick is not committed", status);
    trace_answered(tick.place);
    return noted(tick.answer);
}

relkvanu_answer Coordinator::restore(uint64_t savepoint, uint64_t tasks) {
    relkvanu_store_call call = call_of(RELKVANU_CALL_RESTORE, savepoint);
    call.first = &tasks;
    call.first_len = tasks != 0;
    return committed(call);
}

void Coordinator::take_all() {
    Files files(4096);
    relkvanu_store_call call = call_of(RELKVANU_CALL_TAKE, files.size());
    call.files = files.data();
    call.files_len = files.size();
    while (committed(call).a != 0) {}
}

void Coordinator::put(uint64_t number, const std::string &contents) {
    check("a file is not put", relkvanu_store_put(store, number, contents.data(), contents.size()));
}

void Coordinator::sweep() {
    size_t left;
    trace_deletes_as("sweeper");
    const int status = relkvanu_store_sweep(store, &left);
    trace_deletes_as(nullptr);
    CHECK(status != RELKVANU_STORE_STORAGE, "the storage has no marker: it is not the job's, or not mounted");
    check("a sweep", status);
    CHECK(left == 0, left, " files of garbage can't be deleted");
    look();
    step();
}

std::vector<Files> Coordinator::record(uint64_t id) {
    const Reading reading(*this);
    CHECK(relkvanu_standing(reading, id).what == RELKVANU_STANDS_DONE, "record ", id, " is not done");
    return files_of(reading, id);
}

relkvanu_counts Coordinator::counts() {
    return relkvanu_file_counts(Reading(*this));
}

uint64_t Coordinator::uses(uint64_t file) {
    return relkvanu_count(Reading(*this), file).b;
}

Files Coordinator::taken() {
    const Reading reading(*this);
    Files files(relkvanu_file_counts(reading).taken);
    CHECK(relkvanu_taken_files(reading, files.data(), files.size()).code == RELKVANU_DONE, "no memory");
    return files;
}

std::string Coordinator::image() {
    const Reading reading(*this);
    uint8_t none = 0;
    std::string image(relkvanu_save(reading, &none, 0).a, '\0');
    CHECK(relkvanu_save(reading, reinterpret_cast<uint8_t *>(image.data()), image.size()).code == RELKVANU_DONE, "no memory");
    return image;
}

Progress Coordinator::progress() {
    Progress progress;
    relkvanu_store_counts counts;
    relkvanu_store_count(store, &counts);
    progress.images = counts.images;
    {
        std::lock_guard<std::mutex> until_the_end(lock);
        progress.completed = completed;
        progress.is_rolled_back = is_rolled_back;
    }
    for (const relkvanu_answer &live : live_records(Reading(*this))) {
        if (live.what == RELKVANU_LIVE_SAVEPOINT) {
            (live.b == 1 ? progress.savepoint : progress.savepoint_pending) = live.a;
        }
    }
    return progress;
}
