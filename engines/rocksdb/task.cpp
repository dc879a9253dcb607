// The threads of tasks and zombies: see task.hpp.
#include "task.hpp"
#include "trace.hpp"

#include <fstream>

static constexpr size_t QUEUE_LEN = 64;
static constexpr uint64_t NAMES_AT_ONCE = 8, STANDS_STILL_MS = 400;

void Queue::put(const Message &message) {
    std::unique_lock<std::mutex> until_the_end(lock);
    changed.wait(until_the_end, [this] { return messages.size() < QUEUE_LEN || is_closed; });
    if (!is_closed) {
        messages.push_back(message);
        changed.notify_all();
    }
}

std::optional<Message> Queue::get() {
    std::unique_lock<std::mutex> until_the_end(lock);
    changed.wait(until_the_end, [this] { return !messages.empty() || is_closed || is_ended; });
    if (messages.empty() || is_closed) {
        return {};
    }
    const Message message = messages.front();
    messages.pop_front();
    changed.notify_all();
    return message;
}

void Queue::mark(bool &it) {
    std::lock_guard<std::mutex> until_the_end(lock);
    it = true;
    changed.notify_all();
}

Named tables_of(const Named &files) {
    Named tables;
    for (const auto &[name, number] : files) {
        if (fs::path(name).extension() == ".sst") {
            tables.emplace(name, number);
        }
    }
    return tables;
}

static Files numbers_of(const Named &files) {
    Files numbers;
    for (const auto &[_, number] : files) {
        numbers.push_back(number);
    }
    return numbers;
}

Task::Task(Shared &of, unsigned index, uint64_t choices, const fs::path &where)
    : shared(of), coordinator(*of.coordinator), caller{index, coordinator.term}, chance{choices}, folder(where) {
    empty_folder(folder);
}

void Task::start() {
    trace("task ", caller.name(), " starts");
    thread = std::thread(&Task::work, this);
}

void Task::work() {
    std::optional<Message> message;
    while (!is_stopped && (message = queue.get())) {
        if (message->barrier != 0) {
            take_part(message->barrier);
        } else {
            state->count(message->partition, message->offset, message->keys);
        }
    }
    queue.close();
}

// The task's part of a record: by the seed it takes its time, or finds after a while that it can't. By then others have
// acknowledged, and may name files again that go with the record.
void Task::take_part(uint64_t id) {
    const fs::path snapshot = folder / "checkpoint";
    trace("task ", caller.name(), " begins ", id);
    if (chance.below(8) == 0) {
        sleep_ms(chance.below(200));
    }
    if (chance.below(24) == 0) {
        sleep_ms(100);
        decline(id);
        return;
    }
    for (unsigned partition = caller.index; partition < PARTITIONS; partition += shared.parallelism) {
        shared.cut_of(id).offsets[partition] = state->offset(partition);
    }
    coordinator.step();
    state->snapshot(snapshot);
    if (!uploads(id, snapshot)) {
        CHECK(uploads(id, snapshot), "an acknowledgement without reused files is refused");
    }
    fs::remove_all(snapshot);
}

// Uploads the checkpoint and acknowledges. Returns whether that was accepted, or the task was stopped. It is refused if a reused file is gone, for
// example because another task declined the file's checkpoint.
bool Task::uploads(uint64_t id, const fs::path &snapshot) {
    Upload upload;
    upload.id = id;
    for (const fs::directory_entry &it : fs::directory_iterator(snapshot)) {
        upload_file(it.path(), upload);
    }
    if (is_stopped) {
        left = upload;
        return true;
    }
    const relkvanu_answer answer = ack(upload);
    CHECK(answer.code != RELKVANU_FENCED, "a task of the term that runs is fenced: ", answer.what, " ", answer.a);
    if (answer.code == RELKVANU_REFUSED) {
        CHECK(answer.what == RELKVANU_FILE_GONE, "an acknowledgement is refused: ", answer.what);
        // it gives up the names of files that it won't acknowledge: a sweeper deletes the files
        const relkvanu_answer told = coordinator.make_by(caller, RELKVANU_CALL_FORFEIT, 0, numbers_of(upload.fresh));
        CHECK(told.code == RELKVANU_DONE, "names are not given up: ", told.what);
        held.clear();
        return false;
    }
    if (answer.what != RELKVANU_ACK_LATE) {
        held = tables_of(upload.fresh);
        held.merge(tables_of(upload.reused));
    }
    if (chance.below(10) == 0) {
        repeat(upload);
    }
    return true;
}

// Puts a file of the checkpoint into the storage folder, or names it again.
void Task::upload_file(const fs::path &path, Upload &upload) {
    const std::string name = path.filename();
    const auto found = held.find(name);
    if (stops_after != 0 && stops_after == upload.fresh.size()) {
        is_stopped = true;
    }
    if (is_stopped) {
        return;
    } else if (found != held.end()) {
        upload.reused.insert(*found);
    } else {
        const uint64_t number = new_name();
        std::ostringstream contents;
        contents << name << "\n" << std::ifstream(path, std::ios::binary).rdbuf();
        trace("task ", caller.name(), " writes ", number);
        coordinator.put(number, contents.str());
        trace("task ", caller.name(), " syncs ", number);
        upload.fresh.emplace(name, number);
        coordinator.step();
    }
}

// A name for a file.
uint64_t Task::new_name() {
    if (names.next == names.end) {
        const relkvanu_answer answer = coordinator.make_by(caller, RELKVANU_CALL_RESERVE, NAMES_AT_ONCE);
        CHECK(answer.code == RELKVANU_DONE && answer.a >= names.end, "a reservation is answered ", answer.what);
        names = {answer.a, answer.a + answer.b};
    }
    return names.next++;
}

relkvanu_answer Task::ack(const Upload &upload) {
    coordinator.step();
    return coordinator.make_by(caller, RELKVANU_CALL_ACK, upload.id, numbers_of(upload.fresh), numbers_of(upload.reused));
}

// The same message once more: its names are spent.
void Task::repeat(const Upload &upload) {
    const relkvanu_answer answer = ack(upload);
    if (!upload.fresh.empty()) {
        CHECK(answer.code == RELKVANU_FENCED && answer.what == RELKVANU_SPENT, "a repeat is answered ", answer.code, " ", answer.what);
    } else {
        CHECK(answer.code == RELKVANU_REFUSED ? answer.what == RELKVANU_ALREADY_ACKNOWLEDGED
                                              : answer.what == RELKVANU_ACK_LATE && answer.a == 0,
            "a repeat without files is answered ", answer.what);
    }
}

void Task::decline(uint64_t id) {
    const relkvanu_answer answer = coordinator.make_by(caller, RELKVANU_CALL_DECLINE, id);
    CHECK(answer.code == RELKVANU_DONE, "a decline is refused: ", answer.what);
    if (answer.what == RELKVANU_DECLINE_FAILED) {
        shared.is_failed = true;
    }
}

Zombie::Zombie(const Task &task)
    : coordinator(task.coordinator), caller(task.caller), names(task.names), left(task.left), chance(task.chance) {
    thread = std::thread([this] {
        sleep_ms(chance.below(STANDS_STILL_MS));
        write_files();
        send();
    });
}

// It writes files that it had begun, though a sweeper may have deleted them, and one under a name that it has left.
void Zombie::write_files() {
    const Files fresh = numbers_of(left.fresh);
    for (uint64_t number : fresh) {
        if (chance.below(2) == 0) {
            write_file(number);
        }
    }
    if (names.next != names.end) {
        write_file(names.next++);
    }
    for (uint64_t number : fresh) {
        trace("task ", caller.name(), " syncs ", number);
    }
}

void Zombie::write_file(uint64_t number) {
    trace("task ", caller.name(), " writes ", number);
    coordinator.storage.write_again(number);
    coordinator.step();
}

void Zombie::send() {
    const Files fresh = numbers_of(left.fresh), reused = numbers_of(left.reused);
    const auto is_fenced = [this](uint32_t kind, uint64_t number, const Files &first = {}, const Files &second = {}) {
        const relkvanu_answer answer = coordinator.make_by(caller, kind, number, first, second);
        CHECK(answer.code == RELKVANU_FENCED && answer.what == RELKVANU_OLD_TERM, "call ", kind, " of an ended term is answered ",
            answer.code, " ", answer.what);
    };
    for (int copy = 0; copy < 2; copy++) {
        is_fenced(RELKVANU_CALL_ACK, left.id, fresh, reused);
        sleep_ms(chance.below(20));
    }
    is_fenced(RELKVANU_CALL_ACK, left.id, {}, reused);
    is_fenced(RELKVANU_CALL_DECLINE, left.id);
    is_fenced(RELKVANU_CALL_RESERVE, 1);
    is_fenced(RELKVANU_CALL_FORFEIT, 0, fresh);
}
