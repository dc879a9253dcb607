// The job: its source, tasks, timer and failures: see job.hpp.
#include "job.hpp"
#include "trace.hpp"

static constexpr uint64_t TICKS_MS = 20, FAILURES_MS = 1000, LEAST_IMAGES = 2;

Job::Job(const fs::path &where, uint64_t of_stream, uint64_t choices, uint64_t most, Death death, bool endless)
    : folder(where), local(where / "local"), seed(of_stream), seconds(most), started(now()), is_endless(endless), chance{mixed(choices)},
      next_failure(started + FAILURES_MS) {
    shared.coordinator = std::make_unique<Coordinator>(folder, 0, death);
}

// The source: puts each partition's records into the queue of its task.
void Job::feed() {
    Message message = {};
    while (!source_stops) {
        for (unsigned partition = 0; partition < PARTITIONS; partition++) {
            message.partition = partition;
            for (uint16_t &key : message.keys) {
                key = stream_key(seed, partition, offsets[partition]++);
            }
            message.offset = offsets[partition];
            tasks[partition % shared.parallelism]->queue.put(message);
        }
        sleep_ms(1);
    }
}

// Opens the databases of a record, one for each of its subtasks, in local/OF. Tells the files that they have.
States Job::opened(uint64_t id, const std::string &of, std::vector<Named> &files) {
    States states;
    for (const Files &part : coordinator().record(id)) {
        const fs::path where = local / text_of(of, "-", states.size());
        empty_folder(where);
        files.emplace_back();
        for (uint64_t number : part) {
            files.back().emplace(coordinator().storage.get(number, where), number);
        }
        states.push_back(std::make_unique<State>(where));
    }
    return states;
}

// Gives the tasks the state of the record that the job was restored from; 0: none. With the same parallelism its files may be named again.
void Job::load(uint64_t id) {
    std::vector<Named> files;
    States old, states;
    if (id != 0) {
        old = opened(id, "database", files);
    }
    if (old.size() == shared.parallelism) {
        states = std::move(old);
    } else {
        files.assign(shared.parallelism, {});
        for (unsigned index = 0; index < shared.parallelism; index++) {
            states.push_back(std::make_unique<State>(local / text_of("new-", index)));
        }
        for (const auto &it : old) {
            it->copy_to(states);
        }
    }
    for (unsigned index = 0; index < shared.parallelism; index++) {
        tasks[index]->state = std::move(states[index]);
        tasks[index]->held = tables_of(files[index]);
    }
    const Cut &cut = shared.cut_of(id);
    for (unsigned partition = 0; partition < PARTITIONS; partition++) {
        offsets[partition] = state_of(partition).offset(partition);
        CHECK(id == 0 || cut.record != id || offsets[partition] == cut.offsets[partition], "partition ", partition,
            " is not as it was at the barrier");
    }
}

// Restores the job as its end requires, and returns the record that it begins from; 0: none. A new process chooses how many tasks there are. A task
// that was stopped in the middle of an upload goes on after the restore.
uint64_t Job::restore(End end) {
    const uint64_t savepoint = end == End::ROLLS_BACK ? coordinator().progress().savepoint : 0;
    unsigned parallelism = end == End::RESCALES ? OTHER_TASKS : 0;
    if (end == End::BEGINS) {
        parallelism = chance.below(2) == 0 ? OTHER_TASKS : TASKS;
    }
    const relkvanu_answer answer = coordinator().restore(savepoint, parallelism);
    CHECK(answer.code == RELKVANU_DONE, "a restore is refused: ", answer.what);
    for (const auto &task : tasks) {
        if (task->left.id != 0) {
            zombies[zombies_begun++ % zombies.size()] = std::make_unique<Zombie>(*task);
        }
    }
    shared.parallelism = parallelism != 0 ? parallelism : shared.parallelism;
    return answer.b;
}

// Starts the source and the tasks, with the state of a record.
void Job::start(uint64_t id) {
    tasks.clear();
    empty_folder(local);
    for (unsigned index = 0; index < shared.parallelism; index++) {
        tasks.push_back(std::make_unique<Task>(shared, index, chance.below(UINT64_MAX), local / text_of("task-", index)));
    }
    load(id);
    shared.is_failed = false;
    source_stops = false;
    victim = nullptr;
    for (const auto &task : tasks) {
        task->start();
    }
    source = std::thread(&Job::feed, this);
}

// Takes the steps that the store has told.
void Job::take_steps() {
    const relkvanu_store_report &report = coordinator().report;
    uint64_t id = 0;
    for (size_t place = 0; place < report.steps_len; place++) {
        switch (report.steps[place]) {
        case RELKVANU_STORE_END_TASKS: break; // they were threads of a process that has ended: it had the lock of the job
        case RELKVANU_STORE_RESTORE: id = restore(End::BEGINS); break;
        case RELKVANU_STORE_SWEEP: coordinator().sweep(); break;
        case RELKVANU_STORE_START_TASKS:
            discarder = std::make_unique<Discarder>(coordinator(), seed);
            sweeper = std::make_unique<Sweeper>(coordinator(), seed);
            start(id);
            break;
        default: CHECK(false, "step ", report.steps[place], " is none of a job that runs");
        }
    }
}

// Stops the source, and the tasks: at once, or at the end of their queues.
void Job::stop(bool at_once) {
    source_stops = true;
    for (const auto &task : tasks) {
        if (at_once) {
            task->is_stopped = true;
            task->queue.close();
        }
    }
    source.join();
    for (const auto &task : tasks) {
        task->queue.end();
        task->thread.join();
    }
}

void Job::send_barriers(uint64_t id) {
    Message message = {};
    message.barrier = id;
    shared.cut_of(id).record = id;
    for (const auto &task : tasks) {
        trace("barrier ", id, " to ", task->caller.name());
        task->queue.put(message);
    }
}

// Each second the seed chooses a task, which stops where it is, or in the middle of its next checkpoint. The job is
// mostly left alone until it has completed a checkpoint.
void Job::choose_victim() {
    if (victim != nullptr || is_over() || now() < next_failure) {
        return;
    } else if (coordinator().progress().completed == 0 && chance.below(200) != 0) {
        return;
    }
    victim = tasks[chance.below(tasks.size())].get();
    next_failure = now() + FAILURES_MS;
    failures++;
    if (chance.below(3) == 0) {
        victim->is_stopped = true;
    } else {
        victim->stops_after = 1 + unsigned(chance.below(2));
    }
}

// A tick, and a savepoint if it is time for one.
void Job::drive() {
    const std::optional<relkvanu_answer> tick = coordinator().tick(TICKS_MS);
    if (tick && tick->code == RELKVANU_REFUSED) { // a decline has failed the job since
        CHECK(tick->what == RELKVANU_NOT_RUNNING, "a tick is refused: ", tick->what);
        shared.is_failed = true;
    } else if (tick && tick->what == RELKVANU_TICK_TRIGGERED) {
        send_barriers(tick->b);
    } else if (tick && tick->what == RELKVANU_TICK_FAILED) {
        shared.is_failed = true;
    }
    const Progress progress = coordinator().progress();
    if (has_passed(25) && progress.savepoint == 0 && progress.savepoint_pending == 0) {
        const relkvanu_answer answer = coordinator().make(RELKVANU_CALL_SAVEPOINT);
        if (answer.code == RELKVANU_DONE) {
            send_barriers(answer.a);
        }
    }
}

// Drives the job until its tasks have to stop.
End Job::drive_on() {
    const bool is_rescaled = shared.parallelism == OTHER_TASKS;
    for (;;) {
        drive();
        choose_victim();
        const Progress progress = coordinator().progress();
        if (has_failed()) {
            return End::FAILED;
        } else if (has_passed(50) && progress.savepoint != 0 && !progress.is_rolled_back) {
            return End::ROLLS_BACK;
        } else if (has_passed(75) && progress.is_rolled_back && !is_rescaled) {
            return End::RESCALES;
        } else if (is_over() && is_rescaled && progress.is_rolled_back && progress.completed != 0 &&
                   (progress.images >= LEAST_IMAGES || trace_is_on()) && victim == nullptr) {
            return End::OVER;
        }
        CHECK(now() - started < seconds * 1000 + GUARD_MS, "the job comes to no end: rescaled ", is_rescaled, ", rolled back ",
            progress.is_rolled_back, ", savepoint ", progress.savepoint, ", ", progress.completed, " records completed, ", progress.images,
            " images");
    }
}

void Job::run() {
    End end;
    take_steps();
    while ((end = drive_on()) != End::OVER) {
        stop(true);
        start(restore(end));
    }
    stop(false);
    for (auto &it : zombies) {
        it.reset();
    }
    sweeper->stop();
    discarder->stop();
}

void Job::print_end() {
    relkvanu_store_counts counts;
    uint64_t records = 0;
    for (uint64_t it : offsets) {
        records += it;
    }
    relkvanu_store_count(coordinator().store, &counts);
    std::cout << "rocksdb: " << records << " records of " << PARTITIONS << " partitions counted exactly. In the last process " << failures
              << " tasks stopped, " << zombies_begun << " went on after a restore; " << coordinator().report.replayed
              << " calls were made again as it began; " << counts.commits << " commits, the largest of " << counts.largest << " calls; "
              << counts.images << " images; " << sweeper->sweeps << " sweeps deleted " << counts.swept << " files, and the discarder "
              << discarder->deleted << ", with " << discarder->failed << " failures; each file of a done record was there "
              << coordinator().looks << " times\nrocksdb: it was told";
    for (const auto &[answer, count] : coordinator().told) {
        std::cout << answer << " " << count << ";";
    }
    std::cout << std::endl;
    CHECK(counts.unissued == 0, counts.unissued, " files have names that were not given out");
}
