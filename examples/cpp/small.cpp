// small.cpp FOLDER [new]: a job of one task, which counts. The word `new` makes the job.
#include "relkvanu_store.hpp"

#include <cstdlib>
#include <iostream>
#include <string>

// Ends the process where the engine can't go on. The next one goes on with what is on the disk.
[[noreturn]] static void give_up(const std::string &why) {
    std::cerr << why << '\n';
    std::exit(1);
}

// The reply of this type. The alternatives of an answer are its replies and `ckpt::refused`.
template <class Reply, class Answer> static Reply need(const Answer &answer) {
    if (auto *refused = std::get_if<ckpt::refused>(&answer)) {
        give_up(refused->why.message());
    } else if (auto *reply = std::get_if<Reply>(&answer)) {
        return *reply;
    }
    give_up("another reply than was expected");
}

// A restore ends the term of earlier tasks, and says where to begin. Returns the term of the tasks that start now.
static std::uint64_t restore(ckpt::Store &job, std::uint64_t &count) {
    auto restored = need<ckpt::restored>(job.restore());
    auto found = job.load(); // the record that the restore chose; its number is 0 if no checkpoint is complete yet
    if (auto *failed = std::get_if<ckpt::not_made>(&found)) {
        give_up(failed->message);
    }
    auto &record = std::get<ckpt::whole_record>(found);
    if (record.is.id != 0) {
        count = std::stoull(record.parts.at(0).payload);
        std::cout << "begins from checkpoint " << record.is.id << " with " << count << '\n';
    }
    return restored.term;
}

int main(int argc, char **argv) {
    const std::string folder = argc > 1 ? argv[1] : ".", word = argc > 2 ? argv[2] : "";
    const std::uint64_t shape[] = {1}; // one vertex, with one subtask
    relkvanu_store_options options{};
    options.flags = word == "new" ? RELKVANU_STORE_CREATE : RELKVANU_STORE_RECOVER;
    options.settings.interval = 100; // ms
    options.settings.timeout = 60000;
    options.settings.at_once = options.settings.retained = 1;
    options.shape = shape;
    options.shape_len = 1;
    auto opened = ckpt::Store::open(folder + "/job.db", options);
    if (auto *refused = std::get_if<ckpt::not_opened>(&opened)) {
        give_up(refused->message);
    }
    auto &job = std::get<ckpt::Store>(opened);
    std::uint64_t count = 0, term = job.report().is_recovered ? restore(job, count) : job.report().term;
    for (int i = 0; i < 3; i++) {
        auto checkpoint = need<ckpt::triggered>(job.await_tick(60000)); // sleeps until one is due, at most 60 s
        const std::string state = std::to_string(++count);              // what the task does
        relkvanu_store_more more{};
        more.payload = state.data();
        more.payload_len = state.size();
        need<ckpt::ack_completed>(job.ack_with(term, checkpoint.id, 0, 0, {}, {}, more)); // the only subtask: it completes the record
        std::cout << "complete: " << checkpoint.id << '\n';                               // it is on the disk: a sink may publish
    }
}
