/* A coordinator whose calls are durable, for C++17: a class that owns its store, with the answers of relkvanu.hpp. relkvanu_store.h says what
 * each function does, and lists the conditions for the caller.
 *
 * Threads share a Store. A call that was not committed is refused, and why is an error of store_category: nobody may act on it. From
 * store_error::failed to out_of_memory the store is closed for good.
 */
#ifndef RELKVANU_STORE_HPP
#define RELKVANU_STORE_HPP

#include "relkvanu.hpp"
#include "relkvanu_storage.hpp"
#include "relkvanu_store.h"

#include <fcntl.h>

namespace ckpt {

/* clang-format off */
/* bindings/generate makes the errors of a store */
enum class store_error : int {
    bad_argument = RELKVANU_STORE_BAD_ARGUMENT,
    no_memory = RELKVANU_STORE_NO_MEMORY,
    in_use = RELKVANU_STORE_IN_USE,
    absent = RELKVANU_STORE_ABSENT,
    present = RELKVANU_STORE_PRESENT,
    not_a_store = RELKVANU_STORE_NOT_A_STORE,
    differs = RELKVANU_STORE_DIFFERS,
    damaged = RELKVANU_STORE_DAMAGED,
    storage = RELKVANU_STORE_STORAGE,
    closed = RELKVANU_STORE_CLOSED,
    forked = RELKVANU_STORE_FORKED,
    timed_out = RELKVANU_STORE_TIMED_OUT,
    not_now = RELKVANU_STORE_NOT_NOW,
    stopped = RELKVANU_STORE_STOPPED,
    not_put = RELKVANU_STORE_NOT_PUT,
    not_running = RELKVANU_STORE_NOT_RUNNING,
    not_done = RELKVANU_STORE_NOT_DONE,
    job_stopped = RELKVANU_STORE_JOB_STOPPED,
    not_stopped = RELKVANU_STORE_NOT_STOPPED,
    file_lost = RELKVANU_STORE_FILE_LOST,
    failed = RELKVANU_STORE_FAILED,
    full = RELKVANU_STORE_FULL,
    read_only = RELKVANU_STORE_READ_ONLY,
    busy = RELKVANU_STORE_BUSY,
    out_of_memory = RELKVANU_STORE_OUT_OF_MEMORY,
    not_made = RELKVANU_STORE_NOT_MADE,
};

inline const char *message_of(store_error it) noexcept {
    switch (it) {
    case store_error::bad_argument: return "BadArgument";
    case store_error::no_memory: return "NoMemory";
    case store_error::in_use: return "InUse";
    case store_error::absent: return "Absent";
    case store_error::present: return "Present";
    case store_error::not_a_store: return "NotAStore";
    case store_error::differs: return "Differs";
    case store_error::damaged: return "Damaged";
    case store_error::storage: return "Storage";
    case store_error::closed: return "Closed";
    case store_error::forked: return "Forked";
    case store_error::timed_out: return "TimedOut";
    case store_error::not_now: return "NotNow";
    case store_error::stopped: return "Stopped";
    case store_error::not_put: return "NotPut";
    case store_error::not_running: return "NotRunning";
    case store_error::not_done: return "NotDone";
    case store_error::job_stopped: return "JobStopped";
    case store_error::not_stopped: return "NotStopped";
    case store_error::file_lost: return "FileLost";
    case store_error::failed: return "Failed";
    case store_error::full: return "Full";
    case store_error::read_only: return "ReadOnly";
    case store_error::busy: return "Busy";
    case store_error::out_of_memory: return "OutOfMemory";
    case store_error::not_made: return "NotMade";
    default: return "unknown";
    }
}
/* bindings/generate: end */
/* clang-format on */

class store_category_type final : public std::error_category {
public:
    const char *name() const noexcept override { return "relkvanu store"; }

    std::string message(int value) const override { return message_of(static_cast<store_error>(value)); }
};

inline const std::error_category &store_category() noexcept {
    static const store_category_type it;
    return it;
}

inline std::error_code make_error_code(store_error it) noexcept {
    return std::error_code(static_cast<int>(it), store_category());
}

/* The error of a status; none for RELKVANU_STORE_OK. */
inline std::error_code store_code(int status) noexcept {
    return status == RELKVANU_STORE_OK ? std::error_code() : make_error_code(static_cast<store_error>(status));
}

/* Why a job was not opened, and where. */
struct not_opened {
    std::error_code why;
    std::string message;
};

/* Why no backup was made, and what the system says. */
using no_backup = not_opened;

/* Why nothing was made of manifests, and where. */
using not_made = not_opened;

/* What a subtask has in a record: its files, in their order, its payload and its figures. */
struct stored_part {
    std::uint16_t vertex, index;
    std::vector<std::uint64_t> files;
    std::string payload;
    std::uint64_t bytes, millis;
};

/* A complete record. Its kind is 0 if the job begins fresh. */
struct whole_record {
    relkvanu_store_loaded is;
    std::vector<stored_part> parts; /* in the order of the subtasks */
};

/* Why the last call, put, sweep or discarder of this thread was not made: relkvanu_store_why. */
[[nodiscard]] inline std::string why() {
    std::string text(RELKVANU_STORE_MESSAGE, '\0');
    text.resize(relkvanu_store_why(text.data(), text.size()));
    return text;
}

/* A record of a storage folder, as its manifest says it: relkvanu_store_record. */
using stored_record = relkvanu_store_record;

/* What is wrong with a file of a record: RELKVANU_STORE_FILE_MISSING and so on. */
struct file_fault {
    std::uint64_t file;
    std::uint32_t fault;
};

/* A record whose files were read. */
struct checked_record {
    stored_record is;
    std::vector<file_fault> faults;
};

namespace detail {
/* What C tells of a folder. */
struct listing {
    std::vector<checked_record> found;
    std::vector<file_fault> faults; /* of the record that comes next */
    bool has_memory = true;

    /* Nothing may be thrown through C. */
    template <class Note> bool note(Note made) {
        try {
            made();
        } catch (const std::bad_alloc &) {
            has_memory = false;
        }
        return has_memory;
    }
};

inline bool note_record(void *with, const relkvanu_store_record *record) {
    auto *it = static_cast<listing *>(with);
    return it->note([&] {
        it->found.push_back({*record, std::move(it->faults)});
        it->faults.clear();
    });
}

inline bool note_fault(void *with, std::uint64_t, std::uint64_t file, std::uint32_t fault) {
    auto *it = static_cast<listing *>(with);
    return it->note([&] { it->faults.push_back({file, fault}); });
}

inline not_made not_listed(int status, const char *message) {
    return not_made{store_code(status == RELKVANU_STORE_OK ? RELKVANU_STORE_NO_MEMORY : status), message};
}
} // namespace detail

/* The records of a storage folder that have a manifest, in the order of their numbers. It needs no job, and may be called at any time. */
[[nodiscard]] inline std::variant<std::vector<stored_record>, not_made> records(const std::string &folder) {
    detail::listing all;
    char message[RELKVANU_STORE_MESSAGE] = "";
    int status = relkvanu_store_records(folder.c_str(), detail::note_record, &all, message, sizeof message);
    if (status != RELKVANU_STORE_OK || !all.has_memory) {
        return detail::not_listed(status, message);
    }
    std::vector<stored_record> found;
    for (const checked_record &it : all.found) {
        found.push_back(it.is);
    }
    return found;
}

/* The same, and reads the files of which a manifest has a checksum: relkvanu_store_check_records. */
[[nodiscard]] inline std::variant<std::vector<checked_record>, not_made> check_records(const std::string &folder) {
    detail::listing all;
    char message[RELKVANU_STORE_MESSAGE] = "";
    int status = relkvanu_store_check_records(folder.c_str(), detail::note_record, detail::note_fault, &all, message, sizeof message);
    if (status != RELKVANU_STORE_OK || !all.has_memory) {
        return detail::not_listed(status, message);
    }
    return std::move(all.found);
}

namespace detail {
template <class Made> std::variant<Made, not_made> told(int status, const Made &made) {
    if (status != RELKVANU_STORE_OK) {
        return not_made{store_code(status), made.message};
    }
    return made;
}
} // namespace detail

/* clang-format off */
/* bindings/generate makes what is made of manifests */
/* Makes the job at path again, whose file was lost, from the manifests in its storage folder: from the last record that was the choice and
 * has all its files, or from the record with this number; 0: any. The files stay where they are. Each task and process of the old job has
 * been told to end. Records, terms and names that the new job gives out are above all that the old one told anybody, and an old file that
 * comes back to path is refused. Savepoints that have all their files live on under new numbers. What the other records have is garbage to
 * the next sweep: so is the state of a record that was complete and has no manifest. */
[[nodiscard]] inline std::variant<relkvanu_store_recovered, not_made> recover(const std::string &path, const std::string &folder, std::uint64_t record = 0) {
    relkvanu_store_recovered made;
    int status = relkvanu_store_recover(path.c_str(), folder.c_str(), record, &made);
    return detail::told(status, made);
}

/* Makes the folder `to` of a record that has a manifest in a storage folder, with its manifest and its files: of the one that recover would
 * begin from, or of the record with this number. It needs no job, and may run beside one, whose tasks take no part: it links the files, so
 * that they stay whatever the job deletes, or copies them to another file system. If the record ends meanwhile, it takes the next one. The
 * folder is made beside `to`, as to.part, and gets its name once all is on the disk. So killed at any moment it has done nothing, or all.
 * */
[[nodiscard]] inline std::variant<relkvanu_store_carried, not_made> export_record(const std::string &folder, const std::string &to, std::uint64_t record = 0) {
    relkvanu_store_carried made;
    int status = relkvanu_store_export(folder.c_str(), record, to.c_str(), &made);
    return detail::told(status, made);
}

/* Makes another job, at path over a folder that is made, of a record in `from`: an exported folder, or the storage folder of a job, which
 * may run. It exports the record to the folder, and then does what recover does. The job has an identity of its own, and each goes its own
 * way. Killed at any moment it has done nothing, a part that the same call finishes, or all. Statuses as those of the two. */
[[nodiscard]] inline std::variant<relkvanu_store_recovered, not_made> import_record(const std::string &from, const std::string &path, const std::string &folder, std::uint64_t record = 0) {
    relkvanu_store_recovered made;
    int status = relkvanu_store_import(from.c_str(), record, path.c_str(), folder.c_str(), &made);
    return detail::told(status, made);
}

/* Takes a record over, with its files. A storage folder's old job is fenced first, before the record is chosen: its file is refused from
 * then on, and a process that still has it puts and deletes nothing more. If `folder` is `from`, its files stay in place: a job that has a
 * marker there keeps its identity, as by recover; a job over an exported folder gets one of its own. Otherwise it is import, after which
 * the files leave `from`, but for those that another record there has, and last of all the manifest. An exported folder that is empty then
 * is removed. Other records of `from` stay there, without a job. If import has made the job already, the same record leaves `from` in the
 * same way, and its old job is fenced first too. */
[[nodiscard]] inline std::variant<relkvanu_store_recovered, not_made> claim_record(const std::string &from, const std::string &path, const std::string &folder, std::uint64_t record = 0) {
    relkvanu_store_recovered made;
    int status = relkvanu_store_claim(from.c_str(), record, path.c_str(), folder.c_str(), &made);
    return detail::told(status, made);
}

/* Puts a backup of backup back in the place of a job's file, which may be damaged, lost, or a later one. Each process and task of the job
 * has ended, also on other hosts. The new file begins from the choice of the backup if its files are all in the storage folder, or else
 * from the last savepoint of which they are; above all terms of the backup, and above the name of each file in the folder. What was there
 * is set aside beside it, in a folder aside-XXXXXX with a copy of the marker, whose path message gets. No engine starts while there is no
 * file at path. Killed at any moment it has done nothing, or all, or there is no file at path: make the same call again before an engine
 * starts. What was set aside may then be in two folders. Until an engine opens the job, the files that were set aside go back in its place,
 * and last of all the marker. READ docs/DURABLE-OPERATION.md, Back up, first: sinks are told of numbers of records once more. */
[[nodiscard]] inline std::variant<relkvanu_store_recovered, not_made> put_back(const std::string &backup, const std::string &path, const std::string &folder) {
    relkvanu_store_recovered made;
    int status = relkvanu_store_put_back(backup.c_str(), path.c_str(), folder.c_str(), &made);
    return detail::told(status, made);
}
/* bindings/generate: end */
/* clang-format on */

namespace detail {
/* The alternatives of an answer with others before them. */
template <class Answer, class... Others> struct before;
template <class... Of, class... Others> struct before<std::variant<Of...>, Others...> { using type = std::variant<Others..., Of...>; };
} // namespace detail

/* What Store::await hands over. */
using order = detail::before<tick_answer, savepoint_triggered, restored>::type;
using configure_answer = std::variant<configured, refused>;

inline configure_answer configure_of(relkvanu_answer told) noexcept {
    return is_reply(told, RELKVANU_CONFIGURED) ? configure_answer(configured{told.a, told.b}) : refusal(told);
}

/* A durable coordinator. After a move the old one is empty: only its destructor and an assignment to it may be called. */
class Store {
public:
    [[nodiscard]] static std::variant<Store, not_opened> open(const std::string &path, const relkvanu_store_options &options) {
        relkvanu_store *made = nullptr;
        relkvanu_store_report report;
        int status = relkvanu_store_open(&made, path.c_str(), &options, &report);
        if (status != RELKVANU_STORE_OK) {
            return not_opened{store_code(status), report.message};
        }
        return Store(made, report);
    }

    Store(const Store &) = delete;
    Store &operator=(const Store &) = delete;
    Store(Store &&other) noexcept : store_(std::exchange(other.store_, nullptr)), report_(other.report_) {}

    Store &operator=(Store &&other) noexcept {
        if (this != &other) {
            relkvanu_store_close(store_);
            store_ = std::exchange(other.store_, nullptr);
            report_ = other.report_;
        }
        return *this;
    }

    /* Comes after the last call of each thread. */
    ~Store() { relkvanu_store_close(store_); }

    [[nodiscard]] const relkvanu_store_report &report() const noexcept { return report_; }

    /* The settings and the shape that the job has now: for after an opening whose report says settings_differ, or before configure. Makes an image. */
    [[nodiscard]] std::error_code job(relkvanu_settings &settings, std::vector<std::uint64_t> &shape) {
        std::size_t len = RELKVANU_STORE_MOST_VERTICES;
        shape.resize(len);
        int status = relkvanu_store_job(store_, &settings, shape.data(), &len);
        shape.resize(status == RELKVANU_STORE_OK ? len : 0);
        return store_code(status);
    }

    /* The calls. Without a moment each has that of the store's clock. */

    /* clang-format off */
    /* bindings/generate makes the calls of one number */
    /* Time has passed: records that are too old expire, and a checkpoint is triggered if one is due. */
    [[nodiscard]] tick_answer tick(std::uint64_t now = RELKVANU_STORE_NOW) noexcept {
        return one<tick_answer>(call(RELKVANU_CALL_TICK, now), tick_of);
    }

    /* Triggers a savepoint. At most 1000 savepoints are pending or done. */
    [[nodiscard]] savepoint_answer savepoint(std::uint64_t now = RELKVANU_STORE_NOW) noexcept {
        return one<savepoint_answer>(call(RELKVANU_CALL_SAVEPOINT, now), savepoint_of);
    }

    /* A user disposes of the completed savepoint id. */
    dispose_answer dispose(std::uint64_t id) noexcept {
        return one<dispose_answer>(call(RELKVANU_CALL_DISPOSE, 0, id), dispose_of);
    }

    /* The job ends for good. */
    cancel_answer cancel(std::uint64_t now = RELKVANU_STORE_NOW) noexcept {
        return one<cancel_answer>(call(RELKVANU_CALL_CANCEL, now), cancel_of);
    }

    /* Triggers a checkpoint now, whatever the interval and the pause. Nothing expires: make a tick first if records may be too old. The
     * interval counts from it, as after a tick that triggers. */
    [[nodiscard]] tick_answer trigger(std::uint64_t now = RELKVANU_STORE_NOW) noexcept {
        return one<tick_answer>(call(RELKVANU_CALL_TRIGGER, now), tick_of);
    }
    /* bindings/generate: end */
    /* clang-format on */

    /* Of a task of this term. An acknowledgement that is accepted spends the names of its fresh files. Once more it is refused as
     * error::fenced_spent, if it has fresh files: a task deletes no file. */
    [[nodiscard]] ack_answer ack_in(std::uint64_t term, std::uint64_t id, std::uint16_t vertex, std::uint16_t index, files fresh,
        files reused = {}, std::uint64_t now = RELKVANU_STORE_NOW) noexcept {
        return one<ack_answer>(call(RELKVANU_CALL_ACK, now, id, vertex, index, term, fresh, reused), ack_of);
    }

    decline_answer decline_in(
        std::uint64_t term, std::uint64_t id, std::uint16_t vertex, std::uint16_t index, std::uint64_t now = RELKVANU_STORE_NOW) noexcept {
        return one<decline_answer>(call(RELKVANU_CALL_DECLINE, now, id, vertex, index, term), decline_of);
    }

    /* The same with a payload, figures, or a reason, and with what the call has ended: relkvanu_store_more. Refused as store_error::bad_argument if a field of it is wrong; why() says
     * which. */
    [[nodiscard]] ack_answer ack_with(std::uint64_t term, std::uint64_t id, std::uint16_t vertex, std::uint16_t index, files fresh,
        files reused, relkvanu_store_more &more, std::uint64_t now = RELKVANU_STORE_NOW) noexcept {
        return one<ack_answer>(call(RELKVANU_CALL_ACK, now, id, vertex, index, term, fresh, reused, &more), ack_of);
    }

    decline_answer decline_with(std::uint64_t term, std::uint64_t id, std::uint16_t vertex, std::uint16_t index, relkvanu_store_more &more,
        std::uint64_t now = RELKVANU_STORE_NOW) noexcept {
        return one<decline_answer>(call(RELKVANU_CALL_DECLINE, now, id, vertex, index, term, {}, {}, &more), decline_of);
    }

    /* The complete record with this number, or the one that a restart begins from (0), with the files and the payload of each subtask, once it has looked that
     * the files are in the storage folder: relkvanu_store_load. store_error::file_lost: end the process, and sweep nothing. */
    [[nodiscard]] std::variant<whole_record, not_made> load(std::uint64_t id = 0) {
        struct loading {
            whole_record found = {};
            std::exception_ptr thrown;
        } all;
        auto note = [](void *with, const relkvanu_store_part *it) -> bool {
            auto *to = static_cast<loading *>(with);
            try {
                to->found.parts.push_back({it->vertex, it->index, std::vector<std::uint64_t>(it->files, it->files + it->files_len),
                    it->payload_len != 0 ? std::string(static_cast<const char *>(it->payload), it->payload_len) : std::string(), it->bytes,
                    it->millis});
            } catch (...) { /* nothing may be thrown through C */
                to->thrown = std::current_exception();
            }
            return to->thrown == nullptr;
        };
        int status = relkvanu_store_load(store_, id, &all.found.is, note, &all);
        if (all.thrown != nullptr) {
            std::rethrow_exception(all.thrown);
        }
        if (status != RELKVANU_STORE_OK) {
            return not_made{store_code(status), why()};
        }
        return std::move(all.found);
    }

    /* As many of the last records as there are places: relkvanu_store_history. len: how many there are. */
    [[nodiscard]] std::error_code history(span<relkvanu_store_past> past, std::size_t &len) noexcept {
        len = past.size();
        return store_code(relkvanu_store_history(store_, past.data(), &len));
    }

    /* Names for files that the task of this term will write, 1 to 65536. */
    [[nodiscard]] reserve_answer reserve(std::uint64_t term, std::uint64_t count) noexcept {
        return one<reserve_answer>(call(RELKVANU_CALL_RESERVE, 0, count, 0, 0, term), reserve_of);
    }

    /* The task of this term gives up names that it will not acknowledge, at most 65536. */
    forfeit_answer forfeit(std::uint64_t term, files names) noexcept {
        relkvanu_answer answer;
        return told<forfeit_answer>(relkvanu_store_forfeit(store_, term, names.data(), names.size(), &answer), answer, forfeit_of);
    }

    /* The term that runs, and the next name. Whoever starts tasks takes the term from the answer to its restore; a task never asks. */
    [[nodiscard]] term_answer term() noexcept {
        relkvanu_answer answer;
        return told<term_answer>(relkvanu_store_term(store_, &answer), answer, term_of);
    }

    /* Of these files those that are garbage, which may be deleted at any time, and those whose names were not given out, which nobody deletes. */
    [[nodiscard]] garbage_answer garbage(files of) {
        std::vector<std::uint64_t> places(of.size());
        sorted_files it = {places, std::move(places)};
        relkvanu_answer answer;
        int status = relkvanu_store_garbage(store_, of.data(), of.size(), it.garbage.data(), it.unissued.data(), &answer);
        return told<garbage_answer>(status, answer, [&it](relkvanu_answer sorted) { return garbage_of(sorted, std::move(it)); });
    }

    /* From a savepoint, or from the latest record if it is 0. restored.term is what the tasks are started with. */
    restore_answer restore(std::uint64_t savepoint = 0, shape of = {}, std::uint64_t now = RELKVANU_STORE_NOW) noexcept {
        relkvanu_store_call it = call(RELKVANU_CALL_RESTORE, now, savepoint, 0, 0, 0, of);
        return restored_by([this, &it](relkvanu_store_call &made) noexcept {
            made = it;
            return relkvanu_store_calls(store_, &made, 1);
        });
    }

    /* A list of calls, with no other in between. Without an error each has its answer. */
    [[nodiscard]] std::error_code calls(span<relkvanu_store_call> list) noexcept {
        return store_code(relkvanu_store_calls(store_, list.data(), list.size()));
    }

    /* For event loops: see relkvanu_store_submit. */
    [[nodiscard]] std::error_code submit(span<relkvanu_store_call> list, std::uint64_t token) noexcept {
        return store_code(relkvanu_store_submit(store_, list.data(), list.size(), token));
    }

    /* The same of stop_job and begin_job, which write the call. go_back has no such form: give it a thread. */
    [[nodiscard]] std::error_code submit_stop_job(relkvanu_store_call &call, std::uint64_t token) noexcept {
        return store_code(relkvanu_store_submit_stop_job(store_, &call, token));
    }
    [[nodiscard]] std::error_code submit_begin_job(relkvanu_store_call &call, std::uint64_t token) noexcept {
        return store_code(relkvanu_store_submit_begin_job(store_, &call, token));
    }

    std::size_t completed(span<relkvanu_store_completion> list) noexcept {
        return relkvanu_store_completed(store_, list.data(), list.size());
    }

    [[nodiscard]] int descriptor() const noexcept { return relkvanu_store_descriptor(store_); }

    /* Calls look with the handle, for reads of what is committed. Also if it throws the read ends. */
    template <class Look> [[nodiscard]] std::error_code read(Look look) {
        struct reading {
            relkvanu_store *store;
            ~reading() { relkvanu_store_read_end(store); }
        };
        relkvanu *handle = nullptr;
        int status = relkvanu_store_read(store_, &handle);
        if (status == RELKVANU_STORE_OK) {
            reading until_the_end{store_};
            look(handle);
        }
        return store_code(status);
    }

    /* The same with the functions relkvanu_reads_.. of relkvanu_store.h alone, so that no call compiles. */
    template <class Look> [[nodiscard]] std::error_code reads(Look look) {
        return read([&look](relkvanu *handle) { look(reinterpret_cast<relkvanu_reads *>(handle)); });
    }

    [[nodiscard]] std::uint64_t now() const noexcept { return relkvanu_store_now(store_); }

    /* After how many milliseconds the next tick has to come; RELKVANU_STORE_NOW: only a call can bring one. */
    [[nodiscard]] std::error_code next_tick(std::uint64_t &wait) noexcept { return store_code(relkvanu_store_next_tick(store_, &wait)); }

    /* Sleeps until a tick is due, at most so many milliseconds, and makes it. Refused as store_error::timed_out (none was due, or the job is not
     * running: read the mode) or stopped otherwise. An engine that an operator gives commands to takes await: here what is no tick is refused as
     * error::unknown, and lost. */
    [[nodiscard]] tick_answer await_tick(std::uint64_t longest) noexcept {
        relkvanu_store_call tick = {};
        return told<tick_answer>(awaited(longest, tick), tick.answer, tick_of);
    }

    /* tick, savepoint and await_tick that also tell the choice of a trigger, in base: the record that the barrier names beside the new one, and whose
     * files tasks may name again. After any other answer base is fresh. Refused as error::unknown if the choice is of a kind that this header does
     * not have, because the library is newer: then the call was made. */
    [[nodiscard]] tick_answer tick(choice &base, std::uint64_t now = RELKVANU_STORE_NOW) noexcept {
        return based<tick_answer>(call(RELKVANU_CALL_TICK, now), tick_of, base);
    }
    [[nodiscard]] savepoint_answer savepoint(choice &base, std::uint64_t now = RELKVANU_STORE_NOW) noexcept {
        return based<savepoint_answer>(call(RELKVANU_CALL_SAVEPOINT, now), savepoint_of, base);
    }
    [[nodiscard]] tick_answer await_tick(std::uint64_t longest, choice &base) noexcept {
        relkvanu_store_call tick = {};
        int status = awaited(longest, tick);
        return chosen<tick_answer>(status, tick, tick_of, base);
    }

    /* As await_tick, of an engine that an operator gives commands to: what stop_job, begin_job, go_back and trigger have made comes from here too, once.
     * After triggered and savepoint_triggered (the job is being stopped) the engine sends the barrier, which names base beside it. After restored it begins
     * there, as after a restore of its own. Refused as store_error::timed_out (none was due, or the job is not running: read the mode), job_stopped,
     * not_stopped (the phase says why) or stopped (by stop). */
    [[nodiscard]] order await(std::uint64_t longest, choice &base) noexcept {
        relkvanu_store_call made = {};
        int status = awaited(longest, made);
        return chosen<order>(
            status, made, [&made](relkvanu_answer told) noexcept { return order_of(told, made.term); }, base);
    }

    /* The commands of an operator, of any thread: relkvanu_store.h has what each does, under relkvanu_store_trigger. trigger is one of them. */

    /* Refused as store_error::bad_argument if a value is outside its limits. */
    configure_answer configure(const relkvanu_settings &settings) noexcept {
        relkvanu_store_call made = {};
        return told<configure_answer>(relkvanu_store_configure(store_, &settings, &made), made.answer, configure_of);
    }
    savepoint_answer stop_job() noexcept {
        relkvanu_store_call made = {};
        return told<savepoint_answer>(relkvanu_store_stop_job(store_, &made), made.answer, savepoint_of);
    }
    restore_answer begin_job() noexcept {
        return restored_by([this](relkvanu_store_call &made) noexcept { return relkvanu_store_begin_job(store_, &made); });
    }

    /* accept_published: what sinks have published for later records is not taken back. Without it: refused as store_error::bad_argument. */
    restore_answer go_back(std::uint64_t id, bool accept_published) noexcept {
        std::uint32_t flags = accept_published ? RELKVANU_STORE_ACCEPT_PUBLISHED : 0;
        return restored_by([=](relkvanu_store_call &made) noexcept { return relkvanu_store_go_back(store_, id, flags, &made); });
    }

    /* In place of the first restore, of a job that lacks its last calls. */
    restore_answer advance(std::uint64_t term, std::uint64_t first_name) noexcept {
        return restored_by([=](relkvanu_store_call &made) noexcept { return relkvanu_store_advance(store_, term, first_name, &made); });
    }
    [[nodiscard]] std::error_code phase(relkvanu_store_job_phase &phase) noexcept {
        return store_code(relkvanu_store_phase(store_, &phase));
    }

    /* A discarder and a sweep of any storage: the engine's own, or a Folder. */
    [[nodiscard]] std::error_code discard_storage(Storage &storage, std::size_t batch = 0) noexcept {
        relkvanu_storage functions = storage.functions();
        return store_code(relkvanu_store_discard_storage(store_, batch, &functions));
    }
    [[nodiscard]] std::error_code sweep_storage(Storage &storage, std::size_t &left) noexcept {
        relkvanu_storage functions = storage.functions();
        return store_code(relkvanu_store_sweep_storage(store_, &functions, &left));
    }

    [[nodiscard]] int folder() const noexcept { return relkvanu_store_folder(store_); }

    /* A discarder in a thread of the engine, until stop, which it returns as store_error::stopped: gone(file) says whether the file is not there any
     * more. What it throws ends the discarder, which throws it too, once the files before it are reported. The file waits again. */
    template <class Gone> [[nodiscard]] std::error_code discard(Gone gone, std::size_t batch = 0) {
        struct discarding {
            Gone &gone;
            std::exception_ptr thrown;
        } with{gone, nullptr};
        auto delete_files = [](void *to, const std::uint64_t *list, std::size_t len, std::uint8_t *is_gone) noexcept {
            auto &it = *static_cast<discarding *>(to);
            try {
                for (std::size_t place = 0; place < len; place++) {
                    is_gone[place] = it.gone(list[place]) ? 1 : 0;
                }
            } catch (...) {
                it.thrown = std::current_exception();
            }
            return it.thrown == nullptr;
        };
        int status = RELKVANU_STORE_TIMED_OUT;
        while (status == RELKVANU_STORE_TIMED_OUT || status == RELKVANU_STORE_NO_MEMORY) {
            status = relkvanu_store_discard_for(store_, batch, UINT64_MAX, delete_files, &with);
        }
        if (with.thrown != nullptr) {
            std::rethrow_exception(with.thrown);
        }
        return store_code(status);
    }

    /* State files in the storage folder, by their numbers: relkvanu_store.h has the conditions. `left`: files that a sweep could not delete. */
    [[nodiscard]] std::error_code put(std::uint64_t file, std::string_view contents) noexcept {
        return store_code(relkvanu_store_put(store_, file, contents.data(), contents.size()));
    }

    /* The same of a file that does not fit into memory: source(to, room) writes the next bytes, at most room, and returns how many; 0: the file ends
     * here. It makes no call. What it throws ends the put, which throws it too: the task forfeits the name. */
    template <class Source> [[nodiscard]] std::error_code put_from(std::uint64_t file, Source source) {
        struct reading {
            Source &source;
            std::exception_ptr thrown;
        } with{source, nullptr};
        auto next = [](void *from, void *to, std::size_t room) noexcept -> std::int64_t {
            auto &it = *static_cast<reading *>(from);
            try {
                return static_cast<std::int64_t>(it.source(static_cast<char *>(to), room));
            } catch (...) {
                it.thrown = std::current_exception();
                return -1;
            }
        };
        int status = relkvanu_store_put_from(store_, file, next, &with);
        if (with.thrown != nullptr) {
            std::rethrow_exception(with.thrown);
        }
        return store_code(status);
    }

    /* The same of a file that exists, which gets the number as a second name, and which nobody writes afterwards. store_error::not_put with EXDEV in errno:
     * it is on another file system, so put_from copies it. */
    [[nodiscard]] std::error_code put_link(std::uint64_t file, const std::string &path) noexcept {
        return store_code(relkvanu_store_put_link(store_, file, AT_FDCWD, path.c_str()));
    }
    [[nodiscard]] std::error_code sweep(std::size_t &left) noexcept { return store_code(relkvanu_store_sweep(store_, &left)); }
    [[nodiscard]] std::error_code discard_files(std::size_t batch = 0) noexcept {
        return store_code(relkvanu_store_discard_storage(store_, batch, nullptr));
    }

    /* Makes a backup of the job in a new file, while other threads call: relkvanu_store_backup has what it is, and when it may be opened. */
    [[nodiscard]] std::optional<no_backup> backup(const std::string &path) {
        std::string text(RELKVANU_STORE_MESSAGE, '\0');
        int status = relkvanu_store_backup(store_, path.c_str(), text.data(), text.size());
        if (status == RELKVANU_STORE_OK) {
            return std::nullopt;
        }
        text.resize(text.find('\0'));
        return no_backup{store_code(status), text};
    }

    void stop() noexcept { relkvanu_store_stop(store_); }

    [[nodiscard]] relkvanu_store_counts counts() noexcept {
        relkvanu_store_counts found;
        relkvanu_store_count(store_, &found);
        return found;
    }

    /* What closed the store. */
    [[nodiscard]] std::string message() {
        std::string text(RELKVANU_STORE_MESSAGE, '\0');
        text.resize(relkvanu_store_message(store_, text.data(), text.size()));
        return text;
    }

private:
    relkvanu_store *store_;
    relkvanu_store_report report_;

    Store(relkvanu_store *made, const relkvanu_store_report &found) noexcept : store_(made), report_(found) {}

    static relkvanu_store_call call(std::uint32_t kind, std::uint64_t now, std::uint64_t number = 0, std::uint16_t vertex = 0,
        std::uint16_t index = 0, std::uint64_t term = 0, files first = {}, files second = {},
        relkvanu_store_more *more = nullptr) noexcept {
        relkvanu_store_call it = {};
        it.call = relkvanu_call{kind, vertex, index, now, number, term};
        it.first = first.data();
        it.first_len = first.size();
        it.second = second.data();
        it.second_len = second.size();
        it.more = more;
        return it;
    }

    /* What an answer means, if its call was committed. */
    template <class Answer, class Of> static Answer told(int status, const relkvanu_answer &answer, Of of) noexcept {
        return status == RELKVANU_STORE_OK ? of(answer) : Answer(refused{store_code(status)});
    }

    template <class Answer, class Of> Answer one(relkvanu_store_call it, Of of) noexcept {
        return told<Answer>(relkvanu_store_calls(store_, &it, 1), it.answer, of);
    }

    /* The answer of a restore, with the term that it begins. */
    template <class Make> restore_answer restored_by(Make make) noexcept {
        relkvanu_store_call made = {};
        int status = make(made);
        restore_answer from = told<restore_answer>(status, made.answer, restore_of);
        if (restored *begins = std::get_if<restored>(&from)) {
            begins->term = made.term;
        }
        return from;
    }

    static order order_of(relkvanu_answer told, std::uint64_t term) noexcept {
        auto as_order = [](auto it) noexcept { return order(it); };
        if (is_reply(told, RELKVANU_SAVEPOINT_TRIGGERED)) {
            return savepoint_triggered{told.a};
        }
        restore_answer begins = restore_of(told);
        if (restored *it = std::get_if<restored>(&begins)) {
            it->term = term;
            return *it;
        }
        return std::visit(as_order, tick_of(told));
    }

    int awaited(std::uint64_t longest, relkvanu_store_call &tick) noexcept {
        int status = relkvanu_store_await_tick(store_, longest, &tick);
        return status == RELKVANU_STORE_NOT_RUNNING ? RELKVANU_STORE_TIMED_OUT : status;
    }

    template <class Answer, class Of> Answer based(relkvanu_store_call it, Of of, choice &base) noexcept {
        int status = relkvanu_store_calls(store_, &it, 1);
        return chosen<Answer>(status, it, of, base);
    }

    /* The answer to a call that may trigger, with the choice of the trigger in base. Without a trigger the call has none. */
    template <class Answer, class Of> static Answer chosen(int status, const relkvanu_store_call &made, Of of, choice &base) noexcept {
        base = ckpt::fresh{};
        if (status != RELKVANU_STORE_OK) {
            return refused{store_code(status)};
        }
        switch (made.choice.what) {
        case RELKVANU_CHOICE_CHECKPOINT: base = ckpt::checkpoint{made.choice.a}; break;
        case RELKVANU_CHOICE_SAVEPOINT: base = ckpt::savepoint{made.choice.a}; break;
        case RELKVANU_CHOICE_FRESH:
        case 0: break;
        default: return refused{make_error_code(error::unknown)};
        }
        return of(made.answer);
    }
};

} // namespace ckpt

template <> struct std::is_error_code_enum<ckpt::store_error> : std::true_type {};

#endif
