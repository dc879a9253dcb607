/* The coordinator of a stream processor's checkpoints, for C++17: a coordinator that owns its handle, answers as std::variant,
 * and refusals as std::error_code. relkvanu.h says what each call does, and lists the conditions for the caller. The
 * namespace is ckpt, because C has the name relkvanu.
 *
 * Make one call or read at a time for each coordinator. A read takes the state out of its handle and puts it back, so reads
 * are not const. Threads share a coordinator under the engine's own mutex. Functions whose result has a string or a vector may
 * throw std::bad_alloc. open, open_fenced and open_saved throw what std::random_device throws. All others are noexcept.
 *
 * The process is aborted, with or without NDEBUG, if a closed coordinator is read, since no answer would be right: a count of 0 lets a
 * caller delete a file that is in use. If the library gives an answer that this header does not have, because it is of another version, a
 * call is refused as error::unknown, and mode() and standing() return unknown. choice(), live() and live_from() have no place for such an
 * answer, and abort the process.
 */
#ifndef RELKVANU_HPP
#define RELKVANU_HPP

#include "relkvanu.h"

#include <cstddef>
#include <cstdint>
#include <cstdio>
#include <cstdlib>
#include <optional>
#include <random>
#include <string>
#include <string_view>
#include <system_error>
#include <type_traits>
#include <utility>
#include <variant>
#include <vector>

namespace ckpt {

/* A sequence of elements that it does not own, since std::span needs C++20. The data of an empty one may be null. */
template <class T> class span {
public:
    constexpr span() noexcept = default;
    constexpr span(T *first, std::size_t len) noexcept : first_(first), len_(len) {}
    span(std::nullptr_t, std::size_t) = delete; /* {0, 2} is no list of the files 0 and 2 */
    template <std::size_t N> constexpr span(T (&all)[N]) noexcept : first_(all), len_(N) {}
    template <class Container, class = std::enable_if_t<std::is_convertible_v<decltype(std::declval<Container &>().data()), T *>>>
    constexpr span(Container &all) noexcept : first_(all.data()), len_(all.size()) {}

    constexpr T *data() const noexcept { return first_; }
    constexpr std::size_t size() const noexcept { return len_; }
    constexpr bool empty() const noexcept { return len_ == 0; }
    constexpr T *begin() const noexcept { return first_; }
    constexpr T *end() const noexcept { return first_ + len_; }
    constexpr T &operator[](std::size_t place) const noexcept { return first_[place]; }

private:
    T *first_ = nullptr;
    std::size_t len_ = 0;
};

using files = span<const std::uint64_t>;
using shape = span<const std::uint64_t>;

/* Why a call changed nothing: the header's code and what, as one number. */
/* clang-format off */
/* bindings/generate makes the errors */
enum class error : int {
    moment_too_large = RELKVANU_REFUSED << 8 | RELKVANU_MOMENT_TOO_LARGE, /* The moment is above its limit. */
    not_running = RELKVANU_REFUSED << 8 | RELKVANU_NOT_RUNNING, /* The job has failed or was cancelled. */
    too_many_files = RELKVANU_REFUSED << 8 | RELKVANU_TOO_MANY_FILES, /* An acknowledgement has more than 4096 files. */
    repeated_file = RELKVANU_REFUSED << 8 | RELKVANU_REPEATED_FILE, /* An acknowledgement names a file twice. */
    unknown_checkpoint = RELKVANU_REFUSED << 8 | RELKVANU_UNKNOWN_CHECKPOINT, /* No record has had the number. */
    unknown_subtask = RELKVANU_REFUSED << 8 | RELKVANU_UNKNOWN_SUBTASK, /* The job has no such subtask. */
    already_acknowledged = RELKVANU_REFUSED << 8 | RELKVANU_ALREADY_ACKNOWLEDGED, /* The subtask has acknowledged in this record. Its files may belong to the coordinator: do not delete them. */
    name_taken = RELKVANU_REFUSED << 8 | RELKVANU_NAME_TAKEN, /* The coordinator knows a file with the number of a fresh one. It may be in use: do not delete it. */
    file_gone = RELKVANU_REFUSED << 8 | RELKVANU_FILE_GONE, /* A reused file is no longer in use: the task writes its state again, under a new number. */
    no_such_savepoint = RELKVANU_REFUSED << 8 | RELKVANU_NO_SUCH_SAVEPOINT, /* No completed savepoint has the number. */
    in_use = RELKVANU_REFUSED << 8 | RELKVANU_IN_USE, /* The job would begin again from this savepoint. */
    too_many_savepoints = RELKVANU_REFUSED << 8 | RELKVANU_TOO_MANY_SAVEPOINTS, /* 1000 savepoints are pending or done. */
    not_taken = RELKVANU_REFUSED << 8 | RELKVANU_NOT_TAKEN, /* The file was not fetched for deletion, or was reported before. */
    no_such_record = RELKVANU_REFUSED << 8 | RELKVANU_NO_SUCH_RECORD, /* No live record has the number. */
    ids_used_up = RELKVANU_REFUSED << 8 | RELKVANU_IDS_USED_UP, /* No number is left for another record. */
    at_once = RELKVANU_REFUSED << 8 | RELKVANU_AT_ONCE, /* As many checkpoints are pending as may be, or more than the new settings allow. */
    no_memory = RELKVANU_NO_MEMORY << 8, /* Make the same call again. */
    closed = RELKVANU_CLOSED << 8, /* The coordinator was moved from. */
    already_open = RELKVANU_BAD_ARGUMENT << 8 | RELKVANU_ALREADY_OPEN, /* The handle has a coordinator already. */
    bad_config = RELKVANU_BAD_ARGUMENT << 8 | RELKVANU_BAD_CONFIG, /* A value of the settings is outside its limits. */
    bad_shape = RELKVANU_BAD_ARGUMENT << 8 | RELKVANU_BAD_SHAPE, /* 1 to 256 vertices, at least 1 subtask each, at most 4096 in sum. */
    bad_moment = RELKVANU_BAD_ARGUMENT << 8 | RELKVANU_BAD_MOMENT, /* The moment of an opening is above 2^62 - 1. */
    bad_first = RELKVANU_BAD_ARGUMENT << 8 | RELKVANU_BAD_FIRST, /* The number of the first record is not within 1 to 2^62 - 1. */
    bad_kind = RELKVANU_BAD_ARGUMENT << 8 | RELKVANU_BAD_KIND, /* The kind of a call that is to be written. */
    bad_image = RELKVANU_BAD_ARGUMENT << 8 | RELKVANU_BAD_IMAGE, /* The bytes are not an image, or the state is not sound, or no coordinator could be opened so. */
    bad_name = RELKVANU_BAD_ARGUMENT << 8 | RELKVANU_BAD_NAME, /* The first name is 0 or above 2^62. */
    bad_group = RELKVANU_BAD_ARGUMENT << 8 | RELKVANU_BAD_GROUP, /* The group has failed: open the handle again, from the log. */
    bad_receipt = RELKVANU_BAD_ARGUMENT << 8 | RELKVANU_BAD_RECEIPT, /* No answer may be told by the receipt, or there is no place or receipt for another answer. */
    too_short = RELKVANU_TOO_SHORT << 8, /* The buffer needs more places. */
    line_too_long = RELKVANU_BAD_LINE << 8 | RELKVANU_FAULT_TOO_LONG, /* A line has at most 131072 bytes. */
    line_word = RELKVANU_BAD_LINE << 8 | RELKVANU_FAULT_WORD, /* A word that does not belong there. */
    line_missing = RELKVANU_BAD_LINE << 8 | RELKVANU_FAULT_MISSING, /* The line ends before a word that it needs. */
    line_number = RELKVANU_BAD_LINE << 8 | RELKVANU_FAULT_NUMBER, /* Not a number, or not a subtask. */
    line_extra = RELKVANU_BAD_LINE << 8 | RELKVANU_FAULT_EXTRA, /* A word follows the last one. */
    line_no_call = RELKVANU_BAD_LINE << 8 | RELKVANU_FAULT_NO_CALL, /* A config, job, start or all line, or in and a term before what is no call: it was read, and makes no call. */
    fenced_old_term = RELKVANU_FENCED << 8 | RELKVANU_OLD_TERM, /* The term of the task has ended, or has not begun. */
    fenced_ended = RELKVANU_FENCED << 8 | RELKVANU_ENDED, /* The job was cancelled, and no task runs. */
    fenced_bad_count = RELKVANU_FENCED << 8 | RELKVANU_BAD_COUNT, /* It would reserve no name, or more than 65536. */
    fenced_names_used_up = RELKVANU_FENCED << 8 | RELKVANU_NAMES_USED_UP, /* All names up to 2^62 - 1 were given out. */
    fenced_terms_used_up = RELKVANU_FENCED << 8 | RELKVANU_TERMS_USED_UP, /* As many terms have ended as can be counted, 2^62. */
    fenced_spent = RELKVANU_FENCED << 8 | RELKVANU_SPENT, /* Its name was given out, and the term does not hold it: nobody deletes it for this answer. */
    fenced_never_reserved = RELKVANU_FENCED << 8 | RELKVANU_NEVER_RESERVED, /* Its name was not given out. */
    fenced_no_names = RELKVANU_FENCED << 8 | RELKVANU_NO_NAMES, /* The handle has no names. */
    fenced_has_names = RELKVANU_FENCED << 8 | RELKVANU_HAS_NAMES, /* The handle has names. */
    fenced_name_in_use = RELKVANU_FENCED << 8 | RELKVANU_NAME_IN_USE, /* A file with this number or a greater one is in use, waits for deletion or was fetched. */
    unknown = 0xff << 8, /* The library is of another version. After it alone the call may have been made. */
};

/* Whether an answer with this code has a `what`. */
constexpr bool has_what(std::uint32_t code) noexcept {
    return code == RELKVANU_REFUSED || code == RELKVANU_BAD_ARGUMENT || code == RELKVANU_BAD_LINE || code == RELKVANU_FENCED;
}
/* bindings/generate: end */
/* clang-format on */

/* clang-format off */
/* bindings/generate makes the messages */
inline const char *message_of(error it) noexcept {
    switch (it) {
    case error::no_memory: return "out of memory";
    case error::closed: return "closed";
    case error::already_open: return "AlreadyOpen";
    case error::bad_config: return "BadConfig";
    case error::bad_shape: return "BadShape";
    case error::bad_moment: return "BadMoment";
    case error::bad_first: return "BadFirst";
    case error::bad_kind: return "BadKind";
    case error::bad_image: return "BadImage";
    case error::bad_name: return "BadName";
    case error::bad_group: return "BadGroup";
    case error::bad_receipt: return "BadReceipt";
    case error::too_short: return "the buffer is too short";
    case error::line_too_long: return "TooLong";
    case error::line_word: return "Word";
    case error::line_missing: return "Missing";
    case error::line_number: return "Number";
    case error::line_extra: return "Extra";
    case error::line_no_call: return "NoCall";
    case error::fenced_old_term: return "OldTerm";
    case error::fenced_ended: return "Ended";
    case error::fenced_bad_count: return "BadCount";
    case error::fenced_names_used_up: return "NamesUsedUp";
    case error::fenced_terms_used_up: return "TermsUsedUp";
    case error::fenced_spent: return "Spent";
    case error::fenced_never_reserved: return "NeverReserved";
    case error::fenced_no_names: return "NoNames";
    case error::fenced_has_names: return "HasNames";
    case error::fenced_name_in_use: return "NameInUse";
    default: return "unknown";
    }
}
/* bindings/generate: end */
/* clang-format on */

class error_category_type final : public std::error_category {
public:
    const char *name() const noexcept override { return "relkvanu"; }

    std::string message(int value) const override {
        std::uint8_t text[32] = {};
        if (value >> 8 == RELKVANU_REFUSED) {
            std::size_t len = relkvanu_refusal_text(static_cast<std::uint32_t>(value & 0xff), text, sizeof text);
            return len == 0 || len > sizeof text ? "unknown" : std::string(reinterpret_cast<const char *>(text), len);
        }
        return message_of(static_cast<error>(value));
    }

    std::error_condition default_error_condition(int value) const noexcept override {
        if (static_cast<error>(value) == error::no_memory) {
            return std::errc::not_enough_memory;
        }
        return std::error_condition(value, *this);
    }
};

inline const std::error_category &error_category() noexcept {
    static const error_category_type it;
    return it;
}

inline std::error_code make_error_code(error it) noexcept {
    return std::error_code(static_cast<int>(it), error_category());
}

/* Nothing has changed. For name_taken, file_gone, fenced_spent and fenced_never_reserved, file is the file that the refusal names;
 * otherwise it is 0. For too_short, places is how many places the buffer needs; otherwise it is 0. */
struct refused {
    std::error_code why;
    std::uint64_t file = 0, places = 0;
};

/* Whether the call was made, and this is its reply. */
constexpr bool is_reply(relkvanu_answer told, std::uint32_t what) noexcept {
    return told.code == RELKVANU_DONE && told.what == what;
}

/* Why a call was not made. An answer that is no reply of the call is unknown. */
inline refused refusal(relkvanu_answer told) noexcept {
    bool is_value = told.code != RELKVANU_DONE && told.code < 0xff && told.what <= 0xff;
    error why = is_value ? static_cast<error>(told.code << 8 | (has_what(told.code) ? told.what : 0)) : error::unknown;
    bool may_name_file = told.code == RELKVANU_REFUSED || told.code == RELKVANU_FENCED;
    return refused{make_error_code(why), may_name_file ? told.a : 0, told.code == RELKVANU_TOO_SHORT ? told.a : 0};
}

/* clang-format off */
/* bindings/generate makes the replies */
struct triggered { std::uint64_t expired, id; }; /* A checkpoint was triggered. */
struct held_interval { std::uint64_t expired; }; /* No checkpoint is due yet. */
struct held_at_once { std::uint64_t expired; }; /* As many checkpoints are pending as may be. */
struct held_pause { std::uint64_t expired; }; /* The pause after the last completion has not passed. */
struct failed { std::uint64_t expired; }; /* Too many checkpoints failed in a row: restore the job. */
struct savepoint_triggered { std::uint64_t id; }; /* A savepoint was triggered. */
struct ack_pending { std::uint64_t missing; }; /* The record is not complete yet. */
struct ack_completed { std::uint64_t dropped, released; }; /* The record is complete. */
struct ack_late { std::uint64_t handed_out; }; /* The record was done or had ended. */
struct decline_aborted { std::uint64_t released; }; /* The record is dropped. */
struct decline_failed { std::uint64_t released; }; /* The record is dropped, and the job has failed: restore it. */
struct decline_late {}; /* The record was done or had ended. */
struct disposed { std::uint64_t released; }; /* The savepoint is gone. */
struct cancelled { std::uint64_t dropped, released; }; /* The job has ended for good. */
struct configured { std::uint64_t checkpoints, released; }; /* The job has the new settings. */
/* bindings/generate: end */
/* clang-format on */
struct reported {
    std::uint64_t file;
};

/* What a job begins again from. */
struct checkpoint {
    std::uint64_t id;
};
struct savepoint {
    std::uint64_t id;
};
struct fresh {};
using choice = std::variant<fresh, checkpoint, savepoint>;
struct restored {
    choice from;
    std::uint64_t released;
    std::uint64_t term = 0; /* of a Store whose job has names: the term that begins, for who starts the tasks */
};

/* The answer to each call. The last alternative says that nothing has changed. */
/* clang-format off */
/* bindings/generate makes the answers */
using tick_answer = std::variant<triggered, held_interval, held_at_once, held_pause, failed, refused>;
using ack_answer = std::variant<ack_pending, ack_completed, ack_late, refused>;
using decline_answer = std::variant<decline_aborted, decline_failed, decline_late, refused>;
using savepoint_answer = std::variant<savepoint_triggered, refused>;
using dispose_answer = std::variant<disposed, refused>;
using cancel_answer = std::variant<cancelled, refused>;
/* bindings/generate: end */
/* clang-format on */
using restore_answer = std::variant<restored, refused>;
using take_answer = std::variant<files, refused>;
using report_answer = std::variant<reported, refused>;
using show_answer = std::variant<std::string, refused>;

/* The replies of calls on terms and names. */
struct fenced {}; /* The coordinator has names now. */
struct running_term {
    std::uint64_t term, next_name;
};
/* The names are first and those that follow it. */
struct reserved {
    std::uint64_t first, count;
};
struct forfeited {};
/* Garbage may be deleted. Nobody deletes the unissued ones. */
struct sorted_files {
    std::vector<std::uint64_t> garbage, unissued;
};
using fence_answer = std::variant<fenced, refused>;
using term_answer = std::variant<running_term, refused>;
using reserve_answer = std::variant<reserved, refused>;
using forfeit_answer = std::variant<forfeited, refused>;
using garbage_answer = std::variant<sorted_files, refused>;

/* What a line of a script did: nothing; a call, with the answer of its function in relkvanu.h; a take; a show. */
struct skipped {};
struct answered {
    relkvanu_answer answer;
};
using line_answer = std::variant<skipped, answered, files, std::string, refused>;
using text_answer = std::variant<std::string, refused>;

/* The call that a line says, with its lists: the fresh and the reused files of an ack, or the shape of a restore. */
struct said_call {
    relkvanu_call call;
    std::vector<std::uint64_t> first, second;
};
using line_call_answer = std::variant<skipped, said_call, refused>;

/* clang-format off */
/* bindings/generate makes the modes */
enum class mode { running, failed, cancelled, unknown };

inline mode mode_of(std::uint32_t what) noexcept {
    switch (what) {
    case RELKVANU_MODE_RUNNING: return mode::running;
    case RELKVANU_MODE_FAILED: return mode::failed;
    case RELKVANU_MODE_CANCELLED: return mode::cancelled;
    default: return mode::unknown;
    }
}
/* bindings/generate: end */
/* clang-format on */

/* What a number is. A live record has it (pending or done), or one that is no longer live had it. Or no record has had it yet. Or none
 * ever has it, because it is below the first number of the opening. */
/* clang-format off */
/* bindings/generate makes the standings */
enum class standing { pending, done, ended, not_yet, never, unknown };

inline standing standing_of(std::uint32_t what) noexcept {
    switch (what) {
    case RELKVANU_STANDS_PENDING: return standing::pending;
    case RELKVANU_STANDS_DONE: return standing::done;
    case RELKVANU_STANDS_ENDED: return standing::ended;
    case RELKVANU_STANDS_NOT_YET: return standing::not_yet;
    case RELKVANU_STANDS_NEVER: return standing::never;
    default: return standing::unknown;
    }
}
/* bindings/generate: end */
/* clang-format on */

/* The files that a read returns, in ascending order, for reads that take memory. */
using files_answer = std::variant<std::vector<std::uint64_t>, refused>;

struct live_record {
    std::uint64_t id;
    bool is_savepoint, is_done;
};

/* Ends the process, because a read or an answer can't be told rightly. */
[[noreturn]] inline void abort_because(const char *why) noexcept {
    std::fprintf(stderr, "relkvanu: %s\n", why);
    std::abort();
}

[[noreturn]] inline void abort_unknown() noexcept {
    abort_because("an answer that relkvanu.hpp does not have: the library is of another version");
}

/* The answers of relkvanu.h as those of this header. */

/* clang-format off */
/* bindings/generate makes what tells the answers */
inline tick_answer tick_of(relkvanu_answer told) noexcept {
    if (told.code != RELKVANU_DONE) {
        return refusal(told);
    }
    switch (told.what) {
    case RELKVANU_TICK_TRIGGERED: return triggered{told.a, told.b};
    case RELKVANU_TICK_HELD_INTERVAL: return held_interval{told.a};
    case RELKVANU_TICK_HELD_AT_ONCE: return held_at_once{told.a};
    case RELKVANU_TICK_HELD_PAUSE: return held_pause{told.a};
    case RELKVANU_TICK_FAILED: return failed{told.a};
    default: return refusal(told);
    }
}

inline ack_answer ack_of(relkvanu_answer told) noexcept {
    if (told.code != RELKVANU_DONE) {
        return refusal(told);
    }
    switch (told.what) {
    case RELKVANU_ACK_PENDING: return ack_pending{told.a};
    case RELKVANU_ACK_COMPLETED: return ack_completed{told.a, told.b};
    case RELKVANU_ACK_LATE: return ack_late{told.a};
    default: return refusal(told);
    }
}

inline decline_answer decline_of(relkvanu_answer told) noexcept {
    if (told.code != RELKVANU_DONE) {
        return refusal(told);
    }
    switch (told.what) {
    case RELKVANU_DECLINE_ABORTED: return decline_aborted{told.a};
    case RELKVANU_DECLINE_FAILED: return decline_failed{told.a};
    case RELKVANU_DECLINE_LATE: return decline_late{};
    default: return refusal(told);
    }
}

inline savepoint_answer savepoint_of(relkvanu_answer told) noexcept {
    return is_reply(told, RELKVANU_SAVEPOINT_TRIGGERED) ? savepoint_answer(savepoint_triggered{told.a}) : refusal(told);
}

inline dispose_answer dispose_of(relkvanu_answer told) noexcept {
    return is_reply(told, RELKVANU_DISPOSED) ? dispose_answer(disposed{told.a}) : refusal(told);
}

inline cancel_answer cancel_of(relkvanu_answer told) noexcept {
    return is_reply(told, RELKVANU_CANCELLED) ? cancel_answer(cancelled{told.a, told.b}) : refusal(told);
}
/* bindings/generate: end */
/* clang-format on */

inline restore_answer restore_of(relkvanu_answer told) noexcept {
    if (told.code != RELKVANU_DONE) {
        return refusal(told);
    }
    switch (told.what) {
    case RELKVANU_RESTORED_CHECKPOINT: return restored{checkpoint{told.b}, told.a};
    case RELKVANU_RESTORED_SAVEPOINT: return restored{savepoint{told.b}, told.a};
    case RELKVANU_RESTORED_FRESH: return restored{fresh{}, told.a};
    default: return refusal(told);
    }
}

inline fence_answer fence_of(relkvanu_answer told) noexcept {
    return is_reply(told, RELKVANU_NAMED) ? fence_answer(fenced{}) : refusal(told);
}

inline term_answer term_of(relkvanu_answer told) noexcept {
    return is_reply(told, RELKVANU_TERM) ? term_answer(running_term{told.a, told.b}) : refusal(told);
}

inline reserve_answer reserve_of(relkvanu_answer told) noexcept {
    return is_reply(told, RELKVANU_RESERVED) ? reserve_answer(reserved{told.a, told.b}) : refusal(told);
}

inline forfeit_answer forfeit_of(relkvanu_answer told) noexcept {
    return is_reply(told, RELKVANU_FORFEITED) ? forfeit_answer(forfeited{}) : refusal(told);
}

/* The files are at the start of these lists. */
inline garbage_answer garbage_of(relkvanu_answer told, sorted_files &&it) {
    if (!is_reply(told, RELKVANU_GARBAGE)) {
        return refusal(told);
    }
    it.garbage.resize(static_cast<std::size_t>(told.a));
    it.unissued.resize(static_cast<std::size_t>(told.b));
    return std::move(it);
}

inline choice choice_of(relkvanu_answer told) noexcept {
    switch (told.what) {
    case RELKVANU_CHOICE_CHECKPOINT: return checkpoint{told.a};
    case RELKVANU_CHOICE_SAVEPOINT: return savepoint{told.a};
    case RELKVANU_CHOICE_FRESH: return fresh{};
    default: abort_unknown();
    }
}

/* The result of writing into a buffer that is long enough. */
template <class Write> text_answer written(Write write) {
    std::string text(256, '\0');
    relkvanu_answer told = write(reinterpret_cast<std::uint8_t *>(text.data()), text.size());
    while (told.code == RELKVANU_TOO_SHORT) {
        text.resize(static_cast<std::size_t>(told.a));
        told = write(reinterpret_cast<std::uint8_t *>(text.data()), text.size());
    }
    if (told.code != RELKVANU_DONE) {
        return refusal(told);
    }
    text.resize(static_cast<std::size_t>(told.a));
    return text;
}

/* What an engine does next, if it is no cut and no abandon; or why a step is refused, and then nothing has changed. relkvanu.h says what each
 * means. */
/* clang-format off */
/* bindings/generate makes the kinds of steps */
enum class step : std::uint32_t {
    process = RELKVANU_STEP_PROCESS,
    hold = RELKVANU_STEP_HOLD,
    nothing = RELKVANU_STEP_NOTHING,
    wait = RELKVANU_STEP_WAIT,
    late = RELKVANU_STEP_LATE,
    unknown_input = RELKVANU_STEP_UNKNOWN_INPUT,
    held_input = RELKVANU_STEP_HELD_INPUT,
    ended_input = RELKVANU_STEP_ENDED_INPUT,
    bad_inputs = RELKVANU_STEP_BAD_INPUTS,
    record = RELKVANU_STEP_RECORD,
    unknown = 0, /* The library is of another version. */
};

inline step step_of(std::uint32_t what) noexcept {
    switch (what) {
    case RELKVANU_STEP_PROCESS:
    case RELKVANU_STEP_HOLD:
    case RELKVANU_STEP_NOTHING:
    case RELKVANU_STEP_WAIT:
    case RELKVANU_STEP_LATE:
    case RELKVANU_STEP_UNKNOWN_INPUT:
    case RELKVANU_STEP_HELD_INPUT:
    case RELKVANU_STEP_ENDED_INPUT:
    case RELKVANU_STEP_BAD_INPUTS:
    case RELKVANU_STEP_RECORD: return static_cast<step>(what);
    default: return step::unknown;
    }
}
/* bindings/generate: end */
/* clang-format on */

/* The cut of a record at a task: take the snapshot for it now, and then send its barrier on each output, before anything else. Only an aligner
 * or a recorder gives one out, and none can be copied. A task that acknowledges by ack_cut and ack_cut_in alone acknowledges no record that it
 * has not cut. */
class cut {
public:
    cut(cut &&) noexcept = default;
    cut &operator=(cut &&) noexcept = default;
    cut(const cut &) = delete;
    cut &operator=(const cut &) = delete;

    std::uint64_t id() const noexcept { return id_; }

private:
    friend class aligner;
    friend class recorder;
    explicit cut(std::uint64_t id) noexcept : id_(id) {}

    std::uint64_t id_;
};

/* Decline this record: it can no longer be cut. */
struct abandon {
    std::uint64_t id;
};

using step_answer = std::variant<step, cut, abandon>;

namespace detail {
/* What an aligner and a recorder have: memory of C, and the inputs. Nobody copies it. */
template <class Task, class State> class alignment {
public:
    /* The alignment of a task with this many inputs, all open; step::bad_inputs unless there are 1 to RELKVANU_MOST_INPUTS. */
    [[nodiscard]] static std::variant<Task, step> open(std::size_t inputs) {
        if (inputs > RELKVANU_MOST_INPUTS) {
            return step::bad_inputs;
        }
        Task made;
        made.inputs_.resize(inputs);
        relkvanu_step told = Task::opened(&made.state_, made.inputs_.data(), inputs);
        if (told.what != RELKVANU_STEP_NOTHING) {
            return step_of(told.what);
        }
        return std::variant<Task, step>(std::move(made));
    }

    alignment(alignment &&) noexcept = default;
    alignment &operator=(alignment &&) noexcept = default;
    alignment(const alignment &) = delete;
    alignment &operator=(const alignment &) = delete;

protected:
    State state_{};
    std::vector<std::uint8_t> inputs_;

    alignment() = default;
};
} // namespace detail

/* The alignment of a task with several inputs. A task begins a new one when it starts, also after a restore. docs/ALIGNMENT.md says what an
 * engine does after each step. Make one call at a time. */
class aligner : public detail::alignment<aligner, relkvanu_aligner> {
public:
    /* clang-format off */
    /* bindings/generate makes the steps of an aligner */
    /* An element is next on this input, from 0: whether the task may process it now. Changes nothing. process or hold; or unknown_input,
     * ended_input. */
    [[nodiscard]] step element(std::uint32_t input) const noexcept {
        return step_of(relkvanu_align_element(&state_, inputs_.data(), inputs_.size(), input).what);
    }

    /* The barrier of record id is next on this input. wait, late, cut, or abandon of an earlier record, whose place this one takes; or
     * unknown_input, held_input, ended_input. A cut and an abandon release all held inputs; after an abandon this input alone is held. */
    [[nodiscard]] step_answer barrier(std::uint32_t input, std::uint64_t id) noexcept {
        return answer(relkvanu_align_barrier(&state_, inputs_.data(), inputs_.size(), input, id));
    }

    /* Nothing more comes on this input. It counts as one that has delivered every barrier. nothing, wait or cut; or unknown_input,
     * held_input, ended_input. */
    [[nodiscard]] step_answer end(std::uint32_t input) noexcept {
        return answer(relkvanu_align_end(&state_, inputs_.data(), inputs_.size(), input));
    }

    /* The coordinator or the task gives record id up. abandon if this record is being aligned, and all held inputs are released; otherwise
     * nothing. */
    [[nodiscard]] step_answer give_up(std::uint64_t id) noexcept {
        return answer(relkvanu_align_give_up(&state_, inputs_.data(), inputs_.size(), id));
    }
    /* bindings/generate: end */
    /* clang-format on */

private:
    friend class detail::alignment<aligner, relkvanu_aligner>;
    static constexpr auto opened = relkvanu_align_open;

    static step_answer answer(relkvanu_step told) noexcept {
        if (told.what == RELKVANU_STEP_CUT) {
            return cut(told.id);
        }
        return told.what == RELKVANU_STEP_ABANDON ? step_answer(abandon{told.id}) : step_answer(step_of(told.what));
    }
};

/* As at a cut of this record, but acknowledge nothing yet: what comes before its barrier is still to be recorded. */
struct snap {
    std::uint64_t id;
};

/* The last barrier of a record that has overtaken has come: acknowledge it by this cut, with its snapshot and with what was recorded. */
struct complete {
    cut of;
};

using recorder_answer = std::variant<step, cut, abandon, snap, complete>;

/* An aligner whose records may overtake. After an abandon the barrier is left on its input: ask again. */
class recorder : public detail::alignment<recorder, relkvanu_recorder> {
public:
    /* clang-format off */
    /* bindings/generate makes the steps of a recorder */
    /* As element; and record. */
    [[nodiscard]] step element(std::uint32_t input) const noexcept {
        return step_of(relkvanu_unaligned_element(&state_, inputs_.data(), inputs_.size(), input).what);
    }

    /* As barrier; and complete if it was the last of a record that has overtaken. */
    [[nodiscard]] recorder_answer barrier(std::uint32_t input, std::uint64_t id) noexcept {
        return answer(relkvanu_unaligned_barrier(&state_, inputs_.data(), inputs_.size(), input, id));
    }

    /* As end; and complete. */
    [[nodiscard]] recorder_answer end(std::uint32_t input) noexcept {
        return answer(relkvanu_unaligned_end(&state_, inputs_.data(), inputs_.size(), input));
    }

    /* As give_up: what was recorded for an abandoned record is given up. */
    [[nodiscard]] recorder_answer give_up(std::uint64_t id) noexcept {
        return answer(relkvanu_unaligned_give_up(&state_, inputs_.data(), inputs_.size(), id));
    }

    /* Record id overtakes: its barrier was seen on an input, wherever it stands there, or has waited for long enough. snap; late if it is
     * whole or was given up; nothing while an earlier record is open (ask again once that has ended), if it has overtaken before, or if
     * each input has ended. */
    [[nodiscard]] recorder_answer overtake(std::uint64_t id) noexcept {
        return answer(relkvanu_unaligned_overtake(&state_, inputs_.data(), inputs_.size(), id));
    }
    /* bindings/generate: end */
    /* clang-format on */

private:
    friend class detail::alignment<recorder, relkvanu_recorder>;
    static constexpr auto opened = relkvanu_unaligned_open;

    static recorder_answer answer(relkvanu_step told) noexcept {
        switch (told.what) {
        case RELKVANU_STEP_CUT: return cut(told.id);
        case RELKVANU_STEP_ABANDON: return abandon{told.id};
        case RELKVANU_STEP_SNAP: return snap{told.id};
        case RELKVANU_STEP_COMPLETE: return complete{cut(told.id)};
        default: return step_of(told.what);
        }
    }
};

/* The coordinator of one job. After a move the old one is closed: its calls are refused as error::closed, and a read of it aborts the
 * process. */
class Coordinator {
public:
    /* Opens a coordinator. Its first record has the number first: 1 for a new job, otherwise the greatest earlier number plus 1. */
    [[nodiscard]] static std::variant<Coordinator, refused> open(
        const relkvanu_settings &settings, shape of, std::uint64_t now, std::uint64_t first = 1) {
        return opened([&](relkvanu *handle, std::uint64_t word, std::uint64_t other) {
            return relkvanu_open(handle, &settings, of.data(), of.size(), now, first, word, other);
        });
    }

    /* Opens a coordinator with names, in term 1. The first name that it gives out is first_name: all numbers of files that were used
     * before are below it. ack and decline are refused then: its tasks call ack_in and decline_in. */
    [[nodiscard]] static std::variant<Coordinator, refused> open_fenced(
        const relkvanu_settings &settings, shape of, std::uint64_t now, std::uint64_t first, std::uint64_t first_name) {
        return opened([&](relkvanu *handle, std::uint64_t word, std::uint64_t other) {
            return relkvanu_open_fenced(handle, &settings, of.data(), of.size(), now, first, first_name, word, other);
        });
    }

    /* Opens the coordinator that an image describes. It answers every list of calls as the saved one would. */
    [[nodiscard]] static std::variant<Coordinator, refused> open_saved(std::string_view image) {
        return opened([&](relkvanu *handle, std::uint64_t word, std::uint64_t other) {
            return relkvanu_open_saved(handle, reinterpret_cast<const std::uint8_t *>(image.data()), image.size(), word, other);
        });
    }

    Coordinator(const Coordinator &) = delete;
    Coordinator &operator=(const Coordinator &) = delete;
    Coordinator(Coordinator &&other) noexcept : handle_(std::exchange(other.handle_, relkvanu{})), most_ahead_(other.most_ahead_) {}

    Coordinator &operator=(Coordinator &&other) noexcept {
        if (this != &other) {
            relkvanu_close(&handle_);
            handle_ = std::exchange(other.handle_, relkvanu{});
            most_ahead_ = other.most_ahead_;
        }
        return *this;
    }

    ~Coordinator() { relkvanu_close(&handle_); }

    explicit operator bool() const noexcept { return handle_.state != nullptr; }

    /* A moment that is far ahead would stop the job's checkpoints until then. So a call is refused as error::moment_too_large if its
     * moment is more than so many milliseconds beyond the greatest moment so far, and beyond what a timer waits for. That is a day,
     * unless an engine sets it, which it does if a longer time may pass without a call. Lines of a log are not checked. */
    void set_most_ahead(std::uint64_t milliseconds) noexcept { most_ahead_ = milliseconds; }

    /* clang-format off */
    /* bindings/generate makes the calls of one number */
    /* Time has passed: records that are too old expire, and a checkpoint is triggered if one is due. */
    [[nodiscard]] tick_answer tick(std::uint64_t now) noexcept {
        if (is_ahead(now)) {
            return too_large();
        }
        return tick_of(relkvanu_tick(&handle_, now));
    }

    /* Triggers a savepoint. At most 1000 savepoints are pending or done. */
    [[nodiscard]] savepoint_answer savepoint(std::uint64_t now) noexcept {
        if (is_ahead(now)) {
            return too_large();
        }
        return savepoint_of(relkvanu_savepoint(&handle_, now));
    }

    /* A user disposes of the completed savepoint id. */
    dispose_answer dispose(std::uint64_t id) noexcept {
        return dispose_of(relkvanu_dispose(&handle_, id));
    }

    /* The job ends for good. */
    cancel_answer cancel(std::uint64_t now) noexcept {
        if (is_ahead(now)) {
            return too_large();
        }
        return cancel_of(relkvanu_cancel(&handle_, now));
    }

    /* A fetched file is deleted: the coordinator forgets it. */
    report_answer deleted(std::uint64_t file) noexcept {
        return report(relkvanu_deleted(&handle_, file));
    }

    /* A fetched file could not be deleted: it waits again, behind all others. */
    report_answer undeleted(std::uint64_t file) noexcept {
        return report(relkvanu_undeleted(&handle_, file));
    }

    /* Triggers a checkpoint now, whatever the interval and the pause. Nothing expires: make a tick first if records may be too old. The
     * interval counts from it, as after a tick that triggers. */
    [[nodiscard]] tick_answer trigger(std::uint64_t now) noexcept {
        if (is_ahead(now)) {
            return too_large();
        }
        return tick_of(relkvanu_trigger(&handle_, now));
    }
    /* bindings/generate: end */

    /* After already_acknowledged and fenced_spent a task deletes no file, and after name_taken none that it named before. */

    /* bindings/generate makes the calls of tasks */
    /* The subtask vertex.index has taken its part of record id. fresh has the files that it wrote. reused has files of earlier records that
     * it uses again. Both may be in any order, with at most 4096 files together. After a refusal the task must not delete a file that an
     * accepted acknowledgement ever named. */
    [[nodiscard]] ack_answer ack(std::uint64_t now, std::uint64_t id, std::uint16_t vertex, std::uint16_t index, files fresh, files reused = {}) noexcept {
        if (is_ahead(now)) {
            return too_large();
        }
        return ack_of(relkvanu_ack(&handle_, now, id, vertex, index, fresh.data(), fresh.size(), reused.data(), reused.size()));
    }

    /* The subtask vertex.index could not take its part of record id. */
    decline_answer decline(std::uint64_t now, std::uint64_t id, std::uint16_t vertex, std::uint16_t index) noexcept {
        if (is_ahead(now)) {
            return too_large();
        }
        return decline_of(relkvanu_decline(&handle_, now, id, vertex, index));
    }

    /* Begins a job again that goes on from an older image or log, such as one that was restored from a backup: restore of the latest, in
     * the shape that the job has, in a term above term, the greatest that any task was told, and with names from first_name on, 1 to 2^62,
     * above each that was given out. A smaller term and a smaller first_name lower nothing. Names that are passed over are garbage, unless
     * the handle's records use them. Make this call before any other of such a job. docs/RULES.md, section 13, says what it is for. */
    restore_answer advance(std::uint64_t now, std::uint64_t term, std::uint64_t first_name) noexcept {
        if (is_ahead(now)) {
            return too_large();
        }
        return restore_of(relkvanu_advance(&handle_, now, term, first_name));
    }

    /* ack of a task of this term. An accepted acknowledgement spends the names of its fresh files. So a task does not delete a file for
     * Spent. */
    [[nodiscard]] ack_answer ack_in(std::uint64_t term, std::uint64_t now, std::uint64_t id, std::uint16_t vertex, std::uint16_t index, files fresh, files reused = {}) noexcept {
        if (is_ahead(now)) {
            return too_large();
        }
        return ack_of(relkvanu_ack_in(&handle_, term, now, id, vertex, index, fresh.data(), fresh.size(), reused.data(), reused.size()));
    }

    /* decline of a task of this term. */
    decline_answer decline_in(std::uint64_t term, std::uint64_t now, std::uint64_t id, std::uint16_t vertex, std::uint16_t index) noexcept {
        if (is_ahead(now)) {
            return too_large();
        }
        return decline_of(relkvanu_decline_in(&handle_, term, now, id, vertex, index));
    }
    /* bindings/generate: end */
    /* clang-format on */

    /* ack of the record that a task has cut. */
    [[nodiscard]] ack_answer ack_cut(
        std::uint64_t now, const cut &of, std::uint16_t vertex, std::uint16_t index, files fresh, files reused = {}) noexcept {
        return ack(now, of.id(), vertex, index, fresh, reused);
    }

    /* Restores the latest record, in the current shape or in a given one. A bad shape is reported before any refusal. */
    restore_answer restore(std::uint64_t now, shape of = {}) noexcept { return restore_from(now, 0, of); }

    /* Rolls back to a savepoint. No savepoint has the number 0. */
    restore_answer roll_back(std::uint64_t now, std::uint64_t savepoint, shape of = {}) noexcept {
        if (savepoint == 0) {
            return refused{make_error_code(error::no_such_savepoint)};
        }
        return restore_from(now, savepoint, of);
    }

    /* Fetches files that wait for deletion into a buffer, at most as many as it has places. */
    [[nodiscard]] take_answer take(span<std::uint64_t> buffer) noexcept {
        relkvanu_answer told = relkvanu_take(&handle_, buffer.data(), buffer.size());
        return is_reply(told, RELKVANU_TAKEN) ? take_answer(files(buffer.data(), static_cast<std::size_t>(told.a))) : refusal(told);
    }

    /* Terms and names. Each accepted restore and cancel ends the term. What a task of an ended term sends is refused as
     * error::fenced_old_term, and changes nothing. A coordinator without names refuses these calls as error::fenced_no_names. */

    /* Gives the coordinator names, from first_name on, in term 1. All numbers of files that were used before are below it, those of files
     * that nobody acknowledged too. Make the call between the end of all tasks and their restart. */
    fence_answer fence(std::uint64_t first_name) noexcept { return fence_of(relkvanu_fence(&handle_, first_name)); }

    /* The term that runs, and the next name that is given out. Whoever restarts the tasks reads it after the restore, and tells each of
     * them once the restore is in the durable log. A task never asks for it: one that should be dead would learn the new term. */
    [[nodiscard]] term_answer term() noexcept { return term_of(relkvanu_term(&handle_)); }

    /* A task of this term reserves 1 to 65536 names for files that it will write. The reservation is in the durable log before the task
     * uses one of them. */
    [[nodiscard]] reserve_answer reserve(std::uint64_t term, std::uint64_t count) noexcept {
        return reserve_of(relkvanu_reserve(&handle_, term, count));
    }

    /* A task of this term gives up names that it will not acknowledge, such as those of a failed upload. Names that the term does not
     * hold are passed over, so the call can be repeated. */
    forfeit_answer forfeit(std::uint64_t term, files names) noexcept {
        return forfeit_of(relkvanu_forfeit(&handle_, term, names.data(), names.size()));
    }

    /* ack_in of the record that a task has cut. */
    [[nodiscard]] ack_answer ack_cut_in(std::uint64_t term, std::uint64_t now, const cut &of, std::uint16_t vertex, std::uint16_t index,
        files fresh, files reused = {}) noexcept {
        return ack_in(term, now, of.id(), vertex, index, fresh, reused);
    }

    /* Of these files, in their order: those that are garbage, which may be deleted at any time, also while tasks run; and those whose
     * names were not given out, which nobody deletes. Changes nothing. Ask a coordinator whose calls are durable. */
    [[nodiscard]] garbage_answer garbage(files of) {
        std::vector<std::uint64_t> places(of.size());
        sorted_files it = {places, std::move(places)};
        relkvanu_answer told =
            relkvanu_garbage(&handle_, of.data(), of.size(), it.garbage.data(), of.size(), it.unissued.data(), of.size());
        return garbage_of(told, std::move(it));
    }

    /* The metadata of a live record, as JSON. */
    [[nodiscard]] show_answer show(std::uint64_t id) {
        return written([&](std::uint8_t *json, std::size_t len) { return relkvanu_show(&handle_, id, json, len); });
    }

    /* The image of the coordinator, as JSON (docs/LOGS.md). */
    [[nodiscard]] text_answer save() {
        return written([&](std::uint8_t *image, std::size_t len) { return relkvanu_save(&handle_, image, len); });
    }

    /* Makes the call of a script's line (docs/SCRIPT.md). The text is the bytes before the newline. A take line fetches into the
     * buffer. If it would fetch more files than the buffer has places, it is refused as error::too_short. */
    line_answer line(std::string_view text, span<std::uint64_t> buffer = {}) {
        relkvanu_answer told =
            relkvanu_line(&handle_, reinterpret_cast<const std::uint8_t *>(text.data()), text.size(), buffer.data(), buffer.size());
        if (told.code == RELKVANU_TOO_SHORT) {
            return longer(text, told);
        } else if (told.code != RELKVANU_DONE) {
            return refusal(told);
        }
        switch (told.what) {
        case RELKVANU_SKIPPED: return skipped{};
        case RELKVANU_TAKEN: return files(buffer.data(), static_cast<std::size_t>(told.a));
        default: return answered{told};
        }
    }

    /* Reads. The coordinator must not be closed. */

    [[nodiscard]] std::uint64_t count(std::uint64_t file) noexcept { return read(relkvanu_count(&handle_, file)).b; }

    /* clang-format off */
    /* bindings/generate makes the reads */
    /* What the job is doing. */
    [[nodiscard]] ckpt::mode mode() noexcept {
        return mode_of(read(relkvanu_mode(&handle_)).what);
    }

    /* The greatest moment that the coordinator has seen, at its opening or in an accepted call. It takes an earlier moment for this one. So
     * it shows whether a clock has run ahead. */
    [[nodiscard]] std::uint64_t moment() noexcept {
        return read(relkvanu_moment(&handle_)).a;
    }

    /* The moment from which neither the interval nor the pause holds a checkpoint back. No tick before it triggers one. A tick at it or
     * later triggers one, with three exceptions: as many are pending as may be, the job is not running, or so many checkpoints expire in
     * the tick that the job fails over. A call that triggers, completes, restores or configures may move this moment, so read it again
     * after a call. */
    [[nodiscard]] std::uint64_t due() noexcept {
        return read(relkvanu_due(&handle_)).a;
    }

    /* The moment from which a pending record is expired. A tick at that moment drops the record. None if no record is pending. Visits each
     * pending record. */
    [[nodiscard]] std::optional<std::uint64_t> oldest_expiry() noexcept {
        return number_of(relkvanu_oldest_expiry(&handle_), RELKVANU_EXPIRES);
    }

    /* The record that a restore of the latest would begin from. */
    [[nodiscard]] ckpt::choice choice() noexcept {
        return choice_of(read(relkvanu_choice(&handle_)));
    }

    /* The live record at this place, from 0, in order of their numbers; none past the last. The time grows with the place. */
    [[nodiscard]] std::optional<live_record> live(std::size_t place) noexcept {
        return record_of(relkvanu_live(&handle_, place));
    }

    /* How many subtasks of this record have not acknowledged. None if no record with this number is pending. */
    [[nodiscard]] std::optional<std::uint64_t> missing(std::uint64_t id) noexcept {
        return number_of(relkvanu_missing(&handle_, id), RELKVANU_MISSING);
    }

    /* The live record with the least number that is at least id; none if there is none. To visit all live records, begin with 0, and go on
     * with the returned number plus 1. A binary search. Takes no memory. */
    [[nodiscard]] std::optional<live_record> live_from(std::uint64_t id) noexcept {
        return record_of(relkvanu_live_from(&handle_, id));
    }

    /* Whether the record with this number is pending, done or ended, or no record has had the number. A binary search. Takes no memory. */
    [[nodiscard]] ckpt::standing standing(std::uint64_t id) noexcept {
        return standing_of(read(relkvanu_standing(&handle_, id)).what);
    }

    /* The file at this place, from 0, among those that wait for deletion. The next to be fetched is the first. None past the last. Takes
     * constant time and no memory. */
    [[nodiscard]] std::optional<std::uint64_t> waiting_file(std::size_t place) noexcept {
        return number_of(relkvanu_waiting_file(&handle_, place), RELKVANU_WAITING);
    }

    /* The files that the subtask vertex.index acknowledged in the live record id, in ascending order. None if it has not acknowledged in
     * one. */
    [[nodiscard]] std::optional<std::vector<std::uint64_t>> files_of(std::uint64_t id, std::uint16_t vertex, std::uint16_t index) {
        return found_if([&](std::uint64_t *places, std::size_t len) { return relkvanu_files_of(&handle_, id, vertex, index, places, len); });
    }

    /* The files that the pending record id pins, in ascending order: the files of the record that a restart would have begun from at its
     * trigger. None if no record with this number is pending. */
    [[nodiscard]] files_answer pins_of(std::uint64_t id) {
        return found([&](std::uint64_t *places, std::size_t len) { return relkvanu_pins_of(&handle_, id, places, len); });
    }

    /* The files that were fetched for deletion and are not yet reported, in ascending order. */
    [[nodiscard]] files_answer taken_files() {
        return found([&](std::uint64_t *places, std::size_t len) { return relkvanu_taken_files(&handle_, places, len); });
    }
    /* bindings/generate: end */
    /* clang-format on */

    /* When to tick again after a tick with this answer, unless another call comes first: when a checkpoint is due, or when a pending
     * record expires. While as many checkpoints are pending as may be, only the expiry counts. nullopt: not before another call. After
     * a tick without memory it has passed: wait for a second instead. */
    [[nodiscard]] std::optional<std::uint64_t> next_tick(const tick_answer &ticked) noexcept {
        if (mode() != ckpt::mode::running) {
            return std::nullopt;
        }
        std::optional<std::uint64_t> expiry = oldest_expiry();
        if (std::holds_alternative<held_at_once>(ticked)) {
            return expiry;
        }
        return expiry && *expiry < due() ? expiry : due();
    }

    [[nodiscard]] relkvanu_counts file_counts() noexcept {
        relkvanu_counts told = relkvanu_file_counts(&handle_);
        check_read(told.code);
        return told;
    }

private:
    relkvanu handle_ = {};
    std::uint64_t most_ahead_ = std::uint64_t{24} * 60 * 60 * 1000;

    bool is_ahead(std::uint64_t now) noexcept {
        relkvanu_answer seen = relkvanu_moment(&handle_);
        if (now <= most_ahead_ || now >= std::uint64_t{1} << 62 || seen.code != RELKVANU_DONE) {
            return false;
        }
        std::uint64_t past = now - most_ahead_;
        return past > seen.a && past > due() && past > oldest_expiry().value_or(0);
    }

    static refused too_large() noexcept { return refused{make_error_code(error::moment_too_large)}; }

    Coordinator() = default;

    /* A coordinator whose handle this function opens with two random words. */
    template <class Open> static std::variant<Coordinator, refused> opened(Open open) {
        Coordinator it;
        std::random_device random;
        auto word = [&random] { return std::uint64_t{random()} << 32 | random(); };
        relkvanu_answer told = open(&it.handle_, word(), word());
        if (told.code != RELKVANU_DONE) {
            return refusal(told);
        }
        return std::variant<Coordinator, refused>(std::move(it));
    }

    /* The answer of a line whose answer needs more room than there is: the JSON of a show line, or how many places a take line needs. */
    line_answer longer(std::string_view text, relkvanu_answer told) {
        relkvanu_call call = {};
        relkvanu_answer says =
            relkvanu_line_call(reinterpret_cast<const std::uint8_t *>(text.data()), text.size(), &call, nullptr, 0, nullptr, 0);
        if (says.code != RELKVANU_DONE || call.kind != RELKVANU_CALL_SHOW) {
            return refusal(told);
        }
        show_answer shown = show(call.number);
        std::string *json = std::get_if<std::string>(&shown);
        return json != nullptr ? line_answer(std::move(*json)) : line_answer(std::get<refused>(shown));
    }

    static void check_read(std::uint32_t code) noexcept {
        if (code != RELKVANU_DONE) {
            abort_because("a closed coordinator was read");
        }
    }

    static relkvanu_answer read(relkvanu_answer told) noexcept {
        check_read(told.code);
        return told;
    }

    static std::optional<live_record> record_of(relkvanu_answer answer) noexcept {
        relkvanu_answer told = read(answer);
        switch (told.what) {
        case RELKVANU_LIVE_NONE: return std::nullopt;
        case RELKVANU_LIVE_CHECKPOINT: return live_record{told.a, false, told.b == 1};
        case RELKVANU_LIVE_SAVEPOINT: return live_record{told.a, true, told.b == 1};
        default: abort_unknown();
        }
    }

    static std::optional<std::uint64_t> number_of(relkvanu_answer answer, std::uint32_t what) noexcept {
        relkvanu_answer told = read(answer);
        return told.what == what ? std::optional(told.a) : std::nullopt;
    }

    /* Calls a read with a list that grows until it is long enough. */
    template <class Write> static relkvanu_answer fill(std::vector<std::uint64_t> &list, Write write) {
        list.resize(64);
        relkvanu_answer told = write(list.data(), list.size());
        while (told.code == RELKVANU_TOO_SHORT) {
            list.resize(static_cast<std::size_t>(told.a));
            told = write(list.data(), list.size());
        }
        list.resize(told.code == RELKVANU_DONE ? static_cast<std::size_t>(told.a) : 0);
        return told;
    }

    template <class Write> static files_answer found(Write write) {
        std::vector<std::uint64_t> list;
        relkvanu_answer told = fill(list, write);
        return told.code == RELKVANU_DONE ? files_answer(std::move(list)) : files_answer(refusal(told));
    }

    /* Of a read that takes no memory: nullopt if its answer has no files. */
    template <class Write> static std::optional<std::vector<std::uint64_t>> found_if(Write write) {
        std::vector<std::uint64_t> list;
        relkvanu_answer told = read(fill(list, write));
        return told.what == RELKVANU_FILES ? std::optional(std::move(list)) : std::nullopt;
    }

    static report_answer report(relkvanu_answer told) noexcept {
        return is_reply(told, RELKVANU_DELETED) || is_reply(told, RELKVANU_UNDELETED) ? report_answer(reported{told.a}) : refusal(told);
    }

    restore_answer restore_from(std::uint64_t now, std::uint64_t savepoint, shape of) noexcept {
        if (is_ahead(now)) {
            return too_large();
        }
        return restore_of(relkvanu_restore(&handle_, now, savepoint, of.data(), of.size()));
    }
};

/* The line of a call, without a newline. first has the fresh files of an ack, or the shape of a restore. second has the reused
 * files. A line that would be too long is refused as error::line_too_long. No line is cut. */
[[nodiscard]] inline text_answer call_line(const relkvanu_call &call, span<const std::uint64_t> first = {}, files second = {}) {
    return written([&](std::uint8_t *text, std::size_t len) {
        return relkvanu_call_line(&call, first.data(), first.size(), second.data(), second.size(), text, len);
    });
}

/* The call that a line says: what call_line writes as that line. A line that makes no call is refused, as error::line_no_call, and so is
 * a restore to savepoint 0, as error::no_such_savepoint. */
[[nodiscard]] inline line_call_answer line_call(std::string_view text) {
    said_call it = {};
    auto say = [&] {
        return relkvanu_line_call(reinterpret_cast<const std::uint8_t *>(text.data()), text.size(), &it.call, it.first.data(),
            it.first.size(), it.second.data(), it.second.size());
    };
    relkvanu_answer told = say();
    if (told.code == RELKVANU_TOO_SHORT) {
        it.first.resize(static_cast<std::size_t>(told.a));
        it.second.resize(static_cast<std::size_t>(told.b));
        told = say();
    }
    if (told.code != RELKVANU_DONE) {
        return refusal(told);
    }
    return told.what == RELKVANU_SKIPPED ? line_call_answer(skipped{}) : line_call_answer(std::move(it));
}

/* The lines config, job and start of a coordinator whose first record has the number 1, each with its newline. */
[[nodiscard]] inline text_answer opening_lines(const relkvanu_settings &settings, shape of, std::uint64_t now) {
    return written(
        [&](std::uint8_t *text, std::size_t len) { return relkvanu_opening_lines(&settings, of.data(), of.size(), now, text, len); });
}

} // namespace ckpt

template <> struct std::is_error_code_enum<ckpt::error> : std::true_type {};

#endif
