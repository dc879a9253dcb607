/* Where a job's state files are, for C++17: an abstract class that an engine derives its own storage from, and a folder that owns its
 * descriptor. relkvanu_storage.h says what each function does. Neither needs a coordinator.
 *
 * Threads share a Storage. What fails is an error of storage_category, or the system's own (std::system_category) if it says why. */
#ifndef RELKVANU_STORAGE_HPP
#define RELKVANU_STORAGE_HPP

#include "relkvanu.hpp"
#include "relkvanu_storage.h"

#include <cerrno>
#include <exception>
#include <functional>
#include <new>
#include <string>
#include <string_view>
#include <system_error>
#include <utility>
#include <variant>
#include <vector>

namespace ckpt {

/* clang-format off */
/* bindings/generate makes the errors of a storage */
enum class storage_error : int {
    bad_argument = RELKVANU_STORAGE_BAD_ARGUMENT,
    no_memory = RELKVANU_STORAGE_NO_MEMORY,
    not_there = RELKVANU_STORAGE_NOT_THERE,
    other_job = RELKVANU_STORAGE_OTHER_JOB,
    present = RELKVANU_STORAGE_PRESENT,
    absent = RELKVANU_STORAGE_ABSENT,
    not_empty = RELKVANU_STORAGE_NOT_EMPTY,
    ended = RELKVANU_STORAGE_ENDED,
    failed = RELKVANU_STORAGE_FAILED,
};

inline const char *message_of(storage_error it) noexcept {
    switch (it) {
    case storage_error::bad_argument: return "BadArgument";
    case storage_error::no_memory: return "NoMemory";
    case storage_error::not_there: return "NotThere";
    case storage_error::other_job: return "OtherJob";
    case storage_error::present: return "Present";
    case storage_error::absent: return "Absent";
    case storage_error::not_empty: return "NotEmpty";
    case storage_error::ended: return "Ended";
    case storage_error::failed: return "Failed";
    default: return "unknown";
    }
}
/* bindings/generate: end */
/* clang-format on */

class storage_category_type final : public std::error_category {
public:
    const char *name() const noexcept override { return "relkvanu storage"; }

    std::string message(int value) const override { return message_of(static_cast<storage_error>(value)); }
};

inline const std::error_category &storage_category() noexcept {
    static const storage_category_type it;
    return it;
}

inline std::error_code make_error_code(storage_error it) noexcept {
    return std::error_code(static_cast<int>(it), storage_category());
}

/* The error of a status; none for RELKVANU_STORAGE_OK. Of RELKVANU_STORAGE_FAILED it is errno's. */
inline std::error_code storage_code(int status) noexcept {
    if (status == RELKVANU_STORAGE_OK) {
        return std::error_code();
    }
    if (status == RELKVANU_STORAGE_FAILED && errno != 0) {
        return std::error_code(errno, std::system_category());
    }
    return make_error_code(static_cast<storage_error>(status));
}

/* The status of an error, for functions of C. */
inline int storage_status(const std::error_code &why) noexcept {
    if (!why) {
        return RELKVANU_STORAGE_OK;
    }
    if (why.category() == storage_category()) {
        return why.value();
    }
    errno = why.category() == std::system_category() || why.category() == std::generic_category() ? why.value() : 0;
    return errno == ENOMEM ? RELKVANU_STORAGE_NO_MEMORY : RELKVANU_STORAGE_FAILED;
}

/* What became of a file of a deletion. */
enum class deletion : std::uint8_t {
    undeleted = RELKVANU_STORAGE_UNDELETED, /* it may be there still */
    deleted = RELKVANU_STORAGE_DELETED,
    missing = RELKVANU_STORAGE_MISSING, /* it was not there, and the storage is */
};

/* A storage. An engine derives its own from it: an object store, say. What a function throws is an error to the functions of C. */
class Storage {
public:
    /* Takes a page of a listing, and returns whether it shall go on. It may delete these files. */
    using page = std::function<bool(span<const relkvanu_storage_file>)>;

    Storage() = default;
    Storage(const Storage &) = delete;
    Storage &operator=(const Storage &) = delete;
    virtual ~Storage() = default;

    /* Whether it is there, and the job's: not_there, other_job. */
    [[nodiscard]] virtual std::error_code check() = 0;

    /* Makes a file, whole and durable. After an error it may be there: the task forfeits the name and declines. */
    [[nodiscard]] virtual std::error_code put(std::uint64_t file, std::string_view contents) = 0;

    [[nodiscard]] virtual std::error_code get(std::uint64_t file, std::string &contents) = 0;

    /* Deletes files for good. Without an error the outcomes, which have as many places, say what became of each. After one all may be
     * there. */
    [[nodiscard]] virtual std::error_code remove(files list, span<deletion> outcomes) = 0;

    /* Calls each with all files, at most so many at a time; 0: as many as it likes. `ended` if that has ended the listing. */
    [[nodiscard]] virtual std::error_code list(const page &each, std::size_t most = 0) = 0;

    /* The storage as functions of C, which stay as long as it does. */
    [[nodiscard]] relkvanu_storage functions() noexcept {
        relkvanu_storage it = {};
        it.with = this;
        it.check = [](void *with) noexcept { return tried([=] { return of(with).check(); }); };
        it.put = [](void *with, std::uint64_t file, const void *contents, std::size_t len) noexcept {
            return tried([=] { return of(with).put(file, std::string_view(static_cast<const char *>(contents), len)); });
        };
        it.get = [](void *with, std::uint64_t file, void *contents, std::size_t room, std::uint64_t *len) noexcept {
            return tried([=] {
                std::string found;
                std::error_code why = of(with).get(file, found);
                *len = found.size();
                found.copy(static_cast<char *>(contents), room);
                return why;
            });
        };
        it.delete_files = [](void *with, const std::uint64_t *list, std::size_t len, std::uint8_t *outcomes) noexcept {
            int status = tried([=] {
                std::vector<deletion> told(len, deletion::undeleted);
                std::error_code why = of(with).remove(files(list, len), told);
                for (std::size_t place = 0; place < len; place++) {
                    outcomes[place] = static_cast<std::uint8_t>(told[place]);
                }
                return why;
            });
            for (std::size_t place = 0; status != RELKVANU_STORAGE_OK && place < len; place++) {
                outcomes[place] = RELKVANU_STORAGE_UNDELETED;
            }
            return status;
        };
        it.list = [](void *with, std::size_t most, relkvanu_storage_page each, void *with_page) noexcept {
            return tried([=] {
                auto turn = [=](span<const relkvanu_storage_file> found) { return each(with_page, found.data(), found.size()); };
                return of(with).list(turn, most);
            });
        };
        return it;
    }

private:
    static Storage &of(void *with) noexcept { return *static_cast<Storage *>(with); }

    template <class Make> static int tried(Make make) noexcept {
        try {
            return storage_status(make());
        } catch (const std::bad_alloc &) {
            return RELKVANU_STORAGE_NO_MEMORY;
        } catch (...) {
            errno = 0;
            return RELKVANU_STORAGE_FAILED;
        }
    }
};

/* How a folder is opened. */
struct folder_options {
    bool is_new = false; /* makes the marker, in a folder without state files */
    std::string prefix, suffix;
    std::string marker_name, marker_text; /* empty: those of the job */
};

/* A folder, which stays open. After a move the old one is empty: only its destructor and an assignment to it may be called. */
class Folder final : public Storage {
public:
    [[nodiscard]] static std::variant<Folder, std::error_code> open(
        const std::string &path, const std::string &job, const folder_options &how = {}) {
        relkvanu_storage_options options = {};
        options.flags = how.is_new ? RELKVANU_STORAGE_NEW : RELKVANU_STORAGE_RECOVER;
        options.path = path.c_str();
        options.job = job.c_str();
        options.prefix = how.prefix.c_str();
        options.suffix = how.suffix.c_str();
        options.marker_name = how.marker_name.empty() ? nullptr : how.marker_name.c_str();
        options.marker_text = how.marker_text.empty() ? nullptr : how.marker_text.c_str();
        for (const std::string *text : {&path, &job, &how.prefix, &how.suffix, &how.marker_name, &how.marker_text}) {
            if (text->find('\0') != std::string::npos) {
                return make_error_code(storage_error::bad_argument);
            }
        }
        relkvanu_storage made = {};
        int status = relkvanu_storage_open_folder(&made, &options);
        if (status != RELKVANU_STORAGE_OK) {
            return storage_code(status);
        }
        return Folder(made);
    }

    Folder(Folder &&other) noexcept : it_(std::exchange(other.it_, relkvanu_storage())) {}

    Folder &operator=(Folder &&other) noexcept {
        if (this != &other) {
            relkvanu_storage_close_folder(&it_);
            it_ = std::exchange(other.it_, relkvanu_storage());
        }
        return *this;
    }

    /* Comes after the last call of each thread. */
    ~Folder() override { relkvanu_storage_close_folder(&it_); }

    [[nodiscard]] std::error_code check() override { return storage_code(it_.check(it_.with)); }

    [[nodiscard]] std::error_code put(std::uint64_t file, std::string_view contents) override {
        return storage_code(it_.put(it_.with, file, contents.data(), contents.size()));
    }

    [[nodiscard]] std::error_code get(std::uint64_t file, std::string &contents) override {
        std::uint64_t len = 0;
        int status = it_.get(it_.with, file, nullptr, 0, &len);
        if (status == RELKVANU_STORAGE_OK) {
            contents.resize(static_cast<std::size_t>(len));
            status = it_.get(it_.with, file, contents.data(), contents.size(), &len);
        }
        return storage_code(status);
    }

    [[nodiscard]] std::error_code remove(files list, span<deletion> outcomes) override {
        if (outcomes.size() != list.size()) {
            return make_error_code(storage_error::bad_argument);
        }
        return storage_code(it_.delete_files(it_.with, list.data(), list.size(), reinterpret_cast<std::uint8_t *>(outcomes.data())));
    }

    [[nodiscard]] std::error_code list(const page &each, std::size_t most = 0) override {
        paging now = {each, nullptr};
        auto turn = [](void *with, const relkvanu_storage_file *found, std::size_t len) noexcept {
            paging &it = *static_cast<paging *>(with);
            try {
                return it.each(span<const relkvanu_storage_file>(found, len));
            } catch (...) {
                it.thrown = std::current_exception();
                return false;
            }
        };
        int status = it_.list(it_.with, most, turn, &now);
        if (now.thrown) {
            std::rethrow_exception(now.thrown);
        }
        return storage_code(status);
    }

private:
    /* A listing that is under way. What a page throws goes on to the caller. */
    struct paging {
        const page &each;
        std::exception_ptr thrown;
    };

    relkvanu_storage it_;

    explicit Folder(const relkvanu_storage &made) noexcept : it_(made) {}
};

} // namespace ckpt

template <> struct std::is_error_code_enum<ckpt::storage_error> : std::true_type {};

#endif
