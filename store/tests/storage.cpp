// storage FOLDER: relkvanu_storage.hpp: a folder, its errors, its moves, and a storage of the engine's own behind functions of C.
#include "../../include/relkvanu_storage.hpp"

#include <atomic>
#include <cstdio>
#include <cstdlib>
#include <cstring>
#include <filesystem>
#include <fstream>
#include <map>
#include <mutex>
#include <stdexcept>

#define CHECK(condition)                                                    \
    do {                                                                    \
        if (!(condition)) {                                                 \
            fprintf(stderr, "%s:%d: %s\n", __FILE__, __LINE__, #condition); \
            abort();                                                        \
        }                                                                   \
    } while (0)

using namespace ckpt;
namespace fs = std::filesystem;

static std::atomic<long> left_to_allocate(-1); // -1: as many as are wanted

[[gnu::noinline]] void *operator new(std::size_t size) {
    if (left_to_allocate >= 0 && left_to_allocate-- == 0) {
        left_to_allocate = 0;
        throw std::bad_alloc();
    }
    if (void *at = malloc(size)) {
        return at;
    }
    throw std::bad_alloc();
}

[[gnu::noinline]] void operator delete(void *at) noexcept {
    free(at);
}
[[gnu::noinline]] void operator delete(void *at, std::size_t) noexcept {
    free(at);
}

static Folder opened(const fs::path &path, folder_options how = {}) {
    fs::create_directories(path);
    how.is_new = true;
    auto it = Folder::open(path, "orders", how);
    CHECK(std::holds_alternative<Folder>(it));
    return std::get<Folder>(std::move(it));
}

static std::error_code why_not(const fs::path &path, const std::string &job, const folder_options &how = {}) {
    auto it = Folder::open(path, job, how);
    CHECK(std::holds_alternative<std::error_code>(it));
    return std::get<std::error_code>(it);
}

static void write_file(const fs::path &path, const std::string &text) {
    std::ofstream(path) << text;
}

static std::map<std::uint64_t, std::uint64_t> listed(Storage &it, std::size_t most = 0) {
    std::map<std::uint64_t, std::uint64_t> found;
    CHECK(!it.list(
        [&](span<const relkvanu_storage_file> page) {
            CHECK(page.size() != 0 && (most == 0 || page.size() <= most));
            for (const relkvanu_storage_file &file : page) {
                found[file.file] += file.bytes;
            }
            return true;
        },
        most));
    return found;
}

// Each option, each error of an opening, and moves. What a marker says, and what a folder may have, store/tests/cases_folder.c tries.
static void whose_it_is(const fs::path &at) {
    fs::create_directories(at);
    CHECK(why_not(at, "orders") == storage_error::not_there);
    Folder it = opened(at), moved = std::move(it);
    CHECK(!moved.check() && why_not(at, "others") == storage_error::other_job);
    CHECK(why_not(at, std::string("orders\0x", 8)) == storage_error::bad_argument);
    it = opened(at);
    moved = std::move(it);
    CHECK(!moved.check() && std::holds_alternative<Folder>(Folder::open(at, "orders")));
    const folder_options named = {false, "", "", ".relkvanu-storage", "relkvanu: state files of the job orders\n"};
    CHECK(std::holds_alternative<Folder>(Folder::open(at, "others", named)));
    fs::remove(at / ".relkvanu-storage");
    CHECK(moved.check() == storage_error::not_there && moved.put(9, "state") == storage_error::not_there);
    write_file(at / "7.part", "");
    CHECK(why_not(at, "orders", {true, "", "", "", ""}) == storage_error::not_empty);
}

static void files_of_a_folder(const fs::path &at) {
    Folder it = opened(at, {true, "a-", ".bin", "", ""});
    std::string found;
    CHECK(!it.put(7, "state") && !it.put(UINT64_MAX, "") && it.put(7, "other") == storage_error::present && fs::exists(at / "a-7.bin"));
    CHECK(
        !it.get(7, found) && found == "state" && !it.get(UINT64_MAX, found) && found.empty() && it.get(8, found) == storage_error::absent);
    fs::create_directory(at / "a-5.bin");
    CHECK((listed(it) == std::map<std::uint64_t, std::uint64_t>{{7, 5}, {UINT64_MAX, 0}}) && listed(it, 1).size() == 2);
    CHECK(it.list([](auto) { return false; }) == storage_error::ended);
    bool is_thrown = false;
    try {
        (void)it.list([](span<const relkvanu_storage_file>) -> bool { throw std::runtime_error("planted"); });
    } catch (const std::runtime_error &) {
        is_thrown = true;
    }
    const std::uint64_t all[] = {5, 7, 8};
    deletion outcomes[3];
    CHECK(is_thrown && !it.remove(all, outcomes));
    CHECK(outcomes[0] == deletion::undeleted && outcomes[1] == deletion::deleted && outcomes[2] == deletion::missing);
    CHECK(listed(it).size() == 1 && it.remove(files(all, 2), outcomes) == storage_error::bad_argument);
}

// A storage of an engine: objects in memory.
class Objects final : public Storage {
public:
    std::error_code fault;
    bool throws = false;

    std::error_code check() override { return fault; }

    std::error_code put(std::uint64_t file, std::string_view contents) override {
        std::lock_guard<std::mutex> guard(mutex_);
        if (fault) {
            return fault;
        }
        return objects_.emplace(file, contents).second ? std::error_code() : make_error_code(storage_error::present);
    }

    std::error_code get(std::uint64_t file, std::string &contents) override {
        std::lock_guard<std::mutex> guard(mutex_);
        auto found = objects_.find(file);
        contents = found == objects_.end() ? "" : found->second;
        return found == objects_.end() ? make_error_code(storage_error::absent) : fault;
    }

    std::error_code remove(files list, span<deletion> outcomes) override {
        std::lock_guard<std::mutex> guard(mutex_);
        if (throws) {
            throw std::runtime_error("planted");
        }
        for (std::size_t place = 0; place < list.size(); place++) {
            outcomes[place] = objects_.erase(list[place]) ? deletion::deleted : deletion::missing;
        }
        return fault;
    }

    std::error_code list(const page &each, std::size_t) override {
        std::vector<relkvanu_storage_file> found;
        for (const auto &it : objects_) {
            found.push_back({it.first, it.second.size()});
        }
        bool goes_on = found.empty() || each(span<const relkvanu_storage_file>(found.data(), found.size()));
        return goes_on ? fault : make_error_code(storage_error::ended);
    }

private:
    std::mutex mutex_;
    std::map<std::uint64_t, std::string> objects_;
};

static bool ends(void *, const relkvanu_storage_file *, std::size_t) {
    return false;
}

static void an_own_storage(const fs::path &) {
    Objects objects;
    relkvanu_storage it = objects.functions();
    const std::uint64_t all[] = {7, 8};
    std::uint8_t outcomes[] = {9, 9};
    char found[3] = "";
    std::uint64_t len = 0;
    CHECK(it.check(it.with) == RELKVANU_STORAGE_OK && it.put(it.with, 7, "state", 5) == RELKVANU_STORAGE_OK);
    CHECK(it.put(it.with, 7, "state", 5) == RELKVANU_STORAGE_PRESENT && it.get(it.with, 8, found, 2, &len) == RELKVANU_STORAGE_ABSENT);
    CHECK(it.get(it.with, 7, found, 2, &len) == RELKVANU_STORAGE_OK && len == 5 && strcmp(found, "st") == 0);
    CHECK(it.list(it.with, 0, ends, nullptr) == RELKVANU_STORAGE_ENDED);
    objects.throws = true;
    CHECK(it.delete_files(it.with, all, 2, outcomes) == RELKVANU_STORAGE_FAILED && outcomes[0] == 0 && outcomes[1] == 0);
    objects.throws = false;
    CHECK(it.delete_files(it.with, all, 2, outcomes) == RELKVANU_STORAGE_OK && outcomes[0] == 1 && outcomes[1] == 2);
    objects.fault = std::make_error_code(std::errc::io_error);
    CHECK(it.check(it.with) == RELKVANU_STORAGE_FAILED && errno == EIO &&
          it.delete_files(it.with, all, 2, outcomes) == RELKVANU_STORAGE_FAILED && outcomes[1] == 0);
    objects.fault = make_error_code(storage_error::other_job);
    CHECK(it.check(it.with) == RELKVANU_STORAGE_OTHER_JOB && objects.check().message() == "OtherJob");
}

// Each request for memory is refused in turn: an ordinary answer, and the next call does all.
static void without_memory(const fs::path &at) {
    Objects objects;
    relkvanu_storage it = objects.functions();
    Folder folder = opened(at);
    relkvanu_storage of_folder = folder.functions();
    const std::uint64_t file[] = {7};
    std::uint8_t outcome[] = {9};
    char found[64];
    std::uint64_t len = 0;
    CHECK(!folder.put(7, std::string(100, 'x')));
    for (relkvanu_storage *one : {&it, &of_folder}) {
        int refusals = 0, status = RELKVANU_STORAGE_NO_MEMORY;
        for (long room = 0; status == RELKVANU_STORAGE_NO_MEMORY; room++) {
            left_to_allocate = room;
            status = one == &it ? one->put(one->with, 7, "a text that is longer than a short one of a string", 50)
                                : one->get(one->with, 7, found, sizeof found, &len);
            left_to_allocate = -1;
            refusals += status == RELKVANU_STORAGE_NO_MEMORY;
        }
        CHECK(status == RELKVANU_STORAGE_OK && refusals >= 1);
        left_to_allocate = 0;
        status = one->delete_files(one->with, file, 1, outcome);
        left_to_allocate = -1;
        CHECK(status == RELKVANU_STORAGE_NO_MEMORY && outcome[0] == RELKVANU_STORAGE_UNDELETED);
        CHECK(one->delete_files(one->with, file, 1, outcome) == RELKVANU_STORAGE_OK && outcome[0] == RELKVANU_STORAGE_DELETED);
    }
}

int main(int argc, char **argv) {
    CHECK(argc == 2);
    const fs::path folder = argv[1];
    whose_it_is(folder / "whose");
    files_of_a_folder(folder / "files");
    an_own_storage(folder);
    without_memory(folder / "memory");
    return 0;
}
