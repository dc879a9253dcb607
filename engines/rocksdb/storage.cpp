// The storage folder: see storage.hpp.
#include "storage.hpp"

#include <cerrno>
#include <cstring>
#include <fcntl.h>
#include <fstream>

void Storage::check_marker() const {
    CHECK(fs::exists(path() / ".relkvanu-job"), "the storage has no marker: it is not the job's, or not mounted");
}

std::string Storage::get(uint64_t number, const fs::path &to) const {
    std::ifstream from(path_of(number), std::ios::binary);
    std::string name;
    CHECK(std::getline(from, name), "file ", number, " can't be read, or says no name");
    std::ofstream file(to / name, std::ios::binary);
    if (from.peek() != EOF) { // an insertion of nothing counts as failed
        file << from.rdbuf();
    }
    CHECK(file.flush() && !from.bad(), to / name, " can't be written");
    return name;
}

void Storage::write_again(uint64_t number) const {
    int file = open(path_of(number).c_str(), O_CREAT | O_WRONLY | O_TRUNC | O_CLOEXEC, 0600);
    CHECK(file >= 0 && write(file, "late\n", 5) == 5 && fsync(file) == 0 && fsync(folder) == 0, "file ", number,
        " can't be written: ", strerror(errno));
    close(file);
    check_marker();
}

void Storage::remove(uint64_t number) const {
    if (unlinkat(folder, std::to_string(number).c_str(), 0) != 0) {
        CHECK(errno == ENOENT, "file ", number, " can't be deleted: ", strerror(errno));
        check_marker();
    }
}

Files Storage::all() const {
    Files found;
    for (const fs::directory_entry &it : fs::directory_iterator(path())) {
        const std::string name = it.path().filename();
        if (name.find_first_not_of("0123456789") == std::string::npos) {
            found.push_back(std::stoull(name));
        }
    }
    return found;
}
