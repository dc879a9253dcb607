// The storage folder: state files, each named by its number. A file's first line says which of its database's files it is. The store holds
// the folder open, so all of them are in the folder that was there at the start, even if another one is mounted over it. Its marker says whose
// folder it is: in one that is not mounted any more every file is missing.
#ifndef ENGINE_STORAGE_HPP
#define ENGINE_STORAGE_HPP

#include "common.hpp"

struct Storage {
    int folder; // relkvanu_store_folder

    bool has(uint64_t number) const { return fs::exists(path_of(number)); }

    void check_marker() const;

    // Copies a state file into a database's folder, under the name that the file has in its first line. Returns that name.
    std::string get(uint64_t number, const fs::path &to) const;

    // Writes a file whose contents do not matter, whether it is there or not, and syncs it: that of a task which should be dead.
    void write_again(uint64_t number) const;

    // A file that does not exist counts as deleted. Without the marker of the store none does: the process ends.
    void remove(uint64_t number) const;

    // A name that is no number is no state file.
    Files all() const;

private:
    fs::path path() const { return fs::path("/proc/self/fd") / std::to_string(folder); }
    fs::path path_of(uint64_t number) const { return path() / std::to_string(number); }
};

#endif
