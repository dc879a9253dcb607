// The state of a task, a RocksDB with the counts of its partitions and how far each was counted; and the stream, of which each partition is an
// endless list of keys that depends on the seed alone.
#ifndef ENGINE_STATE_HPP
#define ENGINE_STATE_HPP

#include "common.hpp"

#include <array>
#include <memory>
#include <rocksdb/db.h>

constexpr unsigned KEYS = 512; // of each partition
constexpr unsigned BATCH = 32; // records that go through a queue together
using Keys = std::array<uint16_t, BATCH>;

uint16_t stream_key(uint64_t seed, unsigned partition, uint64_t offset);

class State {
public:
    // Opens the database of a folder, or an empty one if there is none.
    explicit State(const fs::path &folder);

    // Counts keys of a partition, and notes that it is counted up to the offset: both or none.
    void count(unsigned partition, uint64_t offset, const Keys &keys);

    uint64_t offset(unsigned partition) const;

    // Compares what is counted of a partition with the stream up to its offset.
    void check(uint64_t seed, unsigned partition) const;

    // Makes a checkpoint of the database in a folder that is not there yet.
    void snapshot(const fs::path &folder);

    // Copies all of the database to others, each partition to that of the task that has it now.
    void copy_to(const std::vector<std::unique_ptr<State>> &others) const;

private:
    std::unique_ptr<rocksdb::DB> db;

    uint64_t get(unsigned partition, unsigned key) const;
    void write(rocksdb::WriteBatch &batch);
};

using States = std::vector<std::unique_ptr<State>>;

#endif
