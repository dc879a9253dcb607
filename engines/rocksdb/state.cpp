// The state of a task in a RocksDB: see state.hpp.
#include "state.hpp"

#include <cstring>
#include <rocksdb/convenience.h>
#include <rocksdb/merge_operator.h>
#include <rocksdb/utilities/checkpoint.h>

static constexpr unsigned NO_KEY = 0xffff; // in the place of a key: the partition's offset

// A key of the database: the partition, then the key, or NO_KEY.
static std::string key_of(unsigned partition, unsigned key) {
    return {char(partition), char(key >> 8), char(key & 0xff)};
}

static std::string value_of(uint64_t number) {
    return std::string(reinterpret_cast<const char *>(&number), sizeof number);
}

static void went_well(const rocksdb::Status &status) {
    CHECK(status.ok(), "RocksDB: ", status.ToString());
}

uint16_t stream_key(uint64_t seed, unsigned partition, uint64_t offset) {
    return uint16_t(mixed(seed ^ mixed(partition) ^ (offset << 8)) % KEYS);
}

State::State(const fs::path &folder) {
    rocksdb::Options options;
    options.create_if_missing = true;
    options.write_buffer_size = 1 << 20;
    options.keep_log_file_num = 1;
    went_well(rocksdb::MergeOperator::CreateFromString(rocksdb::ConfigOptions(), "uint64add", &options.merge_operator));
    rocksdb::DB *opened = nullptr;
    went_well(rocksdb::DB::Open(options, folder, &opened));
    db.reset(opened);
}

// The write-ahead log is off: what is written since a checkpoint is lost with the task, and counted again.
void State::write(rocksdb::WriteBatch &batch) {
    rocksdb::WriteOptions options;
    options.disableWAL = true;
    went_well(db->Write(options, &batch));
}

void State::count(unsigned partition, uint64_t offset, const Keys &keys) {
    rocksdb::WriteBatch batch;
    for (uint16_t key : keys) {
        batch.Merge(key_of(partition, key), value_of(1));
    }
    batch.Put(key_of(partition, NO_KEY), value_of(offset));
    write(batch);
}

uint64_t State::get(unsigned partition, unsigned key) const {
    std::string bytes;
    uint64_t value = 0;
    const rocksdb::Status status = db->Get(rocksdb::ReadOptions(), key_of(partition, key), &bytes);
    if (!status.IsNotFound()) {
        went_well(status);
        CHECK(bytes.size() == sizeof value, "a value has ", bytes.size(), " bytes");
        memcpy(&value, bytes.data(), sizeof value);
    }
    return value;
}

uint64_t State::offset(unsigned partition) const {
    return get(partition, NO_KEY);
}

void State::check(uint64_t seed, unsigned partition) const {
    std::array<uint64_t, KEYS> wanted = {};
    const uint64_t end = offset(partition);
    for (uint64_t place = 0; place < end; place++) {
        wanted[stream_key(seed, partition, place)]++;
    }
    for (unsigned key = 0; key < KEYS; key++) {
        const uint64_t counted = get(partition, key);
        CHECK(counted == wanted[key], "partition ", partition, ": key ", key, " stands ", wanted[key], " times before offset ", end,
            ", counted ", counted);
    }
}

void State::snapshot(const fs::path &folder) {
    rocksdb::Checkpoint *made = nullptr;
    went_well(rocksdb::Checkpoint::Create(db.get(), &made));
    const std::unique_ptr<rocksdb::Checkpoint> checkpoint(made);
    went_well(checkpoint->CreateCheckpoint(folder));
}

void State::copy_to(const States &others) const {
    const std::unique_ptr<rocksdb::Iterator> place(db->NewIterator(rocksdb::ReadOptions()));
    for (place->SeekToFirst(); place->Valid(); place->Next()) {
        rocksdb::WriteBatch batch;
        batch.Put(place->key(), place->value());
        others[uint8_t(place->key()[0]) % others.size()]->write(batch);
    }
    went_well(place->status());
}
