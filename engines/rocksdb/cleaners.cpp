// The threads that delete files: see cleaners.hpp.
#include "cleaners.hpp"
#include "trace.hpp"

static constexpr size_t AT_ONCE = 16;
static constexpr uint64_t PAUSE_MS = 20;

void Discarder::delete_files(const uint64_t *files, size_t len, uint8_t *is_gone) {
    for (size_t place = 0; place < len; place++) {
        if (chance.below(8) == 0) {
            failed++;
            continue;
        }
        coordinator.storage.remove(files[place]);
        is_gone[place] = 1;
        deleted++;
        coordinator.step();
    }
}

void Discarder::run() {
    trace_deletes_as("discarder");
    auto delete_files = [](void *with, const uint64_t *files, size_t len, uint8_t *is_gone) {
        static_cast<Discarder *>(with)->delete_files(files, len, is_gone);
    };
    const int status = relkvanu_store_discard(coordinator.store, AT_ONCE, delete_files, this);
    coordinator.check("the discarder ends", status == RELKVANU_STORE_STOPPED ? RELKVANU_STORE_OK : status);
}

void Discarder::stop() {
    relkvanu_store_stop(coordinator.store);
    thread.join();
}

void Discarder::drain() {
    relkvanu_counts counts = coordinator.counts();
    while (counts.waiting + counts.taken != 0) {
        sleep_ms(1);
        counts = coordinator.counts();
    }
}

void Sweeper::run() {
    while (!stops) {
        coordinator.sweep();
        sweeps++;
        sleep_ms(chance.below(PAUSE_MS));
    }
}

void Sweeper::stop() {
    stops = true;
    thread.join();
}
