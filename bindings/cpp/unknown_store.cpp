/* The class ckpt::Store over a library of another version, whose triggers have a choice of a kind that the header does not have: such an answer is
 * an error value, and names no record. */
#include "../../include/relkvanu_store.hpp"

#include <cstdio>

static std::uint32_t kind = RELKVANU_CHOICE_CHECKPOINT;

static int triggered(relkvanu_store_call *call) {
    bool is_tick = call->call.kind != RELKVANU_CALL_SAVEPOINT;
    call->answer = {RELKVANU_DONE, is_tick ? RELKVANU_TICK_TRIGGERED : RELKVANU_SAVEPOINT_TRIGGERED, 0, 0};
    call->choice = {RELKVANU_DONE, kind, 5, 0};
    return RELKVANU_STORE_OK;
}

/* The functions of the library that are called here. */
extern "C" {
/* clang-format off */
int relkvanu_store_open(relkvanu_store **store, const char *, const relkvanu_store_options *, relkvanu_store_report *report) {
    *store = nullptr;
    *report = {};
    return RELKVANU_STORE_OK;
}
void relkvanu_store_close(relkvanu_store *) {}
int relkvanu_store_calls(relkvanu_store *, relkvanu_store_call *calls, size_t) { return triggered(calls); }
int relkvanu_store_await_tick(relkvanu_store *, uint64_t, relkvanu_store_call *tick) { return triggered(tick); }
size_t relkvanu_refusal_text(uint32_t, uint8_t *, size_t) { return 0; }
/* clang-format on */
}

/* How many of the three answers are of checkpoint 5, and how many are unknown and name no record. */
template <class Answer> static void count(const Answer &told, const ckpt::choice &base, int &known, int &unknown) {
    auto *refused = std::get_if<ckpt::refused>(&told);
    auto *checkpoint = std::get_if<ckpt::checkpoint>(&base);
    known += refused == nullptr && checkpoint != nullptr && checkpoint->id == 5;
    unknown += refused != nullptr && refused->why == ckpt::error::unknown && std::holds_alternative<ckpt::fresh>(base);
}

static void trigger(ckpt::Store &job, int &known, int &unknown) {
    ckpt::choice base;
    count(job.tick(base), base, known, unknown);
    count(job.savepoint(base), base, known, unknown);
    count(job.await_tick(0, base), base, known, unknown);
}

int main() {
    auto opened = ckpt::Store::open("", {});
    ckpt::Store &job = std::get<ckpt::Store>(opened);
    int known = 0, unknown = 0;
    trigger(job, known, unknown);
    kind = 999;
    trigger(job, known, unknown);
    bool is_told = std::holds_alternative<ckpt::triggered>(job.tick()); /* without the choice it is a trigger as any other */
    std::printf("%d of 3 choices are told, %d of 3 unknown ones are error values\n", known, unknown);
    return known == 3 && unknown == 3 && is_told ? 0 : 1;
}
