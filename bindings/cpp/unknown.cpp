/* The C++ header over a library of another version, which gives answers that the header does not have: none is taken for another one,
 * and those of calls are error values. */
#include "../../include/relkvanu.hpp"

#include "aborts.hpp"

#include <cstdio>

static std::uint32_t what = RELKVANU_OPENED;

static std::uint32_t code = RELKVANU_DONE;

static relkvanu_answer answer() {
    return {code, what, 0, 0};
}

/* The functions of the library that are called here. */
extern "C" {
/* clang-format off */
relkvanu_answer relkvanu_open(relkvanu *handle, const relkvanu_settings *, const uint64_t *, size_t, uint64_t, uint64_t, uint64_t, uint64_t) {
    static char state;
    handle->state = &state;
    return answer();
}
void relkvanu_close(relkvanu *) {}
/* bindings/generate makes the functions */
relkvanu_answer relkvanu_tick(relkvanu *, uint64_t ) { return answer(); }
relkvanu_answer relkvanu_trigger(relkvanu *, uint64_t ) { return answer(); }
relkvanu_answer relkvanu_savepoint(relkvanu *, uint64_t ) { return answer(); }
relkvanu_answer relkvanu_ack(relkvanu *, uint64_t , uint64_t , uint16_t , uint16_t , const uint64_t *, size_t , const uint64_t *, size_t ) { return answer(); }
relkvanu_answer relkvanu_decline(relkvanu *, uint64_t , uint64_t , uint16_t , uint16_t ) { return answer(); }
relkvanu_answer relkvanu_dispose(relkvanu *, uint64_t ) { return answer(); }
relkvanu_answer relkvanu_restore(relkvanu *, uint64_t , uint64_t , const uint64_t *, size_t ) { return answer(); }
relkvanu_answer relkvanu_cancel(relkvanu *, uint64_t ) { return answer(); }
relkvanu_answer relkvanu_configure(relkvanu *, uint64_t , const relkvanu_settings *) { return answer(); }
relkvanu_answer relkvanu_take(relkvanu *, uint64_t *, size_t ) { return answer(); }
relkvanu_answer relkvanu_deleted(relkvanu *, uint64_t ) { return answer(); }
relkvanu_answer relkvanu_undeleted(relkvanu *, uint64_t ) { return answer(); }
relkvanu_answer relkvanu_show(relkvanu *, uint64_t , uint8_t *, size_t ) { return answer(); }
relkvanu_answer relkvanu_count(relkvanu *, uint64_t ) { return answer(); }
relkvanu_answer relkvanu_mode(relkvanu *) { return answer(); }
relkvanu_answer relkvanu_moment(relkvanu *) { return answer(); }
relkvanu_answer relkvanu_due(relkvanu *) { return answer(); }
relkvanu_answer relkvanu_oldest_expiry(relkvanu *) { return answer(); }
relkvanu_answer relkvanu_choice(relkvanu *) { return answer(); }
relkvanu_answer relkvanu_live(relkvanu *, size_t ) { return answer(); }
relkvanu_answer relkvanu_missing(relkvanu *, uint64_t ) { return answer(); }
relkvanu_answer relkvanu_line(relkvanu *, const uint8_t *, size_t , uint64_t *, size_t ) { return answer(); }
relkvanu_answer relkvanu_line_says(const uint8_t *, size_t , uint64_t *, size_t ) { return answer(); }
relkvanu_answer relkvanu_line_call(const uint8_t *, size_t , relkvanu_call *, uint64_t *, size_t , uint64_t *, size_t ) { return answer(); }
relkvanu_answer relkvanu_call_line(const relkvanu_call *, const uint64_t *, size_t , const uint64_t *, size_t , uint8_t *, size_t ) { return answer(); }
relkvanu_answer relkvanu_make(relkvanu *, const relkvanu_call *, const uint64_t *, size_t , const uint64_t *, size_t , uint64_t *, size_t , uint8_t *, size_t , relkvanu_made *) { return answer(); }
relkvanu_answer relkvanu_opening_lines(const relkvanu_settings *, const uint64_t *, size_t , uint64_t , uint8_t *, size_t ) { return answer(); }
relkvanu_answer relkvanu_group_make(relkvanu *, relkvanu_group *, relkvanu_answer *, size_t , const relkvanu_call *, const uint64_t *, size_t , const uint64_t *, size_t , uint64_t *, size_t , uint8_t *, size_t , relkvanu_made *) { return answer(); }
relkvanu_answer relkvanu_group_hold(relkvanu_group *, relkvanu_answer *, size_t , const relkvanu_answer *) { return answer(); }
relkvanu_answer relkvanu_group_synced(relkvanu_group *) { return answer(); }
relkvanu_answer relkvanu_group_answer(const relkvanu_group *, const relkvanu_answer *, size_t , uint64_t ) { return answer(); }
relkvanu_answer relkvanu_save(relkvanu *, uint8_t *, size_t ) { return answer(); }
relkvanu_answer relkvanu_open_saved(relkvanu *, const uint8_t *, size_t , uint64_t , uint64_t ) { return answer(); }
relkvanu_answer relkvanu_live_from(relkvanu *, uint64_t ) { return answer(); }
relkvanu_answer relkvanu_standing(relkvanu *, uint64_t ) { return answer(); }
relkvanu_answer relkvanu_files_of(relkvanu *, uint64_t , uint16_t , uint16_t , uint64_t *, size_t ) { return answer(); }
relkvanu_answer relkvanu_pins_of(relkvanu *, uint64_t , uint64_t *, size_t ) { return answer(); }
relkvanu_answer relkvanu_waiting_file(relkvanu *, size_t ) { return answer(); }
relkvanu_answer relkvanu_taken_files(relkvanu *, uint64_t *, size_t ) { return answer(); }
relkvanu_answer relkvanu_open_fenced(relkvanu *, const relkvanu_settings *, const uint64_t *, size_t , uint64_t , uint64_t , uint64_t , uint64_t , uint64_t ) { return answer(); }
relkvanu_answer relkvanu_fence(relkvanu *, uint64_t ) { return answer(); }
relkvanu_answer relkvanu_term(relkvanu *) { return answer(); }
relkvanu_answer relkvanu_reserve(relkvanu *, uint64_t , uint64_t ) { return answer(); }
relkvanu_answer relkvanu_forfeit(relkvanu *, uint64_t , const uint64_t *, size_t ) { return answer(); }
relkvanu_answer relkvanu_advance(relkvanu *, uint64_t , uint64_t , uint64_t ) { return answer(); }
relkvanu_answer relkvanu_ack_in(relkvanu *, uint64_t , uint64_t , uint64_t , uint16_t , uint16_t , const uint64_t *, size_t , const uint64_t *, size_t ) { return answer(); }
relkvanu_answer relkvanu_decline_in(relkvanu *, uint64_t , uint64_t , uint64_t , uint16_t , uint16_t ) { return answer(); }
relkvanu_answer relkvanu_garbage(relkvanu *, const uint64_t *, size_t , uint64_t *, size_t , uint64_t *, size_t ) { return answer(); }
/* bindings/generate: end */
size_t relkvanu_refusal_text(uint32_t, uint8_t *, size_t) { return 0; }
/* clang-format on */
}

/* Whether a call is refused because of an unknown answer. */
template <class Answer> static bool is_unknown(const Answer &told) {
    const ckpt::refused *why = std::get_if<ckpt::refused>(&told);
    return why != nullptr && why->why == ckpt::error::unknown && why->why.message() == "unknown";
}

/* Of the calls of one number those that are not refused so. */
static int others(ckpt::Coordinator &job) {
    /* clang-format off */
    /* bindings/generate makes the calls of one number */
    return !is_unknown(job.tick(1)) + !is_unknown(job.savepoint(1)) + !is_unknown(job.dispose(1)) + !is_unknown(job.cancel(1)) + !is_unknown(job.deleted(1)) + !is_unknown(job.undeleted(1)) + !is_unknown(job.trigger(1));
    /* bindings/generate: end */
    /* clang-format on */
}

/* How many of the calls are refused so, how many reads say it, and how many have no place for it and abort the process. */
static int unknown(ckpt::Coordinator &job) {
    what = 999;
    std::uint64_t places[1];
    int refused = is_unknown(job.ack(0, 1, 0, 0, {})) + is_unknown(job.decline(0, 1, 0, 0)) + is_unknown(job.restore(0)) +
                  is_unknown(job.take(places)) + is_unknown(job.fence(1)) + is_unknown(job.term()) + is_unknown(job.reserve(1, 1)) +
                  is_unknown(job.forfeit(1, {})) + is_unknown(job.ack_in(1, 0, 1, 0, 0, {})) + is_unknown(job.decline_in(1, 0, 1, 0, 0)) +
                  is_unknown(job.garbage({})) + is_unknown(job.advance(0, 1, 1));
    int said = (job.mode() == ckpt::mode::unknown) + (job.standing(1) == ckpt::standing::unknown);
    int aborted = aborts([&] { return job.choice(); }) + aborts([&] { return job.live(0); }) + aborts([&] { return job.live_from(0); });
    int more = others(job);
    std::printf(
        "%d of 12 calls are refused, %d of one number are not, %d of 2 reads say it, %d of 3 abort\n", refused, more, said, aborted);
    return more == 0 ? refused + said + aborted : 0;
}

/* Codes and refusals that the header does not have are error values. */
static int other_codes(ckpt::Coordinator &job) {
    what = 999;
    int refused = 0;
    for (std::uint32_t it : {RELKVANU_REFUSED, RELKVANU_BAD_ARGUMENT, RELKVANU_BAD_LINE, RELKVANU_FENCED, 99u}) {
        code = it;
        auto told = job.tick(0);
        const ckpt::refused *why = std::get_if<ckpt::refused>(&told);
        refused += why != nullptr && why->why && why->why.message() == "unknown";
    }
    code = RELKVANU_DONE;
    return refused;
}

int main() {
    auto opened = ckpt::Coordinator::open({}, {}, 0);
    ckpt::Coordinator &job = std::get<ckpt::Coordinator>(opened);
    what = RELKVANU_TICK_FAILED;
    bool is_known = std::holds_alternative<ckpt::failed>(job.tick(0));
    int found = unknown(job), codes = other_codes(job);
    std::printf("%d of 5 unknown codes are error values, a known answer %s\n", codes, is_known ? "is itself" : "is another one");
    return is_known && found == 17 && codes == 5 ? 0 : 1;
}
