// Images and the calls between them, over the C interface of the library.
#include "library.hpp"

#include "names.hpp"
#include "reads.hpp"
#include "scope.hpp"

Library library;

static const relkvanu_settings &settings() {
    static const relkvanu_settings all = {10, 0, scope.at_once, 1000000, scope.tolerable, scope.retained, false};
    return all;
}

static std::vector<u64> shape() {
    return {scope.subtasks};
}

static std::vector<u64> list_of(Files files) {
    std::vector<u64> list;
    for (unsigned file = 1; file <= LAST_FILE; file++) {
        if (files & only(file)) {
            list.push_back(file);
        }
    }
    return list;
}

// Calls other than ticks take place at the greatest moment so far, which an earlier one counts as.
static u64 moment_of(const Facts &facts, u8 kind) {
    return kind == TICK ? facts.due : kind == EXPIRE ? facts.expiry : 0;
}

// The settings of the job with these numbers in place of its own.
static relkvanu_settings settings_of(u8 code) {
    relkvanu_settings all = settings();
    all.retained = code >> 2;
    all.at_once = code & 3;
    return all;
}

static relkvanu_answer configure(relkvanu *handle, u64 now, u8 code) {
    const relkvanu_settings all = settings_of(code);
    return relkvanu_configure(handle, now, &all);
}

static relkvanu_answer make_plain(relkvanu *handle, const Facts &facts, const Call &call, u64 *taken) {
    const u64 now = moment_of(facts, call.kind), fresh[] = {call.file};
    const std::vector<u64> reused = list_of(call.reused);
    switch (call.kind) {
    case TICK:
    case EXPIRE: return relkvanu_tick(handle, now);
    case SAVE: return relkvanu_savepoint(handle, now);
    case ACK: return relkvanu_ack(handle, now, call.record, 0, call.subtask, fresh, call.file ? 1 : 0, reused.data(), reused.size());
    case DECLINE: return relkvanu_decline(handle, now, call.record, 0, call.subtask);
    case DISPOSE: return relkvanu_dispose(handle, call.record);
    case RESTORE: return relkvanu_restore(handle, now, call.record, fresh, call.file ? 1 : 0);
    case CANCEL: return relkvanu_cancel(handle, now);
    case TAKE: return relkvanu_take(handle, taken, 1);
    case DELETE: return relkvanu_deleted(handle, call.file);
    case UNDELETE: return relkvanu_undeleted(handle, call.file);
    case TRIGGER: return relkvanu_trigger(handle, now);
    case CONFIGURE: return configure(handle, now, call.record);
    case GIVE_NAMES: return relkvanu_fence(handle, call.file);
    case ADVANCE: return relkvanu_advance(handle, now, call.term, call.file);
    case ADOPT: return relkvanu_ack(handle, now, call.record, 0, call.subtask, reused.data(), reused.size(), nullptr, 0);
    default: die("an unknown call");
    }
}

static relkvanu_answer make(relkvanu *handle, const Facts &facts, const Call &call, u64 *taken) {
    return scope.names && has_term(call) ? make_named(handle, call, list_of(call.reused)) : make_plain(handle, facts, call, taken);
}

// The first list of a call's line: fresh files, names, a shape, or settings.
static std::vector<u64> first_list(const Call &call) {
    if (call.kind == CONFIGURE) {
        const relkvanu_settings all = settings_of(call.record);
        return {all.interval, all.pause, all.at_once, all.timeout, all.tolerable, all.retained, all.keep_on_cancel};
    }
    if (call.kind == ADOPT) {
        return list_of(call.reused);
    }
    const bool has_file = call.file && (call.kind == ACK || call.kind == FORFEIT || call.kind == RESTORE);
    return has_file ? std::vector<u64>{call.file} : std::vector<u64>();
}

std::string Library::line(u32 image, const Call &call) {
    static const u32 kinds[] = {0, RELKVANU_CALL_TICK, RELKVANU_CALL_TICK, RELKVANU_CALL_SAVEPOINT, RELKVANU_CALL_ACK,
        RELKVANU_CALL_DECLINE, RELKVANU_CALL_DISPOSE, RELKVANU_CALL_RESTORE, RELKVANU_CALL_CANCEL, RELKVANU_CALL_TAKE,
        RELKVANU_CALL_DELETED, RELKVANU_CALL_UNDELETED, RELKVANU_CALL_RESERVE, RELKVANU_CALL_FORFEIT, RELKVANU_CALL_TRIGGER,
        RELKVANU_CALL_CONFIGURE, RELKVANU_CALL_FENCE, RELKVANU_CALL_ADVANCE, RELKVANU_CALL_ACK};
    const bool is_of_file = call.kind == DELETE || call.kind == UNDELETE || call.kind == GIVE_NAMES || call.kind == ADVANCE;
    const bool is_of_one = call.kind == TAKE || call.kind == RESERVE;
    const u64 number = is_of_one ? 1 : is_of_file ? call.file : call.record;
    const std::vector<u64> first = first_list(call), reused = call.kind == ACK ? list_of(call.reused) : std::vector<u64>();
    const u64 term = scope.names && (has_term(call) || call.kind == ADVANCE) ? call.term : 0;
    const relkvanu_call said = {kinds[call.kind], 0, call.subtask, moment_of(facts(image), call.kind), number, term};
    u8 text[512];
    const relkvanu_answer written = relkvanu_call_line(&said, first.data(), first.size(), reused.data(), reused.size(), text, sizeof text);
    if (written.code != RELKVANU_DONE) {
        die("the library writes no line");
    }
    return std::string(text, text + written.a);
}

std::string Library::opening_lines(bool has_names) {
    const std::vector<u64> vertices = shape();
    u8 text[512];
    const relkvanu_answer written = relkvanu_opening_lines(&settings(), vertices.data(), vertices.size(), 0, text, sizeof text);
    if (written.code != RELKVANU_DONE) {
        die("the library writes no opening");
    }
    return std::string(text, text + written.a) + (has_names ? std::string(FENCE_LINE) + "\n" : "");
}

// Makes the call of a line of the log.
static void make_line(relkvanu *handle, const std::string &line) {
    u64 files[64];
    if (relkvanu_line(handle, reinterpret_cast<const u8 *>(line.data()), line.size(), files, 64).code != RELKVANU_DONE) {
        die("a line of the log is not accepted again: " + line);
    }
}

static void open_plain(relkvanu *handle, u64 first, u64 word) {
    const std::vector<u64> vertices = shape();
    if (relkvanu_open(handle, &settings(), vertices.data(), vertices.size(), 0, first, word, word + 1).code != RELKVANU_DONE) {
        die("the library opens no coordinator");
    }
}

static void open_new(relkvanu *handle, u64 word) {
    open_plain(handle, 1, word);
    if (scope.names) {
        make_line(handle, FENCE_LINE);
    }
}

static void open_saved(relkvanu *handle, const std::string &text) {
    if (relkvanu_open_saved(handle, reinterpret_cast<const u8 *>(text.data()), text.size(), 3, 4).code != RELKVANU_DONE) {
        die("the library does not open its own image");
    }
}

static std::string saved(relkvanu *handle) {
    static u8 buffer[1 << 16];
    const relkvanu_answer answer = relkvanu_save(handle, buffer, sizeof buffer);
    if (answer.code != RELKVANU_DONE) {
        die("the library writes no image");
    }
    return std::string(buffer, buffer + answer.a);
}

u32 Library::number_of(const std::string &text) {
    const auto [found, is_new] = numbers.emplace(text, u32(images.size()));
    if (is_new) {
        images.push_back({text, facts_of(&handle), {}});
    }
    return found->second;
}

u32 Library::opening() {
    relkvanu_close(&handle);
    open_new(&handle, 1);
    handle_at = number_of(saved(&handle));
    return handle_at;
}

u32 Library::opening_of_recovery(u8 first) {
    relkvanu_close(&handle);
    open_plain(&handle, first, 1);
    handle_at = number_of(saved(&handle));
    return handle_at;
}

std::string Library::replayed(const std::vector<std::string> &lines, u8 first, u64 word) {
    relkvanu again = {};
    if (first == 0) {
        open_new(&again, word);
    } else {
        open_plain(&again, first, word);
    }
    for (const std::string &line : lines) {
        make_line(&again, line);
    }
    std::string text = saved(&again);
    relkvanu_close(&again);
    return text;
}

void Library::clear() {
    images.clear();
    numbers.clear();
    edges.assign(1 << 12, Edge());
    edges_len = 0;
    handle_at = ~u32(0);
}

// Brings the handle to an image.
void Library::open_at(u32 image) {
    if (handle_at != image) {
        relkvanu_close(&handle);
        handle_at = image;
        open_saved(&handle, text(image));
    }
}

Library::Edge *Library::place_of(u32 from, u64 call) {
    size_t at = mixed(call * 31 + from) & (edges.size() - 1);
    while (edges[at].from != 0 && (edges[at].from != from || edges[at].call != call)) {
        at = (at + 1) & (edges.size() - 1);
    }
    return &edges[at];
}

void Library::grow() {
    std::vector<Edge> old(edges.size() * 2);
    old.swap(edges);
    for (const Edge &edge : old) {
        if (edge.from) {
            *place_of(edge.from, edge.call) = edge;
        }
    }
}

// The call in one word: 5, 1, 8, 6, 32 and 12 bits.
static u64 code_of(const Call &call) {
    const u64 numbers = call.kind | u64(call.subtask) << 5 | u64(call.record) << 6 | u64(call.file) << 14;
    return numbers | u64(call.reused) << 20 | u64(call.term) << 52;
}

Answer Library::call(u32 image, const Call &call) {
    const u64 code = code_of(call);
    if (Edge *edge = place_of(image + 1, code); edge->from != 0) {
        return edge->answer;
    }
    u64 taken[1] = {0};
    open_at(image);
    const relkvanu_answer told = make(&handle, facts(image), call, taken);
    if (told.code != RELKVANU_DONE && told.code != RELKVANU_REFUSED && !is_fenced(told)) {
        die("a call is neither made nor refused");
    }
    Answer answer = {0, told.code, told.what, u16(call.kind == TAKE ? taken[0] : told.a), u16(told.b)};
    answer.image = number_of(saved(&handle));
    handle_at = answer.image;
    if (!answer.is_done() && answer.image != image) {
        die("a refused call changed the coordinator");
    }
    calls++;
    *place_of(image + 1, code) = {code, image + 1, answer};
    if (++edges_len * 2 > edges.size()) {
        grow();
    }
    return answer;
}

Drained Library::drain(u32 image, u8 after) {
    Drained all = {true, 0, 0, 0};
    u32 at = after == 0 ? image : call(image, {after, 0, 0, 0, 0}).image;
    while (facts(at).waiting | facts(at).taken) {
        const Facts &now = facts(at);
        const u8 file = now.taken ? u8(least(now.taken)) : 0;
        all.deleted |= only(file);
        at = call(at, file ? Call{DELETE, 0, 0, file, 0} : Call{TAKE, 0, 0, 0, 0}).image;
    }
    all.in_use = facts(at).in_use;
    all.garbage = facts(at).garbage;
    return all;
}

const Drained &Library::drained(u32 image, u8 after) {
    const int way = after == RESTORE ? 0 : after == CANCEL ? 1 : 2;
    if (!images[image].drained[way].is_known) {
        images[image].drained[way] = drain(image, after);
    }
    return images[image].drained[way];
}
