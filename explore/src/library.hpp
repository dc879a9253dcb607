// The coordinator's part of a state: its image, which the library writes. Each call from each image is made once, by the library.
#ifndef EXPLORE_LIBRARY_HPP
#define EXPLORE_LIBRARY_HPP

#include "relkvanu.h"
#include "sets.hpp"

#include <deque>
#include <string>
#include <unordered_map>
#include <vector>

enum Kind : u8 {
    TICK = 1,
    EXPIRE,
    SAVE,
    ACK,
    DECLINE,
    DISPOSE,
    RESTORE,
    CANCEL,
    TAKE,
    DELETE,
    UNDELETE,
    RESERVE,
    FORFEIT,
    TRIGGER,
    CONFIGURE,
    GIVE_NAMES, // `file`: the first name
    ADVANCE,    // the same, and a term above `term` begins
    ADOPT       // an acknowledgement of a recovery, before the job has names: the files of `reused` are fresh
};

struct Call {
    u8 kind, subtask, record, // record: for a configure how many checkpoints are retained, and how many may be pending: settings_code
        file; // file: a fresh one, or 0; for a report the file that it is about; for a restore its shape, if it is a new one
    Files reused;
    u8 term = 0; // of the task, if the coordinator has names
};

struct Answer {
    u32 image; // after the call
    u32 code, what;
    u16 a, b; // of a take, a is the file
    bool is_done() const { return code == RELKVANU_DONE; }
};

constexpr unsigned MOST_RECORDS = 4;

// Settings that a configure has.
constexpr u8 settings_code(unsigned retained, unsigned at_once) {
    return u8(retained << 2 | at_once);
}

// What the reads of the library say of an image.
struct Facts {
    Files in_use, waiting, taken;
    Files done;       // of live records that are done
    u32 done_records; // their numbers, as bits
    bool is_running, is_cancelled;
    u8 next_record;                                     // the number that the next record gets
    u8 choice;                                          // the number of the record that a restore would begin from, or 0
    Files base[2];                                      // its files, by subtask
    u8 pending[MOST_RECORDS], savepoints[MOST_RECORDS]; // numbers, of done savepoints
    Files saved[MOST_RECORDS];                          // the files of the savepoints
    u8 checkpoints[MOST_RECORDS];                       // numbers, of done checkpoints
    Files parts[MOST_RECORDS][2];                       // the files of these, by subtask
    u64 due, expiry;
    // If the coordinator has names: the term, the next name, the names that tasks of the term hold, and what a sweeper may delete.
    u8 term, next_name;
    Files held, garbage;
};

// What is left when a discarder has run to its end.
struct Drained {
    bool is_known;
    Files deleted, in_use, garbage;
};

class Library {
public:
    // The image of a new coordinator, and the lines that open its log. That of a recovery begins with the number `first`, and has no names yet.
    u32 opening();
    u32 opening_of_recovery(u8 first);
    std::string opening_lines(bool has_names);
    Answer call(u32 image, const Call &call);
    // The line of the call for the log.
    std::string line(u32 image, const Call &call);
    const Facts &facts(u32 image) const { return images[image].facts; }
    const std::string &text(u32 image) const { return images[image].text; }
    size_t size() const { return images.size(); }
    // How many calls the library has made.
    u64 made() const { return calls; }
    // After a restore (RESTORE), a cancel (CANCEL), or at once (0).
    const Drained &drained(u32 image, u8 after);
    // The image of a coordinator that makes the calls of these lines. `first`: 0, or the first number of the log of a recovery.
    std::string replayed(const std::vector<std::string> &lines, u8 first, u64 word);
    // Forgets all images. Their numbers mean nothing then.
    void clear();

private:
    struct Image {
        std::string text;
        Facts facts;
        Drained drained[3];
    };
    struct Edge {
        u64 call;
        u32 from; // the image's number + 1; 0: this place is free
        Answer answer;
    };
    std::deque<Image> images; // references stay valid while it grows
    std::unordered_map<std::string, u32> numbers;
    std::vector<Edge> edges = std::vector<Edge>(1 << 12); // a hash table, at most half full
    size_t edges_len = 0;
    u64 calls = 0;

    relkvanu handle = {}; // of the last call
    u32 handle_at = ~u32(0);

    void open_at(u32 image);
    u32 number_of(const std::string &text);
    Edge *place_of(u32 from, u64 call);
    void grow();
    Drained drain(u32 image, u8 after);
};

extern Library library;

#endif
