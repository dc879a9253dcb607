// The calls of a coordinator with terms and names.
#ifndef EXPLORE_NAMES_HPP
#define EXPLORE_NAMES_HPP

#include "library.hpp"

// Whether the call says in which term its task runs.
inline bool has_term(const Call &call) {
    return call.term != 0 && (call.kind == ACK || call.kind == DECLINE || call.kind == RESERVE || call.kind == FORFEIT);
}
relkvanu_answer make_named(relkvanu *handle, const Call &call, const std::vector<u64> &reused);
// Whether a call was refused for its term or its names.
bool is_fenced(const relkvanu_answer &answer);
bool is_old_term(const Answer &answer);
void read_names(relkvanu *handle, Facts *facts);
// The line of a log behind its opening, from which on names are given out.
constexpr char FENCE_LINE[] = "fence 1";

#endif
