// The trace of a run, for relkvanu-conform (docs/PROTOCOL.md). ENGINE_TRACE names the file; without it nothing is written. A line has in front the
// greatest place in the log that this process was answered so far: checks/judge_trace.py puts the lines of the log between.
#ifndef ENGINE_TRACE_HPP
#define ENGINE_TRACE_HPP

#include "common.hpp"

// The log must not be cut then, since the trace and the log are to be put together.
inline bool trace_is_on() {
    return getenv("ENGINE_TRACE") != nullptr;
}

// A call at this place of the log was answered.
void trace_answered(uint64_t place);

void append_to_trace(const std::string &text);

// Appends a line.
template <class... Parts> void trace(const Parts &...parts) {
    if (trace_is_on()) {
        append_to_trace(text_of(parts...));
    }
}

// What this thread is to the trace when it deletes files: "discarder", "sweeper", or nothing.
void trace_deletes_as(const char *who);

#endif
