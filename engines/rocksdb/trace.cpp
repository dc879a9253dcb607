// The lines of a trace, one write each, so several processes may append in turn: see trace.hpp.
#include "trace.hpp"

#include <cstring>
#include <dlfcn.h>
#include <fcntl.h>
#include <mutex>

static std::mutex lock;
static uint64_t answered;
static thread_local const char *deleter;

void trace_answered(uint64_t place) {
    std::lock_guard<std::mutex> until_the_end(lock);
    answered = std::max(place, answered);
}

void append_to_trace(const std::string &text) {
    std::lock_guard<std::mutex> until_the_end(lock);
    const std::string line = text_of(answered, " ", text, "\n");
    int to = open(getenv("ENGINE_TRACE"), O_CREAT | O_WRONLY | O_APPEND | O_CLOEXEC, 0600);
    CHECK(to >= 0 && write(to, line.data(), line.size()) == ssize_t(line.size()), "the trace can't be written: ", strerror(errno));
    close(to);
}

void trace_deletes_as(const char *who) {
    deleter = who;
}

// Before that of the C library, or of a library that was loaded before it, for the store too: a file that is deleted is told before.
extern "C" int unlinkat(int folder, const char *name, int flags) noexcept {
    static const auto real = reinterpret_cast<int (*)(int, const char *, int)>(dlsym(RTLD_NEXT, "unlinkat"));
    if (deleter != nullptr && *name != '\0' && name[strspn(name, "0123456789")] == '\0') {
        trace(deleter, " unlinks ", name);
    }
    return real(folder, name, flags);
}
