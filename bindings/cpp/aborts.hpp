/* Whether something aborts the process: for the tests of the C++ header. */
#ifndef ABORTS_HPP
#define ABORTS_HPP

#include <csignal>
#include <sys/wait.h>
#include <unistd.h>

/* Does it in a process of its own, which has ten seconds. */
template <class It> bool aborts(It it) {
    pid_t child = fork();
    if (child == 0) {
        alarm(10);
        (void)it();
        _exit(0);
    }
    int status = 0;
    return waitpid(child, &status, 0) == child && WIFSIGNALED(status) && WTERMSIG(status) == SIGABRT;
}

#endif
