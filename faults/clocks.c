/* LD_PRELOAD: sets clocks. The file that CLOCKS names has two numbers of 64 bits, in seconds: what is added to the time of day, and to the
   time since the machine's start that a suspension stops. */
#define _GNU_SOURCE
#include <fcntl.h>
#include <stdint.h>
#include <stdlib.h>
#include <sys/mman.h>
#include <sys/syscall.h>
#include <sys/time.h>
#include <time.h>
#include <unistd.h>

static const volatile int64_t *added(void) {
    static const int64_t none[2];
    static const volatile int64_t *told;
    const char *path = getenv("CLOCKS");
    if (told || !path) {
        return told ? told : none;
    }
    int fd = open(path, O_RDONLY);
    void *map = mmap(NULL, 2 * sizeof(int64_t), PROT_READ, MAP_SHARED, fd, 0);
    close(fd);
    return told = map == MAP_FAILED ? none : map;
}

int clock_gettime(clockid_t clock, struct timespec *time) {
    int result = (int)syscall(SYS_clock_gettime, clock, time);
    if (clock == CLOCK_REALTIME || clock == CLOCK_REALTIME_COARSE) {
        time->tv_sec += added()[0];
    }
    if (clock == CLOCK_MONOTONIC || clock == CLOCK_MONOTONIC_COARSE || clock == CLOCK_MONOTONIC_RAW) {
        time->tv_sec += added()[1];
    }
    return result;
}

int gettimeofday(struct timeval *restrict time, void *restrict zone) {
    int result = (int)syscall(SYS_gettimeofday, time, zone);
    time->tv_sec += added()[0];
    return result;
}

time_t time(time_t *at) {
    struct timeval now;
    gettimeofday(&now, NULL);
    if (at) {
        *at = now.tv_sec;
    }
    return now.tv_sec;
}
