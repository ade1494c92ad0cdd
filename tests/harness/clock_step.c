/* A system clock that is set while the program runs. CLOCK_STEP is a descriptor of a file with one number of 8 bytes,
   in the order of the machine: the seconds by which CLOCK_REALTIME is ahead. If the number is the smallest one,
   CLOCK_REALTIME cannot be read. MONOTONIC_STEP is the same for CLOCK_MONOTONIC. Other clocks are as ever. */
#define _GNU_SOURCE
#include <errno.h>
#include <limits.h>
#include <stdlib.h>
#include <sys/syscall.h>
#include <time.h>
#include <unistd.h>

static long step(const char *name) {
    long seconds = 0;
    const char *file = getenv(name);
    return file && pread(atoi(file), &seconds, sizeof seconds, 0) == sizeof seconds ? seconds : 0;
}

int clock_gettime(clockid_t clock, struct timespec *time) {
    long seconds = clock == CLOCK_REALTIME ? step("CLOCK_STEP") : clock == CLOCK_MONOTONIC ? step("MONOTONIC_STEP") : 0;
    if (seconds == LONG_MIN) {
        errno = EINVAL;
        return -1;
    }
    int result = syscall(SYS_clock_gettime, clock, time);
    if (!result)
        time->tv_sec += seconds;
    return result;
}
