/* Waits that follow the settings of a run:

   WAIT_AT_MOST       maximum duration of a wait for events, in milliseconds. If the program asked for a longer wait and
                      no event came, the clocks of the program are advanced by the rest. A wait of hours then ends at
                      once, and the program finds that hours have passed.
   SENDS_WITHOUT_ROOM number of calls of send, from the first, that fail with EAGAIN
   WAITS_FAILING      number of waits for events, from the first, that fail with EINVAL
   ACCEPTS_ABORTED    number of calls of accept, from the first, that fail with ECONNABORTED
   WAITS_TOLD         descriptor to which each call is written as a line, `MILLISECONDS CALL RESULT`

   The milliseconds are the time since the program began, by its own clock. The calls are `wait`, `send`, `accept`,
   `nodelay`, `keepalive`, `keepidle`, `keepintvl` and `keepcnt`. If a call fails, the result is the negative error
   number. The result of the last five is the value to which the program set TCP_NODELAY, SO_KEEPALIVE, TCP_KEEPIDLE,
   TCP_KEEPINTVL or TCP_KEEPCNT. */
#define _GNU_SOURCE
#include <errno.h>
#include <netinet/in.h>
#include <netinet/tcp.h>
#include <stdio.h>
#include <stdlib.h>
#include <sys/epoll.h>
#include <sys/socket.h>
#include <sys/syscall.h>
#include <time.h>
#include <unistd.h>

#define MILLION 1000000L
#define BILLION 1000000000L

/* Nanoseconds by which the clocks are advanced, start time of the program, and numbers of calls. */
static long ahead, begun, sendings, waitings, acceptances;

static long set(const char *name) {
    const char *value = getenv(name);
    return value ? atol(value) : -1;
}

int clock_gettime(clockid_t clock, struct timespec *time) {
    int result = syscall(SYS_clock_gettime, clock, time);
    if (!result) {
        long nanoseconds = time->tv_nsec + ahead % BILLION;
        time->tv_sec += ahead / BILLION + nanoseconds / BILLION;
        time->tv_nsec = nanoseconds % BILLION;
    }
    return result;
}

static long now(void) {
    struct timespec time = {0, 0};
    clock_gettime(CLOCK_MONOTONIC, &time);
    return time.tv_sec * BILLION + time.tv_nsec;
}

__attribute__((constructor)) static void begin(void) { begun = now(); }

static long tell(const char *call, long result) {
    char text[96];
    long file = set("WAITS_TOLD"), number = errno;
    if (file >= 0) {
        long reported = result < 0 ? -number : result;
        syscall(SYS_write, (int)file, text,
                snprintf(text, sizeof text, "%ld %s %ld\n", (now() - begun) / MILLION, call, reported));
    }
    errno = number;
    return result;
}

int epoll_wait(int file, struct epoll_event *events, int room, int limit) {
    long most = set("WAIT_AT_MOST");
    int is_cut = most >= 0 && limit > most;
    if (waitings++ < set("WAITS_FAILING")) {
        errno = EINVAL;
        return tell("wait", -1);
    }
    int count = syscall(SYS_epoll_wait, file, events, room, is_cut ? (int)most : limit);
    if (is_cut && !count)
        ahead += (limit - most) * MILLION;
    return tell("wait", count);
}

ssize_t send(int socket, const void *bytes, size_t size, int flags) {
    long count = -1;
    errno = EAGAIN;
    if (sendings++ >= set("SENDS_WITHOUT_ROOM"))
        count = syscall(SYS_sendto, socket, bytes, size, flags, NULL, 0);
    return tell("send", count);
}

int accept4(int socket, struct sockaddr *address, socklen_t *size, int flags) {
    errno = ECONNABORTED;
    return tell("accept",
                acceptances++ < set("ACCEPTS_ABORTED") ? -1 : syscall(SYS_accept4, socket, address, size, flags));
}

int setsockopt(int socket, int level, int name, const void *value, socklen_t size) {
    static const struct {
        int level, name;
        const char *call;
    } reported[] = {
        {IPPROTO_TCP, TCP_NODELAY, "nodelay"},
        {SOL_SOCKET, SO_KEEPALIVE, "keepalive"},
        {IPPROTO_TCP, TCP_KEEPIDLE, "keepidle"},
        {IPPROTO_TCP, TCP_KEEPINTVL, "keepintvl"},
        {IPPROTO_TCP, TCP_KEEPCNT, "keepcnt"},
    };
    for (size_t it = 0; it < sizeof reported / sizeof reported[0]; it++)
        if (reported[it].level == level && reported[it].name == name)
            tell(reported[it].call, *(const int *)value);
    return syscall(SYS_setsockopt, socket, level, name, value, size);
}
