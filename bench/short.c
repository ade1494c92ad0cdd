/* Preloaded library that lets each send of a program accept at most 1,000 bytes.

   A send that accepts fewer bytes than offered means that the socket has no space (epoll(7)). An edge-triggered program
   then waits for space. Therefore this library registers the socket again after a send that it shortened, so that the
   next wait reports space if there is any. */

#define _GNU_SOURCE

#include <stdbool.h>
#include <stddef.h>
#include <sys/epoll.h>
#include <sys/socket.h>
#include <sys/syscall.h>
#include <sys/types.h>
#include <unistd.h>

enum { MOST = 1000, SOCKETS = 1024 };

static struct {
    bool is_there;
    int epoll;
    struct epoll_event event;
} registrations[SOCKETS];

int epoll_ctl(int epoll, int what, int socket, struct epoll_event *event) {
    if (socket >= 0 && socket < SOCKETS) {
        registrations[socket].is_there = what != EPOLL_CTL_DEL;
        registrations[socket].epoll = epoll;
        if (event != NULL)
            registrations[socket].event = *event;
    }
    return (int)syscall(SYS_epoll_ctl, epoll, what, socket, event);
}

ssize_t send(int socket, const void *bytes, size_t size, int flags) {
    ssize_t count = syscall(SYS_sendto, socket, bytes, size < MOST ? size : (size_t)MOST, flags, NULL, 0);
    if (count == MOST && size > MOST && socket < SOCKETS && registrations[socket].is_there)
        syscall(SYS_epoll_ctl, registrations[socket].epoll, EPOLL_CTL_MOD, socket, &registrations[socket].event);
    return count;
}
