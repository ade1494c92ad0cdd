/* Calls that fail while the program runs. FAIL_ACCEPT is a descriptor of a file: its first byte is the error of each
   accept4, 0 for none. FAIL_EPOLL is the same for epoll_ctl. With FAIL_IPV6, no socket of IPv6 can be made. A program
   that closes a standard stream ends with status 99. */
#define _GNU_SOURCE
#include <errno.h>
#include <stdlib.h>
#include <sys/epoll.h>
#include <sys/socket.h>
#include <sys/syscall.h>
#include <unistd.h>

/* Returns true, and sets errno, if a call fails now. */
static int fails(const char *name) {
    const char *file = getenv(name);
    unsigned char error = 0;
    if (!file || pread(atoi(file), &error, 1, 0) != 1 || !error)
        return 0;
    errno = error;
    return 1;
}

int accept4(int listener, struct sockaddr *address, socklen_t *length, int flags) {
    return fails("FAIL_ACCEPT") ? -1 : (int)syscall(SYS_accept4, listener, address, length, flags);
}

int epoll_ctl(int poll, int change, int file, struct epoll_event *event) {
    return fails("FAIL_EPOLL") ? -1 : (int)syscall(SYS_epoll_ctl, poll, change, file, event);
}

int socket(int domain, int type, int protocol) {
    if (domain == AF_INET6 && getenv("FAIL_IPV6")) {
        errno = EAFNOSUPPORT;
        return -1;
    }
    return (int)syscall(SYS_socket, domain, type, protocol);
}

int close(int file) {
    if (file <= STDERR_FILENO)
        _exit(99);
    return (int)syscall(SYS_close, file);
}
