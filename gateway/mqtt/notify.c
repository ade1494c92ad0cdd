#include "notify.h"

#include <stdarg.h>
#include <stddef.h>
#include <stdio.h>
#include <stdlib.h>
#include <string.h>
#include <sys/socket.h>
#include <sys/un.h>
#include <unistd.h>

enum { TEXT_ROOM = 256 };

/* Returns a third of the time of the watchdog in milliseconds, if the watchdog is for this process, otherwise 0. */
static uint64_t period_of(const char *microseconds, const char *process) {
    if (!microseconds || (process && strtoll(process, NULL, 10) != getpid()))
        return 0;
    return strtoull(microseconds, NULL, 10) / 3000;
}

void notify_open(struct notify *notify) {
    struct sockaddr_un address = {.sun_family = AF_UNIX};
    const char *name = getenv("NOTIFY_SOCKET");
    size_t length = name ? strlen(name) : 0;
    *notify = (struct notify){.socket = -1, .period = period_of(getenv("WATCHDOG_USEC"), getenv("WATCHDOG_PID"))};
    if ((name && name[0] != '/' && name[0] != '@') || length < 2 || length >= sizeof address.sun_path)
        return;
    memcpy(address.sun_path, name, length);
    /* Linux has names without a file, whose first byte is 0. */
    if (name[0] == '@')
        address.sun_path[0] = 0;
    notify->socket = socket(AF_UNIX, SOCK_DGRAM | SOCK_NONBLOCK | SOCK_CLOEXEC, 0);
    socklen_t size = (socklen_t)(offsetof(struct sockaddr_un, sun_path) + length);
    if (notify->socket >= 0 && connect(notify->socket, (struct sockaddr *)&address, size) < 0)
        notify_close(notify);
}

void notify_close(struct notify *notify) {
    if (notify->socket >= 0)
        close(notify->socket);
    notify->socket = -1;
}

void notify_send(const struct notify *notify, const char *format, ...) {
    char text[TEXT_ROOM];
    if (notify->socket < 0)
        return;
    va_list arguments;
    va_start(arguments, format);
    int length = vsnprintf(text, sizeof text, format, arguments);
    va_end(arguments);
    if (length > 0 && length < TEXT_ROOM)
        send(notify->socket, text, (size_t)length, MSG_NOSIGNAL | MSG_DONTWAIT);
}

void notify_tick(struct notify *notify, uint64_t now) {
    if (!notify->period || now - notify->last < notify->period)
        return;
    notify->last = now;
    notify_send(notify, "WATCHDOG=1");
}
