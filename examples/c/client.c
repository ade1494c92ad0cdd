/* client URI [COUNT]: observes a resource over poll, and prints each notification in a line. After
   COUNT notifications it cancels the observation, and ends.
   Build: cc -std=c11 client.c $(pkg-config --cflags --libs dachreup) */
#define _POSIX_C_SOURCE 200809L
#include <dachreup.h>
#include <errno.h>
#include <netdb.h>
#include <poll.h>
#include <stdio.h>
#include <stdlib.h>
#include <string.h>
#include <sys/socket.h>
#include <unistd.h>

enum { DONE = 0, FAILED = 2, RUNNING = 3, ROOM = 4096, WAIT = 30000 };
static struct dachreup_client client;
static const char *uri;
static uint64_t token;
static long left = -1; /* notifications that are wanted still; -1: all */

/* Connects to the host and port of the URI. Returns a socket, or -1. */
static int connected(void) {
    static struct addrinfo wanted, *found;
    struct dachreup_place place;
    char host[256], port[16];
    int to = -1;
    dachreup_result result = dachreup_target(uri, strlen(uri), host, sizeof host, &place);
    if (result || strlen(host) != place.host) {
        fprintf(stderr, "client: no host to connect to: %s\n", dachreup_error_text(result));
        return -1;
    }
    wanted.ai_socktype = SOCK_STREAM;
    snprintf(port, sizeof port, "%u", (unsigned)place.port);
    if (getaddrinfo(host, port, &wanted, &found))
        return -1;
    for (struct addrinfo *one = found; one && to < 0; one = one->ai_next) {
        to = socket(one->ai_family, one->ai_socktype, one->ai_protocol);
        if (to >= 0 && connect(to, one->ai_addr, one->ai_addrlen)) {
            close(to);
            to = -1;
        }
    }
    freeaddrinfo(found);
    return to;
}

/* Writes queued bytes as far as the socket accepts them. Returns RUNNING or FAILED. */
static int flush(int to) {
    struct dachreup_parts parts;
    if (dachreup_client_parts(&client, &parts) || !parts.first.count)
        return RUNNING;
    ssize_t count = send(to, parts.first.at, parts.first.count, MSG_NOSIGNAL | MSG_DONTWAIT);
    if (count < 0)
        return errno == EAGAIN || errno == EINTR ? RUNNING : FAILED;
    return dachreup_client_written(&client, (size_t)count) ? FAILED : RUNNING;
}

static void print(const struct dachreup_event *event) {
    unsigned code = event->message.code;
    printf("%u.%02u ", code / 32, code % 32);
    fwrite(event->message.payload.at, 1, event->message.payload.count, stdout);
    puts("");
    fflush(stdout);
}

static int handle(const struct dachreup_event *event) {
    struct dachreup_request request = DACHREUP_REQUEST_OBSERVE;
    dachreup_result result = DACHREUP_OK;
    if (event->kind == DACHREUP_EVENT_STOPPED || event->kind == DACHREUP_EVENT_REJECTED)
        return FAILED;
    if (left == 0)
        return event->kind == DACHREUP_EVENT_RESPONSE ? DONE : RUNNING;
    if (event->kind == DACHREUP_EVENT_READY)
        result = dachreup_client_send(&client, &request, uri, strlen(uri), NULL, 0, &token);
    if (event->kind == DACHREUP_EVENT_RESPONSE || event->kind == DACHREUP_EVENT_NOTIFICATION)
        print(event);
    if (event->kind == DACHREUP_EVENT_NOTIFICATION && left > 0 && --left == 0)
        result = dachreup_client_cancel(&client, &request, uri, strlen(uri), token);
    if (result)
        fprintf(stderr, "client: %s\n", dachreup_error_text(result));
    return result || event->kind == DACHREUP_EVENT_RESPONSE ? FAILED : RUNNING;
}

/* Waits for bytes, offers them, and processes their events. */
static int turn(int from) {
    struct dachreup_client_snapshot status;
    struct dachreup_event event;
    uint8_t bytes[ROOM];
    int state = flush(from);
    if (state == FAILED || dachreup_client_status(&client, &status))
        return FAILED;
    struct pollfd ready = {from, (short)(status.waiting ? POLLIN | POLLOUT : POLLIN), 0};
    if (poll(&ready, 1, WAIT) <= 0)
        return FAILED;
    if ((ready.revents & ~POLLOUT) == 0)
        return RUNNING;
    ssize_t count = recv(from, bytes, sizeof bytes, 0);
    for (ssize_t at = 0; state == RUNNING && at < count; at += (ssize_t)event.bytes) {
        if (dachreup_client_take(&client, bytes + at, (size_t)(count - at), &event))
            return FAILED;
        state = event.bytes ? handle(&event) : FAILED; /* none: the server does not read */
    }
    return count > 0 ? state : FAILED;
}

int main(int count, char **words) {
    struct dachreup_limits limits = DACHREUP_LIMITS;
    if (count < 2 || count > 3 || (count == 3 && (left = atol(words[2])) < 1))
        return FAILED;
    uri = words[1];
    int peer = connected(), state = peer < 0 ? FAILED : RUNNING;
    if (dachreup_client_new(&client, &limits, 0))
        state = FAILED;
    while (state == RUNNING)
        state = turn(peer);
    dachreup_client_free(&client);
    close(peer);
    return state;
}
