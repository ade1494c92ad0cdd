/* server [PORT [SECONDS]]: /inside and /outside count up, and the program answers PUT /valve.
   Build: cc -std=c11 server.c $(pkg-config --cflags --libs dachreup) */
#define _POSIX_C_SOURCE 200809L
#include <dachreup.h>
#include <errno.h>
#include <netdb.h>
#include <poll.h>
#include <stdio.h>
#include <stdlib.h>
#include <string.h>
#include <sys/socket.h>
#include <time.h>
#include <unistd.h>

enum { PLACES = 18, LARGEST = 65536 }; /* the listener, 16 connections, and one that is refused */
static struct dachreup_server server;
static struct pollfd sockets[PLACES] = {{-1, POLLIN, 0}};
static uint64_t ids[PLACES]; /* of the connections */
static size_t used = 1;

/* Stores a measured value, and notifies its observers. Without memory, the last one stays. */
static void measure(const char *path, uint64_t value) {
    char text[32];
    size_t length = (size_t)snprintf(text, sizeof text, "%llu", (unsigned long long)value);
    dachreup_ignore(dachreup_server_put(&server, path, strlen(path), 0, text, length, NULL));
}

/* Returns the code that refuses a request for its options, or 0. The library leaves these checks to
   the program, which has no /valve/x and supports no conditions. Odd numbers are critical. */
static uint32_t refusal_of(struct dachreup_span options) {
    struct dachreup_span value;
    size_t at = 0, segments = 0;
    uint32_t number = 0;
    while (!dachreup_option_next(options.at, options.count, &at, &number, &value)) {
        int is_path = number == DACHREUP_NUMBER_URI_PATH;
        if ((is_path && ++segments > 1) || number == DACHREUP_NUMBER_URI_QUERY)
            return DACHREUP_CODE(4, 4);
        if (number % 2 && !is_path && number != DACHREUP_NUMBER_URI_HOST &&
            number != DACHREUP_NUMBER_URI_PORT)
            return DACHREUP_CODE(4, 2);
    }
    return 0;
}

/* Answers PUT /valve, if it was taken. It is lent until the next call on the server, so copied. */
static void answer(uint64_t id, struct dachreup_span request) {
    static uint8_t copy[LARGEST], response[67];
    struct dachreup_message put;
    size_t length = 0;
    memcpy(copy, request.at, request.count);
    if (dachreup_message_read(copy, request.count, &put))
        return;
    struct dachreup_span state = put.payload;
    uint32_t code = refusal_of(put.options);
    if (!code && (state.count > 4 ||
                  dachreup_server_put(&server, "valve", 5, 0, state.at, state.count, NULL)))
        code = DACHREUP_CODE(4, 13);
    put = dachreup_message_of(code ? code : DACHREUP_CODE(2, 4), put.token);
    if (!dachreup_message_write(&put, response, sizeof response, &length))
        dachreup_ignore(dachreup_server_respond(&server, id, response, length, NULL));
}

/* Offers received bytes to the server. Those that it does not accept yet stay in the socket, and
   the end of the input comes after them. Returns 0 if the connection failed. */
static int receive(uint64_t id, int from) {
    uint8_t bytes[4096];
    struct dachreup_took took;
    ssize_t count = recv(from, bytes, sizeof bytes, MSG_PEEK | MSG_DONTWAIT);
    if (count <= 0)
        return count ? errno == EAGAIN : !dachreup_server_ended(&server, id);
    if (dachreup_server_take(&server, id, bytes, (size_t)count, &took) || took.memory)
        return 0;
    answer(id, took.request);
    return recv(from, bytes, took.bytes, 0) == (ssize_t)took.bytes;
}

/* Writes queued bytes as far as the socket accepts them. Returns 0 if the connection failed. */
static int flush(uint64_t id, int to) {
    struct dachreup_parts parts;
    if (dachreup_server_parts(&server, id, &parts))
        return 0;
    ssize_t count = send(to, parts.first.at, parts.first.count, MSG_NOSIGNAL | MSG_DONTWAIT);
    return count < 0 ? errno == EAGAIN : !dachreup_server_written(&server, id, (size_t)count);
}

/* Closes a socket. Unread input would reset the connection, and the client could lose responses. */
static void hang_up(int from) {
    uint8_t bytes[16384];
    shutdown(from, SHUT_WR);
    for (int reads = 0; reads < 64 && recv(from, bytes, sizeof bytes, MSG_DONTWAIT) > 0; reads++) {
    }
    close(from);
}

/* Moves bytes, and then waits for output that can move, or input unless the client released it. */
static void serve(size_t at, int is_ready) {
    struct dachreup_status status;
    if ((!is_ready || receive(ids[at], sockets[at].fd)) && flush(ids[at], sockets[at].fd) &&
        !dachreup_server_status(&server, ids[at], &status) && !status.finished) {
        sockets[at].events = status.waiting ? POLLOUT : (status.reason ? 0 : POLLIN);
        return;
    }
    dachreup_ignore(dachreup_server_drop(&server, ids[at]));
    hang_up(sockets[at].fd);
    sockets[at] = sockets[--used];
    ids[at] = ids[used];
}

int main(int count, char **words) {
    static struct dachreup_applications own;
    struct addrinfo *at;
    uint64_t start = (uint64_t)time(NULL), last = 0, id;
    uint64_t seconds = count > 2 ? strtoull(words[2], NULL, 10) : UINT64_MAX;
    struct dachreup_settings settings = dachreup_settings_at(3, start);
    int yes = 1, listener = socket(AF_INET, SOCK_STREAM | SOCK_NONBLOCK, 0);
    if (dachreup_applications_new(&own, 10) ||
        dachreup_applications_add(&own, "valve", 5, 1 << DACHREUP_PUT, NULL, 0) ||
        dachreup_server_new_for(&server, &settings, &own) ||
        getaddrinfo("127.0.0.1", count > 1 ? words[1] : "5683", NULL, &at) ||
        setsockopt(listener, SOL_SOCKET, SO_REUSEADDR, &yes, sizeof yes) ||
        bind(listener, at->ai_addr, at->ai_addrlen) || listen(listener, PLACES))
        return 1;
    freeaddrinfo(at);
    sockets[0].fd = listener;
    for (uint64_t now = start; now - start < seconds; now = (uint64_t)time(NULL)) {
        if (now > last) {
            last = now;
            dachreup_ignore(dachreup_server_tick(&server, now));
            measure("inside", now - start);
            measure("outside", 2 * (now - start));
        }
        while (!dachreup_server_next_output(&server, &id))
            for (size_t place = used; place-- > 1;)
                if (ids[place] == id)
                    serve(place, 0);
        poll(sockets, used, 200);
        for (size_t place = used; place-- > 1;)
            if (sockets[place].revents)
                serve(place, 1);
        int peer = accept(listener, NULL, NULL);
        if (peer >= 0 && !dachreup_server_open(&server, &ids[used]))
            sockets[used++].fd = peer;
        else if (peer >= 0)
            close(peer);
    }
    dachreup_server_free(&server);
}
