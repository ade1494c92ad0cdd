/* A server and a client in one process, over a socketpair and with a clock of the program: a start
   for tests of a device. The server stores /inside; the program answers GET /slow, or does not.
   Build: cc -std=c11 socketpair.c $(pkg-config --cflags --libs dachreup) */
#define _POSIX_C_SOURCE 200809L
#include <dachreup.h>
#include <stdio.h>
#include <stdlib.h>
#include <string.h>
#include <sys/socket.h>

enum { ROOM = 4096, DEADLINE = 10, START = 1700000000 };
static struct dachreup_server server;
static struct dachreup_client client;
static int ends[2]; /* sockets of the server and of the client */
static uint64_t now = START, id;
static uint8_t token[64]; /* of the last request for /slow */
static size_t token_length;

/* Ends the program if a call failed. */
static void must(dachreup_result result) {
    if (result) {
        printf("%s\n", dachreup_error_text(result));
        exit(1);
    }
}

static void to_server(const uint8_t *bytes, size_t count) {
    struct dachreup_took took;
    struct dachreup_message request;
    for (size_t at = 0; at < count; at += took.bytes) {
        must(dachreup_server_take(&server, id, bytes + at, count - at, &took));
        if (took.request.count == 0)
            continue;
        must(dachreup_message_read(took.request.at, took.request.count, &request));
        token_length = request.token.count;
        memcpy(token, request.token.at, token_length);
    }
}

static void to_client(const uint8_t *bytes, size_t count) {
    struct dachreup_event event;
    for (size_t at = 0; at < count; at += event.bytes) {
        must(dachreup_client_take(&client, bytes + at, count - at, &event));
        unsigned code = event.message.code, time = (unsigned)(now - START);
        printf("%u s: event %u, code %u.%02u ", time, (unsigned)event.kind, code / 32, code % 32);
        fwrite(event.message.payload.at, 1, event.message.payload.count, stdout);
        puts("");
    }
}

/* Returns how many bytes the socket accepts: all, for it has room for them. */
static size_t sent(int to, struct dachreup_span bytes) {
    return (size_t)send(to, bytes.at, bytes.count, MSG_DONTWAIT);
}

/* Moves bytes both ways, until there are none. */
static void pump(void) {
    struct dachreup_parts parts;
    uint8_t bytes[ROOM];
    ssize_t count, other;
    do {
        must(dachreup_server_parts(&server, id, &parts));
        must(dachreup_server_written(&server, id, sent(ends[0], parts.first)));
        must(dachreup_client_parts(&client, &parts));
        must(dachreup_client_written(&client, sent(ends[1], parts.first)));
        count = recv(ends[0], bytes, sizeof bytes, MSG_DONTWAIT);
        to_server(bytes, count > 0 ? (size_t)count : 0);
        other = recv(ends[1], bytes, sizeof bytes, MSG_DONTWAIT);
        to_client(bytes, other > 0 ? (size_t)other : 0);
    } while (count > 0 || other > 0);
}

/* Sends a GET. Returns its token. */
static uint64_t get(const char *uri, uint32_t flags) {
    struct dachreup_request request = DACHREUP_REQUEST_GET;
    uint64_t number = 0;
    request.flags = flags;
    must(dachreup_client_send(&client, &request, uri, strlen(uri), NULL, 0, &number));
    pump();
    return number;
}

static void respond(const char *payload) {
    struct dachreup_message response;
    uint8_t bytes[128];
    size_t length = 0;
    response = dachreup_message_of(DACHREUP_CODE(2, 5), dachreup_span_of(token, token_length));
    response.payload = dachreup_span_of(payload, strlen(payload));
    must(dachreup_message_write(&response, bytes, sizeof bytes, &length));
    must(dachreup_server_respond(&server, id, bytes, length, NULL));
    pump();
}

int main(void) {
    struct dachreup_settings settings = dachreup_settings_at(1, now);
    struct dachreup_limits limits = DACHREUP_LIMITS;
    struct dachreup_applications entries = {0};
    must(dachreup_applications_new(&entries, DEADLINE));
    must(dachreup_applications_add(&entries, "slow", 4, 1 << DACHREUP_GET, NULL, 0));
    must(dachreup_server_new_for(&server, &settings, &entries));
    must(dachreup_server_open(&server, &id));
    must(dachreup_client_new(&client, &limits, 0));
    if (socketpair(AF_UNIX, SOCK_STREAM, 0, ends))
        return 1;
    pump();
    must(dachreup_server_put(&server, "inside", 6, 0, "20", 2, NULL));
    get("coap+tcp://device/inside", DACHREUP_OBSERVE);
    must(dachreup_server_put(&server, "inside", 6, 0, "21", 2, NULL));
    get("coap+tcp://device/slow", 0);
    respond("done");
    get("coap+tcp://device/slow", 0);
    must(dachreup_server_next_deadline(&server, &now));
    must(dachreup_server_tick(&server, now));
    pump(); /* 5.04: the program did not respond */
    must(dachreup_client_forget(&client, get("coap+tcp://device/slow", 0)));
    respond("late");
    dachreup_client_free(&client);
    dachreup_server_free(&server);
}
