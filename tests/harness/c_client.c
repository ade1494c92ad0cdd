/* The client of the C library with its server in one program, its messages, and wrong uses of their calls. Run by
   tests/system/c_library.py.

       c_client pair        prints the events of requests, an observation and a Ping; a call that lacks memory is made
                            once more
       c_client messages    reads records of two bytes of length and a frame; prints the numbers of the errors, and
                            each frame that is written otherwise than it was read
       c_client wraps       sends PUTs of 3,000 bytes, and writes the bytes that the client queued
       c_client wrong       prints each check that fails */
#include "c_checks.h"
#include <dachreup.h>
#include <stdio.h>
#include <stdlib.h>
#include <string.h>

static struct dachreup_server server;
static struct dachreup_client client;
static uint64_t id;

/* Calls that allocate are made again once if an allocation failed. */
#define AGAIN(call) ((number = (call)) == DACHREUP_MEMORY ? (number = (call)) : number)

#define TEXT(text) (text), sizeof(text) - 1

static void print(const struct dachreup_event *event) {
    printf("kind %u token %llu reason %u option %u custody %u", (unsigned)event->kind, (unsigned long long)event->token,
           (unsigned)event->reason, (unsigned)event->option, (unsigned)event->custody);
    if (event->message.code) {
        struct dachreup_span value;
        size_t at = 0;
        uint32_t option = 0;
        printf(" code %u token %zu", (unsigned)event->message.code, event->message.token.count);
        while (!dachreup_option_next(event->message.options.at, event->message.options.count, &at, &option, &value))
            printf(" %u:%zu", (unsigned)option, value.count);
        printf(" '%.*s'", (int)event->message.payload.count, (const char *)event->message.payload.at);
    }
    putchar('\n');
}

/* Moves the client's queued bytes to the server, one byte at a time. */
static int to_server(void) {
    struct dachreup_parts parts;
    struct dachreup_took took;
    while (!dachreup_client_parts(&client, &parts) && parts.first.count + parts.second.count) {
        uint8_t byte = *parts.first.at;
        do
            if (dachreup_server_take(&server, id, &byte, 1, &took))
                return 1;
        while (took.memory && took.bytes == 0);
        if (took.bytes != 1 || dachreup_client_written(&client, 1))
            return 1;
    }
    return 0;
}

/* Moves the server's queued bytes to the client, in pieces of this size. */
static int to_client(size_t size) {
    struct dachreup_parts parts;
    static uint8_t bytes[1 << 16];
    while (!dachreup_server_parts(&server, id, &parts) && parts.first.count + parts.second.count) {
        size_t count = parts.first.count < size ? parts.first.count : size;
        struct dachreup_event event;
        memcpy(bytes, parts.first.at, count);
        if (dachreup_client_take(&client, bytes, count, &event) || event.bytes == 0)
            return 1;
        if (event.kind)
            print(&event);
        if (dachreup_server_written(&server, id, event.bytes))
            return 1;
    }
    return 0;
}

static int exchange(size_t size) {
    return to_server() || to_client(size) || to_server() || to_client(size);
}

static int pair(size_t size) {
    struct dachreup_settings settings = DACHREUP_SETTINGS(4);
    struct dachreup_limits limits = DACHREUP_LIMITS;
    struct dachreup_request get = DACHREUP_REQUEST_GET, observe = DACHREUP_REQUEST_OBSERVE,
                            put = {DACHREUP_PUT, 0, 40, DACHREUP_NO_FORMAT};
    struct dachreup_place place = {0, 0, 0};
    uint64_t token = 0, version = 0;
    uint32_t number;
    char host[16] = {0};
    if (AGAIN(dachreup_target(TEXT("coap+tcp://[::1]:70/a"), host, sizeof host, &place)))
        return 1;
    printf("%s %zu %u %u\n", host, place.host, (unsigned)place.is_address, (unsigned)place.port);
    if (AGAIN(dachreup_server_new(&server, &settings)) || AGAIN(dachreup_server_open(&server, &id)) ||
        AGAIN(dachreup_client_new(&client, &limits, 299)))
        return 2;
    if (exchange(size) || AGAIN(dachreup_client_announce(&client, 131072)) ||
        AGAIN(dachreup_client_send(&client, &put, TEXT("coap+tcp://a/b/c?d"), TEXT("one"), &token)) || exchange(size))
        return 3;
    if (AGAIN(dachreup_server_put(&server, TEXT("a"), 0, TEXT("first"), &version)))
        return 4;
    if (AGAIN(dachreup_client_send(&client, &observe, TEXT("coap+tcp://h/a"), TEXT(""), &token)) || exchange(size))
        return 5;
    if (AGAIN(dachreup_server_put(&server, TEXT("a"), 0, TEXT("second"), &version)) || exchange(size) ||
        dachreup_client_ping(&client, 1, &version))
        return 6;
    if (exchange(size) || AGAIN(dachreup_client_cancel(&client, &observe, TEXT("coap+tcp://h/a"), token)) ||
        exchange(size))
        return 7;
    if (AGAIN(dachreup_client_send(&client, &get, TEXT("coap+tcp://h/none"), TEXT(""), &token)) || exchange(size))
        return 8;
    struct dachreup_client_snapshot status = {0};
    if (dachreup_server_release(&server, id) || exchange(size) || dachreup_client_ended(&client) ||
        dachreup_client_status(&client, &status))
        return 9;
    printf("phase %u reason %u waiting %zu outstanding %zu\n", (unsigned)status.phase, (unsigned)status.reason,
           status.waiting, status.outstanding);
    dachreup_client_free(&client);
    dachreup_server_free(&server);
    return fflush(stdout) != 0;
}

/* Writes the message of a frame again, and returns 1 if that gives other bytes. */
static int differs(const uint8_t *frame, size_t length, const struct dachreup_message *message) {
    static uint8_t options[1 << 16], written[1 << 16];
    struct dachreup_span value;
    size_t at = 0, used = 0, count = 0;
    uint32_t number = 0, last = 0, result;
    while (!(result = dachreup_option_next(message->options.at, message->options.count, &at, &number, &value)))
        if (dachreup_option_write(options, sizeof options, &used, &last, number, value.at, value.count))
            return 1;
    if (result != DACHREUP_NO_MORE || used != message->options.count)
        return 1;
    struct dachreup_message again = *message;
    again.options = dachreup_span_of(options, used);
    if (dachreup_message_write(&again, written, sizeof written, &count))
        return 1;
    if (count && dachreup_message_write(&again, written, count - 1, &count) != DACHREUP_NO_ROOM)
        return 1;
    return count != length || memcmp(frame, written, count);
}

static int messages(void) {
    static uint8_t frame[1 << 16];
    uint8_t size[2];
    while (fread(size, 1, 2, stdin) == 2) {
        size_t length = size[0] * 256u + size[1];
        /* A copy of its own size, so that AddressSanitizer sees each read after its end. */
        uint8_t *bytes = malloc(length ? length : 1);
        struct dachreup_message message;
        if (!bytes || fread(frame, 1, length, stdin) != length)
            return 1;
        memcpy(bytes, frame, length);
        uint32_t number = dachreup_message_read(bytes, length, &message);
        printf("%u\n", (unsigned)number);
        if (!number && differs(bytes, length, &message))
            printf("another encoding\n");
        struct dachreup_span value;
        size_t at = 0;
        for (uint32_t option = 0; !dachreup_option_next(bytes, length, &at, &option, &value);)
            if (value.at < bytes || value.at + value.count > bytes + length || at > length)
                printf("outside\n");
        free(bytes);
    }
    return fflush(stdout) != 0;
}

/* Sends PUTs until the client's queue has wrapped, and writes all queued bytes. A response follows each request. */
static int wraps(void) {
    static uint8_t payload[3000];
    struct dachreup_limits limits = DACHREUP_LIMITS;
    struct dachreup_request put = DACHREUP_REQUEST(DACHREUP_PUT);
    struct dachreup_event event;
    struct dachreup_parts parts;
    uint64_t token = 0;
    size_t wrapped = 0, whole = 0;
    if (dachreup_client_new(&client, &limits, 0) ||
        dachreup_client_take(&client, TEXT("\x40\xe1\x23\x01\x00\x00"), &event))
        return 1;
    for (uint8_t number = 1; number <= 100; number++) {
        uint8_t response[3] = {0x01, 0x44, number};
        for (size_t at = 0; at < sizeof payload; at++)
            payload[at] = (uint8_t)(number + at / 7);
        if (dachreup_client_send(&client, &put, TEXT("coap+tcp://h/a"), payload, sizeof payload, &token) ||
            dachreup_client_parts(&client, &parts) || parts.first.count == 0)
            return 2;
        wrapped += parts.first.count && parts.second.count;
        whole = parts.first.count + parts.second.count;
        if (fwrite(parts.first.at, 1, parts.first.count, stdout) != parts.first.count ||
            fwrite(parts.second.at, 1, parts.second.count, stdout) != parts.second.count)
            return 3;
        if (dachreup_client_written(&client, whole) || dachreup_client_take(&client, response, 3, &event) ||
            event.kind != DACHREUP_EVENT_RESPONSE)
            return 4;
    }
    dachreup_client_free(&client);
    return wrapped < 2 || fflush(stdout) != 0;
}

static void empty(void) {
    struct dachreup_request get = DACHREUP_REQUEST_GET;
    struct dachreup_event event;
    struct dachreup_parts parts;
    struct dachreup_client_snapshot status;
    uint64_t token = 7;
    memset(&event, 9, sizeof event);
    check("empty send", dachreup_client_send(&client, &get, TEXT("coap+tcp://a"), TEXT(""), &token), DACHREUP_EMPTY);
    check("empty cancel", dachreup_client_cancel(&client, &get, TEXT("coap+tcp://a"), 1), DACHREUP_EMPTY);
    check("empty ping", dachreup_client_ping(&client, 0, &token), DACHREUP_EMPTY);
    check("empty take", dachreup_client_take(&client, TEXT("abc"), &event), DACHREUP_EMPTY);
    check("event",
          (uint32_t)(event.bytes + event.kind + event.reason + event.option + event.custody + event.token) +
              event.message.code,
          0);
    check("spans", (uint32_t)(event.message.token.count + event.message.options.count + event.message.payload.count),
          0);
    check("addresses", event.message.token.at && event.message.options.at && event.message.payload.at, 1);
    check("empty parts", dachreup_client_parts(&client, &parts), DACHREUP_EMPTY);
    check("empty written", dachreup_client_written(&client, 0), DACHREUP_EMPTY);
    check("empty ended", dachreup_client_ended(&client), DACHREUP_EMPTY);
    check("empty status", dachreup_client_status(&client, &status), DACHREUP_EMPTY);
    check("token", (uint32_t)token, 7);
    dachreup_client_free(&client);
}

static void ranges(void) {
    struct dachreup_limits limits = DACHREUP_LIMITS;
    size_t *values[6] = {&limits.max_message, &limits.max_sent,  &limits.queue,
                         &limits.pending,     &limits.observers, &limits.outstanding};
    for (uint32_t at = 0; at < 6; at++) {
        size_t before = *values[at];
        *values[at] = (size_t)1 << 40;
        check("range", dachreup_client_new(&client, &limits, 0), DACHREUP_MAX_MESSAGE + at);
        *values[at] = before;
    }
}

static void targets(void) {
    struct dachreup_place place = {1, 2, 3};
    char host[8];
    static const struct {
        const char *uri;
        uint32_t wanted;
    } uris[] = {
        {"x", DACHREUP_URI_URL}, {"\xff\xfe", DACHREUP_URI_URL}, {"coap://a", DACHREUP_URI_SCHEME},
        {"coap+tcp:a", DACHREUP_URI_NO_HOST}, {"coap+tcp://u@a", DACHREUP_URI_USER_INFO},
        {"coap+tcp://a#f", DACHREUP_URI_FRAGMENT},
        {"coap+tcp://a/1/2/3/4/5/6/7/8/9/a/b/c/d/e/f/g/h", DACHREUP_URI_TOO_MANY_PARTS},
        {"coap+tcp://12345678", DACHREUP_NO_ROOM}, {"coap+tcp://1234567", 0}};
    for (size_t at = 0; at < sizeof uris / sizeof *uris; at++)
        check(uris[at].uri,
              dachreup_target(uris[at].uri, strlen(uris[at].uri), host, sizeof host, &place),
              uris[at].wanted);
    check("host", (uint32_t)memcmp(host, "1234567", 8) + (uint32_t)place.host * 10 + place.is_address, 70);
    check("port", place.port, 5683);
}

static void requests(void) {
    struct dachreup_limits limits = DACHREUP_LIMITS;
    struct dachreup_request get = DACHREUP_REQUEST_GET, other = DACHREUP_REQUEST_GET;
    struct dachreup_event event;
    struct dachreup_parts parts;
    uint64_t token = 7;
    limits.outstanding = 1;
    check("new", dachreup_client_new(&client, &limits, 0), 0);
    check("new again", dachreup_client_new(&client, &limits, 0), DACHREUP_OCCUPIED);
    check("not open", dachreup_client_send(&client, &get, TEXT("coap+tcp://a"), TEXT(""), &token),
          DACHREUP_NOT_OPEN);
    check("ping not open", dachreup_client_ping(&client, 0, &token), DACHREUP_NOT_OPEN);
    check("cancel not open", dachreup_client_cancel(&client, &get, TEXT("coap+tcp://a"), 1), DACHREUP_NOT_OPEN);
    check("take", dachreup_client_take(&client, TEXT("\x00\xe1"), &event), 0);
    check("ready", event.kind * 10 + (uint32_t)event.bytes, 12);
    other.method = 5;
    check("method", dachreup_client_send(&client, &other, TEXT("coap+tcp://a"), TEXT(""), &token),
          DACHREUP_NOT_A_CHOICE);
    other.method = 0;
    check("no method", dachreup_client_cancel(&client, &other, TEXT("coap+tcp://a"), 1), DACHREUP_NOT_A_CHOICE);
    other = get;
    for (other.flags = 4; other.flags; other.flags <<= 1)
        check("another flag", dachreup_client_send(&client, &other, TEXT("coap+tcp://a"), TEXT(""), &token),
              DACHREUP_NOT_A_CHOICE);
    check("custody", dachreup_client_ping(&client, 2, &token), DACHREUP_NOT_A_CHOICE);
    check("uri", dachreup_client_send(&client, &get, TEXT("coap://a"), TEXT(""), &token), DACHREUP_URI_SCHEME);
    check("token unchanged", (uint32_t)token, 7);
    check("send", dachreup_client_send(&client, &get, TEXT("coap+tcp://a"), TEXT(""), &token), 0);
    check("token", (uint32_t)token, 1);
    check("too many", dachreup_client_send(&client, &get, TEXT("coap+tcp://a"), TEXT(""), &token),
          DACHREUP_REQUEST_TOO_MANY);
    check("no such token", dachreup_client_cancel(&client, &get, TEXT("coap+tcp://a"), 1),
          DACHREUP_REQUEST_NO_SUCH_TOKEN);
    check("parts", dachreup_client_parts(&client, &parts), 0);
    check("too many written", dachreup_client_written(&client, parts.first.count + parts.second.count + 1),
          DACHREUP_TOO_MANY);
    check("all written", dachreup_client_written(&client, parts.first.count + parts.second.count), 0);
    check("stranger", dachreup_client_take(&client, TEXT("\x01\x45\x09"), &event), 0);
    check("stranger event", event.kind, DACHREUP_EVENT_STRANGER);
    check("critical", dachreup_client_take(&client, TEXT("\x21\x45\x01\xd0\xf8"), &event), 0);
    check("rejected", event.kind * 1000 + event.option + (uint32_t)event.token, 4262);
    check("broken", dachreup_client_take(&client, TEXT("\x0f\xe1"), &event), 0);
    check("stopped", event.kind * 100 + event.reason, 703);
    check("nothing more", dachreup_client_take(&client, TEXT("\x00\xe1"), &event), 0);
    check("no event", event.kind + (uint32_t)event.bytes, 0);
    dachreup_client_free(&client);
}

/* The message of an event stays until the next take, ended or free, whole or in two pieces. */
static void loans(size_t split) {
    static const uint8_t response[5] = {0x21, 0x45, 0x01, 0xff, 'x'};
    struct dachreup_limits limits = DACHREUP_LIMITS;
    struct dachreup_request get = DACHREUP_REQUEST_GET;
    struct dachreup_client_snapshot status;
    struct dachreup_parts parts;
    struct dachreup_event event;
    uint64_t token = 0;
    check("new", dachreup_client_new(&client, &limits, 0), 0);
    check("CSM", dachreup_client_take(&client, TEXT("\x00\xe1"), &event), 0);
    check("send", dachreup_client_send(&client, &get, TEXT("coap+tcp://a"), TEXT(""), &token), 0);
    if (split)
        check("first piece", dachreup_client_take(&client, response, split, &event), 0);
    check("response", dachreup_client_take(&client, response + split, sizeof response - split, &event), 0);
    check("kind", event.kind, DACHREUP_EVENT_RESPONSE);
    check("in the input", event.message.payload.at == response + 4, split == 0);
    check("send again", dachreup_client_send(&client, &get, TEXT("coap+tcp://a"), TEXT("x"), &token), 0);
    check("cancel", dachreup_client_cancel(&client, &get, TEXT("coap+tcp://a"), 9), DACHREUP_REQUEST_NO_SUCH_TOKEN);
    check("ping", dachreup_client_ping(&client, 0, &token), 0);
    check("parts", dachreup_client_parts(&client, &parts), 0);
    check("written", dachreup_client_written(&client, parts.first.count + parts.second.count), 0);
    check("status", dachreup_client_status(&client, &status), 0);
    check("token", event.message.token.count == 1 && *event.message.token.at == 1, 1);
    check("no options", event.message.options.count == 0 && event.message.options.at != NULL, 1);
    check("payload", event.message.payload.count == 1 && *event.message.payload.at == 'x', 1);
    dachreup_client_free(&client);
}

static void reading(void) {
    static const uint8_t options[3] = {0x00, 0xb1, 'a'};
    struct dachreup_span value = {options, 9};
    size_t at = 0;
    uint32_t number = 0;
    check("an empty value", dachreup_option_next(options, 3, &at, &number, &value), 0);
    check("where", (uint32_t)at * 100 + number * 10 + (uint32_t)value.count, 100);
    check("in the options", value.at == options + 1, 1);
    check("truncated", dachreup_option_next(options, 2, &at, &number, &value), DACHREUP_OPTION_MALFORMED);
    check("unchanged", (uint32_t)at * 100 + number * 10 + (uint32_t)value.count, 100);
    check("option", dachreup_option_next(options, 3, &at, &number, &value), 0);
    check("end", dachreup_option_next(options, 3, &at, &number, &value), DACHREUP_NO_MORE);
    check("last", (uint32_t)at * 1000 + number * 10 + (uint32_t)value.count, 3111);
}

#define SPAN(text) dachreup_span_of((text), sizeof(text) - 1)

static dachreup_result write_message(uint32_t code, struct dachreup_span token, struct dachreup_span options,
                                     struct dachreup_span payload, uint8_t *buffer, size_t room, size_t *length) {
    struct dachreup_message message = dachreup_message_of(code, token);
    message.options = options;
    message.payload = payload;
    return dachreup_message_write(&message, buffer, room, length);
}

static void writing(void) {
    static uint8_t large[1 << 21];
    uint8_t bytes[8] = {0};
    size_t used = 0;
    uint32_t last = 0;
    check("number", dachreup_option_write(bytes, 8, &used, &last, 65536, TEXT("a")), DACHREUP_OPTION_NUMBER);
    check("value", dachreup_option_write(bytes, 8, &used, &last, 1, large, 65805), DACHREUP_OPTION_TOO_LONG);
    check("room", dachreup_option_write(bytes, 2, &used, &last, 11, TEXT("ab")), DACHREUP_NO_ROOM);
    check("option", dachreup_option_write(bytes, 8, &used, &last, 11, TEXT("ab")), 0);
    check("used", (uint32_t)used * 100 + last, 311);
    check("order", dachreup_option_write(bytes, 8, &used, &last, 10, TEXT("ab")), DACHREUP_OPTION_ORDER);
    used = 9;
    check("past the end", dachreup_option_write(bytes, 8, &used, &last, 12, TEXT("")), DACHREUP_NO_ROOM);
    check("code", write_message(256, SPAN(""), SPAN(""), SPAN(""), bytes, 8, &used), DACHREUP_WRITE_CODE);
    check("token length", write_message(1, dachreup_span_of(large, 65), SPAN(""), SPAN(""), bytes, 8, &used),
          DACHREUP_WRITE_TOKEN);
    check("options", write_message(1, SPAN(""), SPAN("\xb1"), SPAN(""), bytes, 8, &used), DACHREUP_WRITE_OPTIONS);
    check("marker", write_message(1, SPAN(""), SPAN("\xff\x01"), SPAN(""), bytes, 8, &used), DACHREUP_WRITE_OPTIONS);
    check("size", write_message(1, SPAN(""), SPAN(""), dachreup_span_of(large, 1048576), bytes, 8, &used),
          DACHREUP_WRITE_TOO_LARGE);
    check("no room", write_message(1, SPAN(""), SPAN("\xb2\x61\x62"), SPAN("x"), bytes, 6, &used), DACHREUP_NO_ROOM);
    check("length unchanged", (uint32_t)used, 9);
    check("message", write_message(1, SPAN("t"), SPAN("\xb1\x61"), SPAN("x"), bytes, 8, &used), 0);
    check("bytes", (uint32_t)memcmp(bytes, "\x41\x01t\xb1\x61\xffx\x00", 8) + (uint32_t)used, 7);
}

/* Takes the bytes of the peer, and returns the kind of the event. */
static uint32_t kind_of(const char *bytes, size_t length, uint64_t *token) {
    struct dachreup_event event;
    check("take", dachreup_client_take(&client, bytes, length, &event), 0);
    check("all bytes", (uint32_t)event.bytes, (uint32_t)length);
    *token = event.token;
    return event.kind;
}

static size_t waiting(void) {
    struct dachreup_client_snapshot status = {0};
    check("status", dachreup_client_status(&client, &status), 0);
    return status.waiting;
}

/* Writes all queued bytes. Checks the last ones. */
static void drained(const char *what, const char *bytes, size_t length) {
    struct dachreup_parts parts;
    check("parts", dachreup_client_parts(&client, &parts), 0);
    check_end(what, &parts, bytes, length);
    check("written", dachreup_client_written(&client, parts.first.count + parts.second.count), 0);
}

/* A program that gives up requests, an observation and a Ping. Responses that come later are a stranger's. */
static void forgets(void) {
    struct dachreup_limits limits = DACHREUP_LIMITS;
    struct dachreup_request get = DACHREUP_REQUEST_GET, observe = DACHREUP_REQUEST_OBSERVE;
    struct dachreup_client_snapshot status;
    uint64_t tokens[4] = {0}, token = 0;
    limits.outstanding = 4;
    check("empty forget", dachreup_client_forget(&client, 1), DACHREUP_EMPTY);
    check("new", dachreup_client_new(&client, &limits, 0), 0);
    check("nothing to forget", dachreup_client_forget(&client, 1), DACHREUP_REQUEST_NO_SUCH_TOKEN);
    check("ready", kind_of(TEXT("\x00\xe1"), &token), DACHREUP_EVENT_READY);
    check("first", dachreup_client_send(&client, &get, TEXT("coap+tcp://a/1"), NULL, 0, &tokens[0]), 0);
    check("second", dachreup_client_send(&client, &get, TEXT("coap+tcp://a/2"), NULL, 0, &tokens[1]), 0);
    check("observation", dachreup_client_send(&client, &observe, TEXT("coap+tcp://a/3"), NULL, 0, &tokens[2]), 0);
    check("Ping", dachreup_client_ping(&client, 0, &tokens[3]), 0);
    check("a fifth one", dachreup_client_send(&client, &get, TEXT("coap+tcp://a"), NULL, 0, NULL),
          DACHREUP_REQUEST_TOO_MANY);
    size_t queued = waiting();
    check("forget the first one", dachreup_client_forget(&client, tokens[0]), 0);
    check("twice", dachreup_client_forget(&client, tokens[0]), DACHREUP_REQUEST_NO_SUCH_TOKEN);
    check("none of these", dachreup_client_forget(&client, 99), DACHREUP_REQUEST_NO_SUCH_TOKEN);
    check("no message", (uint32_t)waiting(), (uint32_t)queued);
    check("late", kind_of(TEXT("\x01\x45\x01"), &token), DACHREUP_EVENT_STRANGER);
    check("another one", dachreup_client_send(&client, &get, TEXT("coap+tcp://a"), NULL, 0, &token), 0);
    check("its token", (uint32_t)token, 5);
    check("the second one", kind_of(TEXT("\x01\x45\x02"), &token), DACHREUP_EVENT_RESPONSE);
    check("notification", kind_of(TEXT("\x21\x45\x03\x61\x01"), &token), DACHREUP_EVENT_NOTIFICATION);
    check("forget the observation", dachreup_client_forget(&client, tokens[2]), 0);
    check("late notification", kind_of(TEXT("\x21\x45\x03\x61\x02"), &token), DACHREUP_EVENT_STRANGER);
    check("cancel it", dachreup_client_cancel(&client, &observe, TEXT("coap+tcp://a/3"), tokens[2]),
          DACHREUP_REQUEST_NO_SUCH_TOKEN);
    check("forget the Ping", dachreup_client_forget(&client, tokens[3]), 0);
    check("late Pong", kind_of(TEXT("\x01\xe3\x04"), &token), DACHREUP_EVENT_STRANGER);
    check("status", dachreup_client_status(&client, &status), 0);
    check("outstanding", (uint32_t)status.outstanding, 1);
    check("the last one", kind_of(TEXT("\x01\x45\x05"), &token), DACHREUP_EVENT_RESPONSE);
    check("its number", (uint32_t)token, 5);
    dachreup_client_free(&client);
}

/* A client releases the connection. */
static void releases(void) {
    struct dachreup_limits limits = DACHREUP_LIMITS;
    struct dachreup_request get = DACHREUP_REQUEST_GET;
    struct dachreup_client_snapshot status;
    uint64_t token = 0;
    check("empty release", dachreup_client_release(&client), DACHREUP_EMPTY);
    check("new", dachreup_client_new(&client, &limits, 0), 0);
    check("release before the CSM", dachreup_client_release(&client), DACHREUP_NOT_OPEN);
    check("ready", kind_of(TEXT("\x00\xe1"), &token), DACHREUP_EVENT_READY);
    check("release", dachreup_client_release(&client), 0);
    drained("released", "\x00\xe4", 2);
    check("status", dachreup_client_status(&client, &status), 0);
    check("phase", status.phase * 100 + status.reason, DACHREUP_PHASE_STOPPED * 100 + DACHREUP_REASON_RELEASED_HERE);
    check("release again", dachreup_client_release(&client), DACHREUP_NOT_OPEN);
    check("send", dachreup_client_send(&client, &get, TEXT("coap+tcp://a"), NULL, 0, NULL), DACHREUP_NOT_OPEN);
    dachreup_client_free(&client);
}

/* A client announces the size of the messages that it accepts. */
static void announces(void) {
    static const uint8_t response[1200] = {0xe1, 0x03, 0x9e, 0x45, 0x01, 0xff};
    struct dachreup_limits limits = DACHREUP_LIMITS;
    struct dachreup_request get = DACHREUP_REQUEST_GET;
    uint64_t token = 0;
    limits.max_message = 1152;
    check("empty announce", dachreup_client_announce(&client, 1152), DACHREUP_EMPTY);
    for (uint32_t larger = 0; larger < 2; larger++) {
        check("new", dachreup_client_new(&client, &limits, 0), 0);
        check("announce before the CSM", dachreup_client_announce(&client, 1200), DACHREUP_NOT_OPEN);
        check("ready", kind_of(TEXT("\x00\xe1"), &token), DACHREUP_EVENT_READY);
        check("lower", dachreup_client_announce(&client, 1151), DACHREUP_ANNOUNCE_LOWER);
        check("too large", dachreup_client_announce(&client, 1048577), DACHREUP_ANNOUNCE_TOO_LARGE);
        check("announce", dachreup_client_announce(&client, 1199 + larger), 0);
        drained("announced", larger ? "\x30\xe1\x22\x04\xb0" : "\x30\xe1\x22\x04\xaf", 5);
        check("lower", dachreup_client_announce(&client, 1152), DACHREUP_ANNOUNCE_LOWER);
        check("send", dachreup_client_send(&client, &get, TEXT("coap+tcp://a"), NULL, 0, NULL), 0);
        if (larger)
            check("accepted", kind_of((const char *)response, sizeof response, &token), DACHREUP_EVENT_RESPONSE);
        else
            check("refused", kind_of((const char *)response, 3, &token), DACHREUP_EVENT_STOPPED);
        dachreup_client_free(&client);
    }
}

/* A peer that accepts one byte, and a queue without room. */
static void has_no_room(void) {
    /* Messages of these sizes leave less than the two bytes of a Release. */
    static uint8_t payload[60001];
    struct dachreup_limits limits = DACHREUP_LIMITS;
    struct dachreup_request put = DACHREUP_REQUEST(DACHREUP_PUT);
    dachreup_result result = DACHREUP_OK;
    uint64_t token = 0;
    limits.outstanding = 256;
    check("new", dachreup_client_new(&client, &limits, 0), 0);
    check("ready", kind_of(TEXT("\x20\xe1\x21\x01"), &token), DACHREUP_EVENT_READY);
    check("release", dachreup_client_release(&client), DACHREUP_PEER_TOO_SMALL);
    dachreup_client_free(&client);
    check("new", dachreup_client_new(&client, &limits, 0), 0);
    check("ready", kind_of(TEXT("\x40\xe1\x23\x01\x00\x00"), &token), DACHREUP_EVENT_READY);
    for (size_t size = sizeof payload; size; size = result ? size / 2 : size)
        result = dachreup_client_send(&client, &put, TEXT("coap+tcp://a"), payload, size, NULL);
    check("full", result, DACHREUP_QUEUE_FULL);
    while ((result = dachreup_client_ping(&client, 0, NULL)) == DACHREUP_OK)
        continue;
    check("Ping", result, DACHREUP_QUEUE_FULL);
    check("release", dachreup_client_release(&client), DACHREUP_QUEUE_FULL);
    dachreup_client_free(&client);
}

int main(int count, char **words) {
    if (count == 3 && !strcmp(words[1], "pair"))
        return pair(strtoull(words[2], NULL, 10));
    if (count == 2 && !strcmp(words[1], "messages"))
        return messages();
    if (count == 2 && !strcmp(words[1], "wraps"))
        return wraps();
    empty();
    ranges();
    targets();
    requests();
    for (size_t split = 0; split < 5; split++)
        loans(split);
    reading();
    writing();
    forgets();
    releases();
    announces();
    has_no_room();
    empty();
    return failed;
}
