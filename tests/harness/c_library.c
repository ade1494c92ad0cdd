/* A server of the C library over standard input and output, and wrong uses of its calls. Run by
   tests/system/c_library.py.

       c_library stdio MAX_MESSAGE MAX_SENT QUEUE DYNAMIC PIECE
                                reads pieces of this size; a call that lacks memory is made once more
       c_library application    entries, requests of the application and its responses; prints each check that fails
       c_library changes        requests that change resources or do not, each split at each place, and how long they
                                are lent; prints each check that fails
       c_library lists          paths as lists of segments, beside texts; prints each check that fails
       c_library wrong          prints each check that fails */
#include "c_checks.h"
#include <dachreup.h>
#include <stdio.h>
#include <stdlib.h>
#include <string.h>
#include <unistd.h>

static struct dachreup_server server;
static struct dachreup_applications applications;

/* Calls that allocate are made again once if an allocation failed. */
#define AGAIN(call) ((number = (call)) == DACHREUP_MEMORY ? (number = (call)) : number)

static int flush(uint64_t id) {
    struct dachreup_parts parts = {{0}, {0}};
    for (;;) {
        if (dachreup_server_parts(&server, id, &parts))
            return 1;
        const struct dachreup_span *spans[2] = {&parts.first, &parts.second};
        size_t count = parts.first.count + parts.second.count;
        if (count == 0)
            return 0;
        for (int at = 0; at < 2; at++)
            if (fwrite(spans[at]->at, 1, spans[at]->count, stdout) != spans[at]->count)
                return 1;
        if (dachreup_server_written(&server, id, count))
            return 1;
    }
}

static int serve(struct dachreup_settings *settings, size_t size) {
    static uint8_t piece[1 << 16];
    struct dachreup_took took = {0};
    uint64_t id = 0;
    uint32_t number;
    ssize_t count;
    if (AGAIN(dachreup_server_new(&server, settings)) || AGAIN(dachreup_server_open(&server, &id)) || flush(id))
        return 2;
    while (took.handled != DACHREUP_HANDLED_STOPPED && (count = read(0, piece, size)) > 0)
        for (size_t at = 0; at < (size_t)count && took.handled != DACHREUP_HANDLED_STOPPED;) {
            if (dachreup_server_take(&server, id, piece + at, (size_t)count - at, &took))
                return 3;
            at += took.bytes;
            if (flush(id))
                return 4;
        }
    if (dachreup_server_ended(&server, id) || flush(id))
        return 5;
    struct dachreup_status status = {0};
    if (dachreup_server_status(&server, id, &status) || !status.finished || dachreup_server_drop(&server, id))
        return 6;
    dachreup_server_free(&server);
    return fflush(stdout) != 0;
}

static void empty(uint64_t id) {
    struct dachreup_took took = {9, 9, 9, 9, {0}, {0}};
    struct dachreup_parts parts = {{0}, {0}};
    struct dachreup_status status = {0};
    struct dachreup_state state = {{0}, 7, 0};
    static const char text[] = "a/b";
    uint64_t number = 7;
    uint32_t reply = 9;
    check("empty open", dachreup_server_open(&server, &number), DACHREUP_EMPTY);
    check("empty take", dachreup_server_take(&server, id, text, 3, &took), DACHREUP_EMPTY);
    check("took", (uint32_t)(took.bytes + took.request.count + took.changed.count) + took.handled + took.reason, 0);
    check("took memory", took.memory, 0);
    check("addresses", took.request.at && took.changed.at, 1);
    check("empty parts", dachreup_server_parts(&server, id, &parts), DACHREUP_EMPTY);
    check("empty written", dachreup_server_written(&server, id, 0), DACHREUP_EMPTY);
    check("empty tick", dachreup_server_tick(&server, 1), DACHREUP_EMPTY);
    check("empty put", dachreup_server_put(&server, text, 3, 0, text, 3, &number), DACHREUP_EMPTY);
    check("empty respond", dachreup_server_respond(&server, id, text, 3, &reply), DACHREUP_EMPTY);
    check("empty state", dachreup_server_state(&server, text, 3, &state), DACHREUP_EMPTY);
    check("reply and state", reply + (uint32_t)state.version, 16);
    check("empty remove", dachreup_server_remove(&server, text, 3), DACHREUP_EMPTY);
    check("empty put at", dachreup_server_put_at(&server, text, 3, 0, text, 3, &number), DACHREUP_EMPTY);
    check("empty state at", dachreup_server_state_at(&server, text, 3, &state), DACHREUP_EMPTY);
    check("empty remove at", dachreup_server_remove_at(&server, text, 3), DACHREUP_EMPTY);
    check("empty ended", dachreup_server_ended(&server, id), DACHREUP_EMPTY);
    check("empty release", dachreup_server_release(&server, id), DACHREUP_EMPTY);
    check("empty drop", dachreup_server_drop(&server, id), DACHREUP_EMPTY);
    check("empty announce", dachreup_server_announce(&server, id, 65536), DACHREUP_EMPTY);
    check("empty status", dachreup_server_status(&server, id, &status), DACHREUP_EMPTY);
    check("id and version", (uint32_t)number, 7);
    dachreup_server_free(&server);
}

static void ranges(void) {
    struct dachreup_settings settings = DACHREUP_SETTINGS(1);
    size_t *values[9] = {&settings.max_message, &settings.max_sent,    &settings.queue,
                         &settings.pending,     &settings.observers,   &settings.outstanding,
                         &settings.connections, &settings.dynamic_max, &settings.rep_max};
    const uint32_t numbers[9] = {DACHREUP_MAX_MESSAGE, DACHREUP_MAX_SENT,    DACHREUP_QUEUE,
                                 DACHREUP_PENDING,     DACHREUP_OBSERVERS,   DACHREUP_OUTSTANDING,
                                 DACHREUP_CONNECTIONS, DACHREUP_DYNAMIC_MAX, DACHREUP_REP_MAX};
    for (int at = 0; at < 9; at++) {
        size_t before = *values[at];
        *values[at] = (size_t)1 << 40;
        check("range", dachreup_server_new(&server, &settings), numbers[at]);
        *values[at] = before;
    }
}

static void numbers(void) {
    struct dachreup_settings settings = DACHREUP_SETTINGS(1);
    struct dachreup_took took = {0};
    struct dachreup_parts parts = {{0}, {0}};
    struct dachreup_status status = {0};
    struct dachreup_state state = {{0}, 0, 0};
    const uint8_t csm[2] = {0x00, 0xe1};
    uint64_t id = 0, version = 0;
    settings.connections = 1;
    settings.rep_max = 4;
    check("new", dachreup_server_new(&server, &settings), 0);
    check("new again", dachreup_server_new(&server, &settings), DACHREUP_OCCUPIED);
    check("open", dachreup_server_open(&server, &id), 0);
    check("full", dachreup_server_open(&server, &version), DACHREUP_FULL);
    check("no such take", dachreup_server_take(&server, 99, csm, 2, &took), DACHREUP_NO_SUCH);
    check("no such parts", dachreup_server_parts(&server, 99, &parts), DACHREUP_NO_SUCH);
    check("no such written", dachreup_server_written(&server, 99, 0), DACHREUP_NO_SUCH);
    check("no such ended", dachreup_server_ended(&server, 99), DACHREUP_NO_SUCH);
    check("no such release", dachreup_server_release(&server, 99), DACHREUP_NO_SUCH);
    check("no such drop", dachreup_server_drop(&server, 99), DACHREUP_NO_SUCH);
    check("no such announce", dachreup_server_announce(&server, 99, 65536), DACHREUP_NO_SUCH);
    check("no such status", dachreup_server_status(&server, 99, &status), DACHREUP_NO_SUCH);
    check("parts", dachreup_server_parts(&server, id, &parts), 0);
    check("too many", dachreup_server_written(&server, id, parts.first.count + parts.second.count + 1),
          DACHREUP_TOO_MANY);
    check("release before the CSM", dachreup_server_release(&server, id), DACHREUP_NOT_OPEN);
    check("take", dachreup_server_take(&server, id, csm, 2, &took), 0);
    check("took", (uint32_t)took.bytes * 100 + took.handled * 10 + took.reason, 210);
    check("status", dachreup_server_status(&server, id, &status), 0);
    check("phase", status.phase * 100 + status.reason * 10 + status.finished, 100);
    check("lower", dachreup_server_announce(&server, id, 1), DACHREUP_ANNOUNCE_LOWER);
    check("too large", dachreup_server_announce(&server, id, UINT32_MAX), DACHREUP_ANNOUNCE_TOO_LARGE);
    check("tick", dachreup_server_tick(&server, 5), 0);
    check("backwards", dachreup_server_tick(&server, 4), DACHREUP_BACKWARDS);
    check("no path", dachreup_server_put(&server, "a/..", 4, 0, csm, 2, &version),
          DACHREUP_NOT_A_PATH);
    check("bad path", dachreup_server_put(&server, "time", 4, 0, csm, 2, &version), DACHREUP_BAD_PATH);
    check("large", dachreup_server_put(&server, "a", 1, 0, "12345", 5, &version),
          DACHREUP_TOO_LARGE);
    check("put", dachreup_server_put(&server, "a", 1, DACHREUP_NO_FORMAT, csm, 2, &version), 0);
    check("version", (uint32_t)version, 1);
    check("limit", dachreup_server_put(&server, "b", 1, 0, csm, 2, &version), DACHREUP_LIMIT);
    check("state", dachreup_server_state(&server, "a", 1, &state), 0);
    check("state of a", (uint32_t)(state.version * 10 + state.bytes.count) + state.format, 12 + DACHREUP_NO_FORMAT);
    check("bytes of a", (uint32_t)memcmp(state.bytes.at, csm, 2), 0);
    const char *const built_in[4] = {"", "time", "async", ".well-known/core"};
    for (int at = 0; at < 4; at++)
        check(built_in[at], dachreup_server_state(&server, built_in[at], strlen(built_in[at]), &state),
              DACHREUP_NO_SUCH);
    check("absent state", dachreup_server_state(&server, "b", 1, &state), DACHREUP_NO_SUCH);
    check("state of no path", dachreup_server_state(&server, "a/..", 4, &state), DACHREUP_NOT_A_PATH);
    check("kept state", (uint32_t)(state.version * 10 + state.bytes.count), 12);
    check("no such resource", dachreup_server_remove(&server, "b", 1), DACHREUP_NO_SUCH);
    check("remove", dachreup_server_remove(&server, "a", 1), 0);
    check("release", dachreup_server_release(&server, id), 0);
    check("drop", dachreup_server_drop(&server, id), 0);
    dachreup_server_free(&server);
}

static uint32_t add(const char *path, uint32_t methods, const char *attributes) {
    return dachreup_applications_add(&applications, path, strlen(path), methods, attributes, strlen(attributes));
}

/* Wrong uses of entries. */
static void entries(void) {
    struct dachreup_settings settings = DACHREUP_SETTINGS(1);
    char path[2] = "a";
    dachreup_applications_free(&applications);
    check("empty add", add("a", 1 << 1, ""), DACHREUP_EMPTY);
    check("server of no entries", dachreup_server_new_for(&server, &settings, &applications), DACHREUP_EMPTY);
    check("deadline", dachreup_applications_new(&applications, 0), DACHREUP_APPLICATION_DEADLINE);
    check("entries", dachreup_applications_new(&applications, 1), 0);
    check("entries again", dachreup_applications_new(&applications, 1), DACHREUP_OCCUPIED);
    check("entries again, no deadline", dachreup_applications_new(&applications, 0), DACHREUP_OCCUPIED);
    check("no path", add("a/..", 1 << 1, ""), DACHREUP_NOT_A_PATH);
    check("root", add("", 1 << 1, ""), DACHREUP_APPLICATION_ROOT);
    check("built in", add(".well-known/core", 1 << 1, ""), DACHREUP_APPLICATION_BUILT_IN);
    check("no method", add("a", 0, ""), DACHREUP_APPLICATION_METHOD);
    check("bit 0", add("a", 1, ""), DACHREUP_APPLICATION_METHOD);
    check("attributes", add("a", 1 << 1, "rt=\""), DACHREUP_APPLICATION_ATTRIBUTES);
    check("first", add("a", 1u << 31 | 1 << 1, "rt=\"x\""), 0);
    check("twice", add("a", 1 << 2, ""), DACHREUP_APPLICATION_TWICE);
    for (path[0] = 'b'; path[0] <= 'p'; path[0]++)
        check("next", add(path, 1 << 1, ""), 0);
    check("full", add("q", 1 << 1, ""), DACHREUP_APPLICATION_FULL);
    settings.max_sent = 1;
    check("settings", dachreup_server_new_for(&server, &settings, &applications), DACHREUP_MAX_SENT);
    settings.max_sent = 0;
    check("server", dachreup_server_new_for(&server, &settings, &applications), 0);
    check("taken", add("q", 1 << 1, ""), DACHREUP_EMPTY);
    check("more entries", dachreup_applications_new(&applications, 1), 0);
    check("server again", dachreup_server_new_for(&server, &settings, &applications), DACHREUP_OCCUPIED);
    check("kept entries", add("q", 1 << 1, ""), 0);
    dachreup_applications_free(&applications);
    check("freed", add("r", 1 << 1, ""), DACHREUP_EMPTY);
    dachreup_server_free(&server);
}

/* Takes one message, and checks the number of its request's bytes. */
static void take(const char *what, uint64_t id, const uint8_t *bytes, size_t length, size_t request) {
    struct dachreup_took took = {0};
    size_t at = 0;
    /* Two pieces, and again after each failed allocation. */
    for (int turn = 0; turn < 8 && at < length; turn++) {
        check(what, dachreup_server_take(&server, id, bytes + at, at + 1 < length ? length - 1 - at : 1, &took), 0);
        at += took.bytes;
    }
    check("handled", took.handled, DACHREUP_HANDLED_MESSAGE);
    check("request", (uint32_t)took.request.count, (uint32_t)request);
    if (took.request.count && memcmp(took.request.at, bytes, length))
        check("bytes of the request", 1, 0);
}

/* Checks that the last bytes queued are these. */
static void queued(const char *what, uint64_t id, const char *bytes, size_t length) {
    struct dachreup_parts parts = {{0}, {0}};
    check(what, dachreup_server_parts(&server, id, &parts), 0);
    check_end(what, &parts, bytes, length);
}

/* POST /a is answered by the application, GET /a by the engine. */
static int application(void) {
    static const uint8_t csm[2] = {0x00, 0xe1}, post[5] = {0x21, 0x02, 0x07, 0xb1, 'a'},
                         get[5] = {0x21, 0x01, 0x08, 0xb1, 'a'};
    static const uint8_t late[5] = {0x21, 0x02, 0x09, 0xb1, 'a'}, request[5] = {0x21, 0x02, 0x07, 0xb1, 'a'};
    static const uint8_t changed[3] = {0x01, 0x44, 0x07}, other[3] = {0x01, 0x44, 0x0b};
    struct dachreup_settings settings = DACHREUP_SETTINGS(1);
    struct dachreup_took took = {0};
    uint32_t number, reply = 9;
    uint64_t id = 0;
    if (AGAIN(dachreup_applications_new(&applications, 5)) || AGAIN(add("a", 1 << 2, "rt=\"x\"")))
        return 2;
    if (dachreup_server_new_for(&server, &settings, &applications)) {
        /* The entries are gone if an allocation failed. */
        if (AGAIN(dachreup_applications_new(&applications, 5)) || AGAIN(add("a", 1 << 2, "rt=\"x\"")) ||
            dachreup_server_new_for(&server, &settings, &applications))
            return 3;
    }
    if (AGAIN(dachreup_server_open(&server, &id)) || dachreup_server_take(&server, id, csm, 2, &took) ||
        AGAIN(dachreup_server_announce(&server, id, 131072)))
        return 4;
    queued("announced", id, "\x40\xe1\x23\x02\x00\x00", 6);
    check("no request before", dachreup_server_respond(&server, id, changed, 3, &reply), DACHREUP_NO_SUCH_REQUEST);
    take("POST", id, post, 5, 5);
    check("another token", dachreup_server_respond(&server, id, other, 3, &reply), DACHREUP_NO_SUCH_REQUEST);
    check("no response", dachreup_server_respond(&server, id, request, 5, &reply), DACHREUP_NOT_A_RESPONSE);
    check("another connection", dachreup_server_respond(&server, 99, changed, 3, &reply), DACHREUP_NO_SUCH);
    check("kept reply", reply, 9);
    check("respond", dachreup_server_respond(&server, id, changed, 3, &reply), 0);
    check("reply", reply, DACHREUP_REPLY_WHOLE);
    queued("2.04", id, "\x01\x44\x07", 3);
    check("twice", dachreup_server_respond(&server, id, changed, 3, &reply), DACHREUP_NO_SUCH_REQUEST);
    take("GET", id, get, 5, 0);
    queued("4.04", id, "\x01\x84\x08", 3);
    take("POST again", id, late, 5, 5);
    check("before the deadline", dachreup_server_tick(&server, 4), 0);
    queued("none yet", id, "\x01\x84\x08", 3);
    check("deadline", dachreup_server_tick(&server, 5), 0);
    queued("5.04", id, "\x01\xa4\x09", 3);
    dachreup_server_free(&server);
    return failed;
}

/* A request with these codes: at most two segments, and a payload. */
struct change {
    uint8_t code;
    const char *segments[2], *payload, *path; /* the path that is reported, or none */
    uint32_t named;                           /* result of dachreup_message_path */
    uint64_t version;                         /* of the resource afterwards, or 0 */
};

static const struct change steps[] = {
    {3, {"a", NULL}, "xyz", "a", 0, 1},      {3, {"a", NULL}, "xyz", "a", 0, 2},     {1, {"a", NULL}, "", NULL, 0, 2},
    {3, {"a", NULL}, "12345", NULL, 0, 2},   {3, {"b", "c"}, "x", "b/c", 0, 3},      {3, {"d", NULL}, "x", NULL, 0, 0},
    {2, {"b", "c"}, "y", "b/c", 0, 4},       {4, {"b", "c"}, "", "b/c", 0, 0},       {4, {"b", "c"}, "", NULL, 0, 0},
    {3, {"time", NULL}, "x", NULL, 0, 0},    {4, {"time", NULL}, "", NULL, 0, 0},
    {1, {"time", NULL}, "", NULL, 0, 0},
    {3, {"x/y", NULL}, "x", "", 4, 0},       {4, {"x/y", NULL}, "", "", 4, 0},       {3, {"", "e"}, "x", "/e", 0, 6},
    {4, {"", "e"}, "", "/e", 0, 0},          {4, {"a", NULL}, "", "a", 0, 0},
};

static size_t request_of(const struct change *step, uint8_t *to) {
    size_t at = 3, size;
    to[1] = step->code;
    to[2] = 7;
    for (int number = 0; number < 2 && step->segments[number]; number++, at += size) {
        size = strlen(step->segments[number]);
        to[at++] = (uint8_t)((number ? 0 : 0xb0) + size);
        memcpy(to + at, step->segments[number], size);
    }
    size = strlen(step->payload);
    if (size)
        to[at++] = 0xff;
    memcpy(to + at, step->payload, size);
    at += size;
    to[0] = (uint8_t)((at - 3) << 4 | 1);
    return at;
}

/* Takes a request in two pieces, and checks what is reported, and the resource. */
static void report(const struct change *step, uint64_t id, const uint8_t *bytes, size_t length, size_t split) {
    uint8_t first[32], second[32];
    char path[DACHREUP_PATH_ROOM] = {0};
    struct dachreup_took took = {0};
    struct dachreup_state state = {{0}, 0, 0};
    size_t count = 99, left = split < length ? length - split : length;
    memcpy(first, bytes, length);
    memcpy(second, bytes + length - left, left);
    if (split < length)
        check("first piece", dachreup_server_take(&server, id, first, split, &took), 0);
    check("nothing yet", (uint32_t)took.changed.count, 0);
    check("take", dachreup_server_take(&server, id, second, left, &took), 0);
    check("no request of the application", (uint32_t)took.request.count, 0);
    check(step->path ? "reported" : "not reported", (uint32_t)took.changed.count, step->path ? (uint32_t)length : 0);
    if (took.changed.count) {
        check("reported bytes", (uint32_t)memcmp(took.changed.at, bytes, length), 0);
        check("named", dachreup_message_path(took.changed.at, took.changed.count, path, sizeof path, &count),
              step->named);
        if (step->named == 0) {
            check("path", count == strlen(step->path) && !memcmp(path, step->path, count), 1);
            check("state", dachreup_server_state(&server, path, count, &state), step->version ? 0 : DACHREUP_NO_SUCH);
            check("version", (uint32_t)state.version, (uint32_t)step->version);
        } else
            check("kept length", (uint32_t)count, 99);
    }
}

static void named(void) {
    static const uint8_t put[8] = {0x51, 0x03, 0x07, 0xb1, 'a', 0x02, 'b', 'c'}, root[3] = {0x01, 0x01, 0x07},
                         dots[6] = {0x31, 0x01, 0x07, 0xb2, '.', '.'};
    char path[4] = {'?', '?', '?', '?'};
    size_t count = 9;
    check("no message", dachreup_message_path(put, 7, path, sizeof path, &count), DACHREUP_FRAME_NOT_ONE);
    check("dots", dachreup_message_path(dots, sizeof dots, path, sizeof path, &count), DACHREUP_NOT_A_PATH);
    check("no room", dachreup_message_path(put, sizeof put, path, 3, &count), DACHREUP_NO_ROOM);
    check("nothing written", count == 9 && !memcmp(path, "????", 4), 1);
    check("room", dachreup_message_path(put, sizeof put, path, 4, &count), 0);
    check("a/bc", count == 4 && !memcmp(path, "a/bc", 4), 1);
    check("root", dachreup_message_path(root, sizeof root, path, 0, &count), 0);
    check("empty text", (uint32_t)count, 0);
}

/* Makes each call of a server but take, announce, drop and free, on this connection. */
static void other_calls(uint64_t id, uint64_t now) {
    static const uint8_t response[3] = {0x01, 0x44, 0x0b};
    static const char list[2] = {1, 'z'};
    struct dachreup_settings settings = DACHREUP_SETTINGS(1);
    struct dachreup_parts parts = {{0}, {0}};
    struct dachreup_status status = {0};
    struct dachreup_state state = {{0}, 0, 0};
    uint64_t number = 0;
    uint32_t reply = 0;
    check("new", dachreup_server_new(&server, &settings), DACHREUP_OCCUPIED);
    check("open", dachreup_server_open(&server, &number), 0);
    check("parts", dachreup_server_parts(&server, id, &parts), 0);
    check("written", dachreup_server_written(&server, id, parts.first.count + parts.second.count), 0);
    check("respond", dachreup_server_respond(&server, id, response, 3, &reply), DACHREUP_NO_SUCH_REQUEST);
    check("tick", dachreup_server_tick(&server, now), 0);
    check("put", dachreup_server_put(&server, list + 1, 1, 0, list, 2, &number), 0);
    check("state", dachreup_server_state(&server, list + 1, 1, &state), 0);
    check("remove", dachreup_server_remove(&server, list + 1, 1), 0);
    check("put at", dachreup_server_put_at(&server, list, 2, 0, list, 2, &number), 0);
    check("state at", dachreup_server_state_at(&server, list, 2, &state), 0);
    check("remove at", dachreup_server_remove_at(&server, list, 2), 0);
    check("status", dachreup_server_status(&server, id, &status), 0);
}

/* Takes one message in two pieces, and returns the request that is lent. Checks that it is the accepted bytes if it
   comes whole. */
static struct dachreup_span lent(uint64_t id, uint8_t *bytes, size_t length, size_t split) {
    struct dachreup_took took = {0};
    if (split < length)
        check("first piece", dachreup_server_take(&server, id, bytes, split, &took), 0);
    size_t at = took.bytes;
    check("take", dachreup_server_take(&server, id, bytes + at, length - at, &took), 0);
    check("one request", (took.request.count == 0) != (took.changed.count == 0), 1);
    check("spans at an address", took.request.at && took.changed.at, 1);
    struct dachreup_span request = took.request.count ? took.request : took.changed;
    check("in the input", request.at == bytes, at == 0);
    return request;
}

/* The bytes of a request stay until the next take, announce, drop or free, whole or in two pieces. The last call before
   that stops the connection. */
static void loans(size_t split) {
    static uint8_t csm[2] = {0x00, 0xe1}, put[7] = {0x41, 0x03, 0x07, 0xb1, 'a', 0xff, 'x'},
                   post[5] = {0x21, 0x02, 0x09, 0xb1, 'b'};
    static const uint8_t created[3] = {0x01, 0x41, 0x09};
    struct dachreup_settings settings = DACHREUP_SETTINGS(3);
    struct dachreup_message requested;
    struct dachreup_took took;
    check("entries", dachreup_applications_new(&applications, 5), 0);
    check("entry", add("b", 1 << 2, ""), 0);
    check("server", dachreup_server_new_for(&server, &settings, &applications), 0);
    for (uint64_t turn = 1; turn <= 3; turn++) {
        uint64_t id = 0;
        uint32_t reply = 9;
        check("open", dachreup_server_open(&server, &id), 0);
        check("CSM", dachreup_server_take(&server, id, csm, 2, &took), 0);
        struct dachreup_span changed = lent(id, put, sizeof put, split);
        other_calls(id, turn);
        check("changed", changed.count == sizeof put && !memcmp(changed.at, put, sizeof put), 1);
        struct dachreup_span request = lent(id, post, sizeof post, split);
        other_calls(id, turn);
        check("read", dachreup_message_read(request.at, request.count, &requested), 0);
        if (turn == 1)
            check("respond", dachreup_server_respond(&server, id, created, 3, &reply), 0);
        else
            check("stop", turn == 2 ? dachreup_server_ended(&server, id) : dachreup_server_release(&server, id), 0);
        check("request", request.count == sizeof post && !memcmp(request.at, post, sizeof post), 1);
        check("token", requested.token.count == 1 && *requested.token.at == 9, 1);
    }
    dachreup_server_free(&server);
}

/* A program that follows the resources that clients change. */
static int changes(void) {
    static const uint8_t csm[2] = {0x00, 0xe1}, small[4] = {0x20, 0xe1, 0x21, 0x02};
    const size_t all = sizeof steps / sizeof *steps;
    struct dachreup_took took = {0};
    uint8_t bytes[32];
    /* Each request is split after each number of bytes; from its length on, it comes whole. */
    for (size_t split = 1; split < 12; split++) {
        struct dachreup_settings settings = DACHREUP_SETTINGS(2);
        uint64_t id = 0;
        settings.rep_max = 4;
        check("new", dachreup_server_new(&server, &settings), 0);
        check("open", dachreup_server_open(&server, &id), 0);
        check("CSM", dachreup_server_take(&server, id, csm, 2, &took), 0);
        for (const struct change *step = steps; step < steps + all; step++)
            report(step, id, bytes, request_of(step, bytes), split);
        /* The peer accepts two bytes, so the response stops the connection. */
        check("open again", dachreup_server_open(&server, &id), 0);
        check("small CSM", dachreup_server_take(&server, id, small, 4, &took), 0);
        report(&(struct change){3, {"a", NULL}, "xyz", "a", 0, 7}, id, bytes, request_of(steps, bytes), split);
        check("stopped", dachreup_server_take(&server, id, csm, 2, &took), 0);
        check("nothing after it", (uint32_t)(took.bytes + took.changed.count), 0);
        dachreup_server_free(&server);
        loans(split);
    }
    named();
    return failed;
}

/* ---- paths as lists of segments ---- */

/* Texts, each of which is also written as a list. */
static const char *const texts[] = {
    "", "a", "a/b", "/", "//", "a/", "/a", "a//b", ".", "..", "a/..", "...", "time", "async", "time/a",
    ".well-known/core", "1/2/3/4/5/6/7/8/9/10/11/12/13/14/15/16", "1/2/3/4/5/6/7/8/9/10/11/12/13/14/15/16/17",
    "///////////////",
    "////////////////"};

/* Writes the list of the segments of a text, and returns its length. */
static size_t list_of(const char *text, uint8_t *to) {
    size_t at = 0;
    if (!*text)
        return 0;
    for (const char *end;; text = end + 1) {
        end = text + strcspn(text, "/");
        to[at++] = (uint8_t)(end - text);
        memcpy(to + at, text, (size_t)(end - text));
        at += (size_t)(end - text);
        if (!*end)
            return at;
    }
}

/* Compares the calls with a list with those with a text, in both orders. The list is exactly as long as its memory. */
static void compare(const char *text) {
    const char one[1] = {'x'};
    size_t count = strlen(text);
    uint8_t *list = malloc(count + 2);
    size_t length = list_of(text, list);
    struct dachreup_state first = {{0}, 0, 0}, second = {{0}, 0, 0};
    uint64_t version = 0, after = 0;
    list = realloc(list, length ? length : 1);
    check("state before", dachreup_server_state_at(&server, list, length, &first),
          dachreup_server_state(&server, text, count, &first));
    uint32_t put = dachreup_server_put(&server, text, count, 40, one, 1, &version);
    check("put at", dachreup_server_put_at(&server, list, length, 50, one, 0, &after), put);
    check("one version more", (uint32_t)(after - version), put ? 0 : 1);
    check("state at", dachreup_server_state_at(&server, list, length, &first),
          dachreup_server_state(&server, text, count, &second));
    check("the same state",
          first.version == second.version && first.bytes.count == second.bytes.count && first.format == second.format,
          1);
    check("that of the second put", put || (first.version == after && first.bytes.count == 0 && first.format == 50), 1);
    uint32_t removed = dachreup_server_remove_at(&server, list, length);
    check("remove at", removed == 0, put == 0);
    check("remove again", dachreup_server_remove(&server, text, count), put ? removed : DACHREUP_NO_SUCH);
    check("remove at again", dachreup_server_remove_at(&server, list, length), put ? removed : DACHREUP_NO_SUCH);
    free(list);
}

/* A list that is no path: nothing changes. */
static void no_list(const char *what, const void *list, size_t length) {
    struct dachreup_state state = {{0}, 7, 7};
    uint64_t version = 7;
    uint8_t *exact = malloc(length ? length : 1);
    memcpy(exact, list, length);
    check(what, dachreup_server_put_at(&server, exact, length, 0, list, 0, &version), DACHREUP_NOT_A_PATH);
    check(what, dachreup_server_state_at(&server, exact, length, &state), DACHREUP_NOT_A_PATH);
    check(what, dachreup_server_remove_at(&server, exact, length), DACHREUP_NOT_A_PATH);
    check(what, (uint32_t)(version * 100 + state.version * 10 + state.format), 777);
    free(exact);
}

static void refused_lists(void) {
    uint8_t many[34], large[300] = {0};
    memset(large, 'a', sizeof large);
    for (size_t at = 0; at < sizeof many; at++)
        many[at] = at % 2 ? 'a' : 1;
    no_list("no byte of the segment", "\1", 1);
    no_list("a truncated segment", "\3ab", 3);
    no_list("a truncated second segment", "\1a\2b", 4);
    no_list("17 segments", many, 34);
    no_list("17 segments, the last one truncated", many, 33);
    no_list("17 empty segments", (const uint8_t[17]){0}, 17);
    no_list("an empty segment alone", "", 1);
    no_list("a dot", "\1.", 2);
    no_list("two dots", "\1a\2..", 5);
    large[0] = 255;
    no_list("256 bytes", large, 256);
    no_list("255 bytes, truncated", large, 255);
    large[0] = 127;
    large[128] = 127;
    no_list("256 bytes in two segments", large, 256);
}

/* The longest paths. */
static void longest_lists(void) {
    uint8_t many[32], large[255];
    uint64_t version = 0;
    memset(large, 'a', sizeof large);
    large[0] = 254;
    for (size_t at = 0; at < sizeof many; at++)
        many[at] = at % 2 ? '/' : 1;
    check("16 segments", dachreup_server_put_at(&server, many, 32, 0, large, 1, &version), 0);
    check("16 segments again", dachreup_server_remove_at(&server, many, 32), 0);
    check("255 bytes", dachreup_server_put_at(&server, large, 255, 0, large, 1, &version), 0);
    check("255 bytes as a text", dachreup_server_remove(&server, (const char *)large + 1, 254), 0);
}

/* The path whose only segment is "a/b" is not the path of the text "a/b". */
static void slashes(uint64_t id) {
    static const char list[4] = {3, 'a', '/', 'b'}, two[4] = {1, 'a', 1, 'b'};
    static const uint8_t get[7] = {0x41, 0x01, 0x07, 0xb3, 'a', '/', 'b'};
    const char *text = list + 1;
    struct dachreup_state state = {{0}, 0, 0};
    struct dachreup_parts parts = {{0}, {0}};
    struct dachreup_took took = {0};
    uint64_t version = 0;
    check("put at a/b", dachreup_server_put_at(&server, list, 4, DACHREUP_NO_FORMAT, text, 1, &version), 0);
    check("absent text", dachreup_server_state(&server, text, 3, &state), DACHREUP_NO_SUCH);
    check("put a/b", dachreup_server_put(&server, text, 3, 0, text, 3, &version), 0);
    check("state at a/b", dachreup_server_state_at(&server, list, 4, &state), 0);
    check("one byte", (uint32_t)state.bytes.count + state.format, 1 + DACHREUP_NO_FORMAT);
    check("state at a, b", dachreup_server_state_at(&server, two, 4, &state), 0);
    check("three bytes", (uint32_t)state.bytes.count, 3);
    check("GET", dachreup_server_take(&server, id, get, sizeof get, &took), 0);
    check("parts", dachreup_server_parts(&server, id, &parts), 0);
    check("2.05", parts.first.count > 2 && parts.first.at[1] == 0x45, 1);
    check("its payload", parts.first.at[parts.first.count - 1] == 'a' && parts.first.at[parts.first.count - 2] == 0xff,
          1);
    check("remove at a/b", dachreup_server_remove_at(&server, list, 4), 0);
    check("no more a/b", dachreup_server_state_at(&server, list, 4, &state), DACHREUP_NO_SUCH);
    check("a, b stays", dachreup_server_remove(&server, text, 3), 0);
}

static int lists(void) {
    static const uint8_t csm[2] = {0x00, 0xe1};
    struct dachreup_settings settings = DACHREUP_SETTINGS(2);
    struct dachreup_parts parts = {{0}, {0}};
    struct dachreup_took took = {0};
    uint64_t id = 0;
    check("new", dachreup_server_new(&server, &settings), 0);
    check("open", dachreup_server_open(&server, &id), 0);
    check("CSM", dachreup_server_take(&server, id, csm, 2, &took), 0);
    check("parts", dachreup_server_parts(&server, id, &parts), 0);
    check("written", dachreup_server_written(&server, id, parts.first.count + parts.second.count), 0);
    for (size_t at = 0; at < sizeof texts / sizeof *texts; at++)
        compare(texts[at]);
    refused_lists();
    longest_lists();
    slashes(id);
    dachreup_server_free(&server);
    return failed;
}

int main(int count, char **words) {
    if (count == 2 && !strcmp(words[1], "lists"))
        return lists();
    if (count == 2 && !strcmp(words[1], "changes"))
        return changes();
    if (count == 7 && !strcmp(words[1], "stdio")) {
        struct dachreup_settings settings = DACHREUP_SETTINGS(strtoull(words[5], NULL, 10));
        settings.max_message = strtoull(words[2], NULL, 10);
        settings.max_sent = strtoull(words[3], NULL, 10);
        settings.queue = strtoull(words[4], NULL, 10);
        return serve(&settings, strtoull(words[6], NULL, 10));
    }
    if (count == 2 && !strcmp(words[1], "application"))
        return application();
    empty(1);
    entries();
    ranges();
    numbers();
    empty(1);
    return failed;
}
