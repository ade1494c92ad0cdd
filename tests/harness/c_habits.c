/* The parts of the header that are C: results, texts, settings, and pointers that may be NULL. Also the options that
   reach the application, and the parts of the queued bytes. Run by tests/system/c_library.py, which also compiles it as
   C++17. Prints each check that fails. */
#include "c_checks.h"
#include <dachreup.h>
#include <string.h>

static struct dachreup_server server;
static struct dachreup_client client;
static const uint8_t csm[2] = {0x00, 0xe1};

/* ---- results ---- */

/* Returns 1 for each result that the header names. Two equal values would not compile, nor would a missing name. */
static uint32_t is_named(dachreup_result result) {
#define CASE(name) case DACHREUP_##name:
    switch ((enum dachreup_error)result) {
    CASE(OK) CASE(EMPTY) CASE(MEMORY) CASE(OCCUPIED) CASE(NOT_A_PATH) CASE(NOT_A_CHOICE) CASE(NO_SUCH)
    CASE(NO_ROOM) CASE(TOO_MANY) CASE(BACKWARDS) CASE(NO_MORE) CASE(QUEUE_FULL) CASE(NOT_OPEN)
    CASE(PEER_TOO_SMALL) CASE(MAX_MESSAGE) CASE(MAX_SENT) CASE(QUEUE) CASE(PENDING) CASE(OBSERVERS)
    CASE(OUTSTANDING) CASE(CONNECTIONS) CASE(DYNAMIC_MAX) CASE(REP_MAX) CASE(FULL) CASE(IDS_SPENT)
    CASE(TOO_LARGE) CASE(LIMIT) CASE(BAD_PATH) CASE(VERSIONS_SPENT) CASE(APPLICATION_FULL)
    CASE(APPLICATION_ROOT) CASE(APPLICATION_TWICE) CASE(APPLICATION_METHOD) CASE(APPLICATION_ATTRIBUTES)
    CASE(APPLICATION_DEADLINE) CASE(APPLICATION_BUILT_IN) CASE(NO_SUCH_REQUEST) CASE(NOT_A_RESPONSE)
    CASE(FRAME_TOKEN_LENGTH)
    CASE(FRAME_OPTION_DELTA) CASE(FRAME_OPTION_LENGTH) CASE(FRAME_OPTION_CUT) CASE(FRAME_OPTION_NUMBER)
    CASE(FRAME_EMPTY_PAYLOAD) CASE(FRAME_NOT_ONE) CASE(OPTION_MALFORMED) CASE(OPTION_ORDER)
    CASE(OPTION_TOO_LONG) CASE(OPTION_NUMBER) CASE(WRITE_CODE) CASE(WRITE_TOKEN) CASE(WRITE_OPTIONS)
    CASE(WRITE_TOO_LARGE) CASE(URI_URL) CASE(URI_SCHEME) CASE(URI_NO_HOST) CASE(URI_USER_INFO)
    CASE(URI_FRAGMENT) CASE(URI_PART_TOO_LONG) CASE(URI_TOO_MANY_PARTS) CASE(REQUEST_TOO_MANY)
    CASE(REQUEST_TOO_BIG) CASE(REQUEST_TOKENS_SPENT) CASE(REQUEST_NO_SUCH_TOKEN) CASE(ANNOUNCE_LOWER)
    CASE(ANNOUNCE_TOO_LARGE)
        return 1;
    }
    return 0;
}

/* The texts of all results differ. Other numbers have one text. */
static void texts(void) {
    const char *const other = dachreup_error_text(UINT32_MAX);
    uint32_t named = 0;
    for (dachreup_result result = 0; result < 300; result++) {
        const char *text = dachreup_error_text(result);
        named += is_named(result);
        check(text, strcmp(text, other) != 0, is_named(result));
        for (dachreup_result before = 0; before < result && is_named(result); before++)
            check(text, strcmp(text, dachreup_error_text(before)) == 0, 0);
    }
    check("results", named, 66);
    check("version", (uint32_t)strcmp(dachreup_version(), DACHREUP_VERSION), 0);
}

/* ---- NULL with a length of 0, and outputs that are not wanted ---- */

/* NULL is replaced only if the length is 0, and no other address is. */
static void replaced(void) {
    static const char text[1] = {'a'};
    check("NULL of 0 bytes", dachreup_raw_bytes(NULL, 0) != NULL, 1);
    check("NULL of a byte", dachreup_raw_bytes(NULL, 1) == NULL, 1);
    check("0 bytes", dachreup_raw_bytes(csm, 0) == csm, 1);
    check("bytes", dachreup_raw_bytes(csm, 2) == csm, 1);
    check("NULL of an empty text", dachreup_raw_text(NULL, 0) != NULL, 1);
    check("NULL of a text", dachreup_raw_text(NULL, 1) == NULL, 1);
    check("an empty text", dachreup_raw_text(text, 0) == text, 1);
    check("a text", dachreup_raw_text(text, 1) == text, 1);
}

static void null_messages(void) {
    static const uint8_t root[2] = {0x00, 0x01};
    struct dachreup_message message = dachreup_message_of(DACHREUP_CODE(2, 5), dachreup_span_of(NULL, 0));
    struct dachreup_span value = dachreup_span_of(root, 1);
    uint8_t bytes[4] = {0};
    size_t length = 9, at = 0;
    uint32_t number = 0;
    check("no frame", dachreup_message_read(NULL, 0, &message), DACHREUP_FRAME_NOT_ONE);
    check("no frame of a path", dachreup_message_path(NULL, 0, NULL, 0, &length), DACHREUP_FRAME_NOT_ONE);
    check("kept", (uint32_t)length, 9);
    check("the root", dachreup_message_path(root, 2, NULL, 0, &length), 0);
    check("its length", (uint32_t)length, 0);
    check("no options", dachreup_option_next(NULL, 0, &at, &number, &value), DACHREUP_NO_MORE);
    check("kept value", value.at == root && value.count == 1, 1);
    check("no room for an option", dachreup_option_write(NULL, 0, &at, &number, 4, NULL, 0), DACHREUP_NO_ROOM);
    check("an empty option", dachreup_option_write(bytes, sizeof bytes, &at, &number, 4, NULL, 0), 0);
    check("its byte", at == 1 && number == 4 && bytes[0] == 0x40, 1);
    check("no room", dachreup_message_write(&message, NULL, 0, &length), DACHREUP_NO_ROOM);
    check("a message", dachreup_message_write(&message, bytes, sizeof bytes, &length), 0);
    check("its bytes", length == 2 && !memcmp(bytes, "\x00\x45", 2), 1);
}

static void null_servers(void) {
    struct dachreup_settings settings = DACHREUP_SETTINGS(1);
    struct dachreup_applications entries = {0};
    struct dachreup_state state = {{NULL, 0}, 0, 0};
    struct dachreup_took took;
    uint64_t id = 0;
    check("entries", dachreup_applications_new(&entries, 5), 0);
    check("no path", dachreup_applications_add(&entries, NULL, 0, 1 << 1, NULL, 0), DACHREUP_APPLICATION_ROOT);
    check("no attributes", dachreup_applications_add(&entries, "b", 1, 1 << DACHREUP_POST, NULL, 0), 0);
    check("new", dachreup_server_new_for(&server, &settings, &entries), 0);
    check("open", dachreup_server_open(&server, &id), 0);
    check("no bytes", dachreup_server_take(&server, id, NULL, 0, &took), 0);
    check("nothing", (uint32_t)took.bytes + took.handled + took.memory, 0);
    check("CSM", dachreup_server_take(&server, id, csm, 2, &took), 0);
    check("no response", dachreup_server_respond(&server, id, NULL, 0, NULL), DACHREUP_NOT_A_RESPONSE);
    check("POST /b", dachreup_server_take(&server, id, "\x21\x02\x07\xb1" "b", 5, &took), 0);
    check("request", (uint32_t)took.request.count, 5);
    check("response", dachreup_server_respond(&server, id, "\x01\x44\x07", 3, NULL), 0);
    check("put", dachreup_server_put(&server, "a", 1, 0, NULL, 0, NULL), 0);
    check("state", dachreup_server_state(&server, "a", 1, &state), 0);
    check("version 1", state.version == 1 && state.bytes.count == 0 && state.bytes.at != NULL, 1);
    check("put at", dachreup_server_put_at(&server, "\1a", 2, 0, NULL, 0, NULL), 0);
    check("state at", dachreup_server_state_at(&server, "\1a", 2, &state), 0);
    check("version 2", (uint32_t)state.version, 2);
    check("put root", dachreup_server_put(&server, NULL, 0, 0, NULL, 0, NULL), DACHREUP_BAD_PATH);
    check("put at root", dachreup_server_put_at(&server, NULL, 0, 0, NULL, 0, NULL), DACHREUP_BAD_PATH);
    check("root", dachreup_server_state(&server, NULL, 0, &state), DACHREUP_NO_SUCH);
    check("at root", dachreup_server_state_at(&server, NULL, 0, &state), DACHREUP_NO_SUCH);
    check("remove root", dachreup_server_remove(&server, NULL, 0),
          dachreup_server_remove_at(&server, "", 0));
    check("remove at root", dachreup_server_remove_at(&server, NULL, 0), dachreup_server_remove(&server, "", 0));
    dachreup_server_free(&server);
}

static void null_clients(void) {
    struct dachreup_limits limits = DACHREUP_LIMITS;
    struct dachreup_request get = DACHREUP_REQUEST_GET;
    struct dachreup_place place = {0, 0, 0};
    struct dachreup_event event;
    check("no URI", dachreup_target(NULL, 0, NULL, 0, &place), DACHREUP_URI_URL);
    check("no host", dachreup_target("coap+tcp://a", 12, NULL, 0, &place), DACHREUP_NO_ROOM);
    check("new", dachreup_client_new(&client, &limits, 0), 0);
    check("no bytes", dachreup_client_take(&client, NULL, 0, &event), 0);
    check("no event", (uint32_t)event.bytes + event.kind, 0);
    check("CSM", dachreup_client_take(&client, csm, 2, &event), 0);
    check("send nowhere", dachreup_client_send(&client, &get, NULL, 0, NULL, 0, NULL), DACHREUP_URI_URL);
    check("cancel nowhere", dachreup_client_cancel(&client, &get, NULL, 0, 1), DACHREUP_URI_URL);
    check("send", dachreup_client_send(&client, &get, "coap+tcp://a", 12, NULL, 0, NULL), 0);
    check("ping", dachreup_client_ping(&client, 1, NULL), 0);
    check("response", dachreup_client_take(&client, "\x01\x45\x01", 3, &event), 0);
    check("its token", event.kind == DACHREUP_EVENT_RESPONSE && event.token == 1, 1);
    dachreup_client_free(&client);
}

/* ---- settings ---- */

static struct dachreup_settings zeros(void) {
    struct dachreup_settings settings;
    memset(&settings, 0, sizeof settings);
    return settings;
}

/* What a server with these settings does: its CSM, its connections, and the GETs of / that its queue has room for. */
static void measure(const struct dachreup_settings *settings, uint8_t *queued, uint32_t *opened, uint32_t *requested) {
    static const uint8_t get[3] = {0x01, 0x01, 0x01};
    struct dachreup_took took;
    struct dachreup_parts parts = {{NULL, 0}, {NULL, 0}};
    uint64_t id = 0, other = 0;
    *opened = *requested = 0;
    check("new", dachreup_server_new(&server, settings), 0);
    check("open", dachreup_server_open(&server, &id), 0);
    check("parts", dachreup_server_parts(&server, id, &parts), 0);
    check("CSM of the server", parts.first.count && parts.first.count < 16, 1);
    memcpy(queued, parts.first.at, parts.first.count < 16 ? parts.first.count : 0);
    while (!dachreup_server_open(&server, &other))
        *opened += 1;
    check("CSM", dachreup_server_take(&server, id, csm, 2, &took), 0);
    while (!dachreup_server_take(&server, id, get, 3, &took) && took.bytes)
        *requested += 1;
    dachreup_server_free(&server);
}

/* Where 0 is no legal value, it means the default. */
static void server_defaults(void) {
    struct dachreup_settings usual = DACHREUP_SETTINGS(1), none = zeros();
    uint8_t first[16] = {0}, second[16] = {0};
    uint32_t opened[2], requested[2];
    measure(&usual, first, &opened[0], &requested[0]);
    measure(&none, second, &opened[1], &requested[1]);
    check("the same CSM", (uint32_t)memcmp(first, second, sizeof first), 0);
    check("15 further connections", opened[0] * 100 + opened[1], 1515);
    check("many GETs", requested[0] > 1000, 1);
    check("as many", requested[1], requested[0]);
}

/* Where 0 is a legal value, it means none: no resource, no byte, no observer, no delayed response. */
static void server_zeros(void) {
    static const uint8_t observe[6] = {0x31, 0x01, 0x05, 0x60, 0x51, 'a'};
    static const uint8_t later[8] = {0x60, 0x01, 0xb5, 'a', 's', 'y', 'n', 'c'};
    struct dachreup_settings settings = zeros();
    struct dachreup_status status;
    struct dachreup_took took;
    uint64_t id = 0;
    check("new", dachreup_server_new(&server, &settings), 0);
    check("no resource", dachreup_server_put(&server, "a", 1, 0, NULL, 0, NULL), DACHREUP_LIMIT);
    dachreup_server_free(&server);
    settings.dynamic_max = 1;
    check("new", dachreup_server_new(&server, &settings), 0);
    check("a byte", dachreup_server_put(&server, "a", 1, 0, "x", 1, NULL), DACHREUP_TOO_LARGE);
    check("no byte", dachreup_server_put(&server, "a", 1, 0, NULL, 0, NULL), 0);
    check("open", dachreup_server_open(&server, &id), 0);
    check("CSM", dachreup_server_take(&server, id, csm, 2, &took), 0);
    check("observe", dachreup_server_take(&server, id, observe, sizeof observe, &took), 0);
    check("async", dachreup_server_take(&server, id, later, sizeof later, &took), 0);
    check("all taken", (uint32_t)took.bytes, sizeof later);
    check("status", dachreup_server_status(&server, id, &status), 0);
    check("no observer", (uint32_t)status.observers, 0);
    check("nothing delayed", (uint32_t)status.pending, 0);
    dachreup_server_free(&server);
}

static void client_zeros(void) {
    struct dachreup_request get = DACHREUP_REQUEST_GET;
    struct dachreup_limits limits;
    struct dachreup_event event;
    uint32_t sent = 0;
    memset(&limits, 0, sizeof limits);
    check("new", dachreup_client_new(&client, &limits, 0), 0);
    check("CSM", dachreup_client_take(&client, csm, 2, &event), 0);
    while (!dachreup_client_send(&client, &get, "coap+tcp://a", 12, NULL, 0, NULL))
        sent++;
    check("16 requests", sent, 16);
    dachreup_client_free(&client);
}

/* ---- options that reach the application, and the parts of the queued bytes ---- */

/* Makes a server whose application answers POST at /b and below /time, with a connection that has been opened. */
static uint64_t application(size_t pending, size_t queue) {
    struct dachreup_settings settings = zeros();
    struct dachreup_applications entries = {0};
    struct dachreup_took took;
    uint64_t id = 0;
    settings.pending = pending;
    settings.max_message = settings.max_sent = 1152;
    settings.queue = queue;
    check("entries", dachreup_applications_new(&entries, 5), 0);
    check("entry", dachreup_applications_add(&entries, "b", 1, 1 << DACHREUP_POST, NULL, 0), 0);
    check("below a built-in path", dachreup_applications_add(&entries, "time/x", 6, 1 << DACHREUP_POST, NULL, 0), 0);
    check("new", dachreup_server_new_for(&server, &settings, &entries), 0);
    check("open", dachreup_server_open(&server, &id), 0);
    check("CSM", dachreup_server_take(&server, id, csm, 2, &took), 0);
    return id;
}

/* Returns the code of the response to a POST at a path, with an option of `length` bytes that occurs `times` times. If
   the application answers the request, returns 0. */
static uint32_t posted(size_t pending, const char *path, uint32_t number, size_t length, int times) {
    uint64_t id = application(pending, 4096);
    struct dachreup_message message = dachreup_message_of(DACHREUP_CODE(0, 2), dachreup_span_of("t", 1));
    struct dachreup_parts parts = {{NULL, 0}, {NULL, 0}};
    struct dachreup_took took;
    uint8_t options[64], bytes[128];
    size_t size = 0, all = 0;
    uint32_t last = 0, code = 0;
    while (number < DACHREUP_NUMBER_URI_PATH && times-- > 0)
        check("before", dachreup_option_write(options, sizeof options, &size, &last, number, "\0\0\0", length), 0);
    check("path", dachreup_option_write(options, sizeof options, &size, &last, DACHREUP_NUMBER_URI_PATH, path,
                                        strlen(path)), 0);
    while (number >= DACHREUP_NUMBER_URI_PATH && times-- > 0)
        check("after", dachreup_option_write(options, sizeof options, &size, &last, number, "x\0\0", length), 0);
    message.options = dachreup_span_of(options, size);
    check("write", dachreup_message_write(&message, bytes, sizeof bytes, &all), 0);
    check("parts", dachreup_server_parts(&server, id, &parts), 0);
    check("written", dachreup_server_written(&server, id, parts.first.count), 0);
    check("take", dachreup_server_take(&server, id, bytes, all, &took), 0);
    check("all bytes", (uint32_t)took.bytes, (uint32_t)all);
    check("parts", dachreup_server_parts(&server, id, &parts), 0);
    if (parts.first.count && !dachreup_message_read(parts.first.at, parts.first.count, &message))
        code = message.code;
    check("a request or a response", took.request.count == all, code == 0);
    dachreup_server_free(&server);
    return code;
}

static void options(void) {
    const uint32_t bad = DACHREUP_CODE(4, 2), proxy = DACHREUP_CODE(5, 5);
    check("If-Match", posted(1, "b", DACHREUP_NUMBER_IF_MATCH, 2, 2), 0);
    check("Uri-Host", posted(1, "b", DACHREUP_NUMBER_URI_HOST, 1, 1), 0);
    check("If-None-Match", posted(1, "b", DACHREUP_NUMBER_IF_NONE_MATCH, 0, 1), 0);
    check("Uri-Port", posted(1, "b", DACHREUP_NUMBER_URI_PORT, 2, 1), 0);
    check("Uri-Path", posted(1, "b", DACHREUP_NUMBER_URI_PATH, 1, 2), 0);
    check("Uri-Query", posted(1, "b", DACHREUP_NUMBER_URI_QUERY, 1, 2), 0);
    check("Accept", posted(1, "b", DACHREUP_NUMBER_ACCEPT, 2, 1), 0);
    check("ETag", posted(1, "b", DACHREUP_NUMBER_ETAG, 3, 2), 0);
    check("Observe", posted(1, "b", DACHREUP_NUMBER_OBSERVE, 0, 1), 0);
    check("three of Content-Format", posted(1, "b", DACHREUP_NUMBER_CONTENT_FORMAT, 0, 3), 0);
    check("an unknown elective option", posted(1, "b", 1000, 1, 1), 0);
    check("Proxy-Uri", posted(1, "b", 35, 1, 1), proxy);
    check("Proxy-Scheme", posted(1, "b", 39, 1, 1), proxy);
    for (uint32_t number = 9; number < 65536; number = number < 60 ? number + 2 : 2 * number + 1)
        if (number != 11 && number != 15 && number != 17 && number != 35 && number != 39)
            check("another critical option", posted(1, "b", number, 0, 1), bad);
    check("an invalid length", posted(1, "b", DACHREUP_NUMBER_IF_NONE_MATCH, 1, 1), bad);
    check("two of them", posted(1, "b", DACHREUP_NUMBER_ACCEPT, 0, 2), bad);
    check("no pending entries", posted(0, "b", DACHREUP_NUMBER_URI_PATH, 1, 1), DACHREUP_CODE(5, 3));
    check("a built-in path", posted(1, "time", DACHREUP_NUMBER_URI_QUERY, 1, 1), DACHREUP_CODE(4, 5));
    check("below it", posted(1, "time", DACHREUP_NUMBER_URI_PATH, 1, 1), 0);
}

/* The first part is not empty if bytes are queued, also if they wrap. */
static void wrapped(void) {
    static const uint8_t get[3] = {0x01, 0x01, 0x01};
    struct dachreup_parts parts = {{NULL, 0}, {NULL, 0}};
    struct dachreup_took took;
    uint64_t id = application(0, 1300);
    uint32_t wraps = 0;
    for (size_t turn = 0; turn < 2000; turn++) {
        check("GET", dachreup_server_take(&server, id, get, 3, &took), 0);
        check("parts", dachreup_server_parts(&server, id, &parts), 0);
        check("a first part", parts.first.count > 0, 1);
        wraps += parts.second.count > 0;
        check("written", dachreup_server_written(&server, id, parts.first.count - (turn % 3 == 0)), 0);
        check("parts", dachreup_server_parts(&server, id, &parts), 0);
        check("the rest", parts.first.count > 0, parts.first.count + parts.second.count > 0);
    }
    check("wraps", wraps > 10, 1);
    dachreup_server_free(&server);
}

/* Start values that repeat no ETag after a start in a later second. */
static void starts(void) {
    struct dachreup_settings usual = DACHREUP_SETTINGS(3), settings = dachreup_settings_at(3, 0);
    uint64_t version = 0;
    check("settings at 0", (uint32_t)memcmp(&usual, &settings, sizeof usual), 0);
    settings = dachreup_settings_at(3, 1700000000);
    check("new", dachreup_server_new(&server, &settings), 0);
    check("before", dachreup_server_tick(&server, 1699999999), DACHREUP_BACKWARDS);
    check("tick", dachreup_server_tick(&server, 1700000000), 0);
    check("put", dachreup_server_put(&server, "a", 1, 0, NULL, 0, &version), 0);
    check("version", version == 1700000000u * UINT64_C(65536) + 1, 1);
    dachreup_server_free(&server);
    settings = dachreup_settings_at(1, (UINT64_C(1) << 48) - 1);
    check("the last time that fits", settings.versions == UINT64_MAX - 65535, 1);
    settings = dachreup_settings_at(1, UINT64_C(1) << 48);
    check("a later one", settings.versions == UINT64_MAX && settings.moment == UINT64_C(1) << 48, 1);
    check("new", dachreup_server_new(&server, &settings), 0);
    check("put", dachreup_server_put(&server, "a", 1, 0, NULL, 0, &version), DACHREUP_VERSIONS_SPENT);
    dachreup_server_free(&server);
}

int main(void) {
    texts();
    replaced();
    null_messages();
    null_servers();
    null_clients();
    server_defaults();
    server_zeros();
    client_zeros();
    options();
    wrapped();
    starts();
    return failed;
}
