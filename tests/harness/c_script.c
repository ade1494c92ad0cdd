/* Runs a script of a server on the C library, and writes the lines of `coap-server --script`. Run by
   tests/system/c_library.py.

       c_script MAX_MESSAGE MAX_SENT QUEUE PENDING OBSERVERS CONNECTIONS DYNAMIC    reads the script from standard input

   It also follows the resources: only the resource at the path that a take reports may differ from before the take. */
#include "c_checks.h"
#include <dachreup.h>
#include <inttypes.h>
#include <stdlib.h>
#include <string.h>

enum { PATHS = 256, PATH_ROOM = DACHREUP_PATH_ROOM, LINE = 5 << 20 };

static struct dachreup_server server;
static uint8_t bytes[LINE];

/* The paths that were seen, with the version of the resource at each, or 0. */
static struct {
    char text[PATH_ROOM];
    size_t length;
    uint64_t version;
} seen[PATHS];
static int paths;

static uint64_t version_at(int at) {
    struct dachreup_state state = {{0}, 0, 0};
    return dachreup_server_state(&server, seen[at].text, seen[at].length, &state) ? 0 : state.version;
}

/* Checks that the resource at this path differs from before, and no other one does. Without a path, none does. */
static void follow(const char *text, size_t length, int changes) {
    int place = 0;
    while (place < paths && (seen[place].length != length || memcmp(seen[place].text, text, length)))
        place++;
    if (changes && place == paths && paths < PATHS) {
        memcpy(seen[place].text, text, length);
        seen[place].length = length;
        paths++;
    }
    for (int at = 0; at < paths; at++) {
        uint64_t before = seen[at].version;
        seen[at].version = version_at(at);
        check("a resource differs", before != seen[at].version, changes && at == place);
    }
}

/* Follows the resource of a request that was reported. */
static void follow_request(struct dachreup_span changed) {
    char text[PATH_ROOM];
    size_t length = 0;
    uint32_t number = changed.count ? dachreup_message_path(changed.at, changed.count, text, sizeof text, &length) : 0;
    if (number != DACHREUP_NOT_A_PATH) {
        check("path of a request", number, 0);
        follow(text, length, changed.count != 0);
    }
}

static int digit(char one) { return one <= '9' ? one - '0' : (one | 32) - 'a' + 10; }

static size_t hex(const char *text, size_t length) {
    if (length == 1)
        return 0;
    for (size_t at = 0; at + 1 < length; at += 2)
        bytes[at / 2] = (uint8_t)(digit(text[at]) * 16 + digit(text[at + 1]));
    return length / 2;
}

/* Writes the segments of a path without escapes, and returns the number of bytes. No text of the library has an escaped
   slash. */
static size_t plain_path(const char *text, char *to) {
    size_t count = 0;
    for (text++; *text; count++) {
        int escaped = *text == '%';
        to[count] = (char)(escaped ? digit(text[1]) * 16 + digit(text[2]) : *text);
        if (escaped && to[count] == '/')
            exit(7);
        text += escaped ? 3 : 1;
    }
    return count;
}

/* The results of each event that the lines of a script number from 1 on. */
static const struct {
    const char *word;
    dachreup_result results[6];
} faults[] = {
    {"open", {DACHREUP_FULL, DACHREUP_IDS_SPENT}},
    {"put", {DACHREUP_NO_SUCH, DACHREUP_TOO_LARGE, DACHREUP_LIMIT, DACHREUP_BAD_PATH, DACHREUP_VERSIONS_SPENT}},
    {"tick", {DACHREUP_BACKWARDS}},
    {"release", {DACHREUP_NO_SUCH, DACHREUP_NOT_OPEN, DACHREUP_QUEUE_FULL, DACHREUP_PEER_TOO_SMALL}},
    {"respond", {DACHREUP_NO_SUCH, DACHREUP_NO_SUCH_REQUEST, DACHREUP_NOT_A_RESPONSE, DACHREUP_QUEUE_FULL}},
    {"", {DACHREUP_NO_SUCH, DACHREUP_TOO_MANY}},
};

/* Writes the line of an event that fails, and returns whether it failed. */
static int fails(const char *word, uint64_t id, dachreup_result result) {
    unsigned place = 0, number = 1;
    if (result == DACHREUP_OK)
        return 0;
    while (*faults[place].word && strcmp(faults[place].word, word))
        place++;
    while (number <= 6 && faults[place].results[number - 1] != result)
        number++;
    printf("%s ", word);
    if (id)
        printf("%" PRIu64 " ", id);
    printf("fault %u\n", number);
    return 1;
}

static void take(uint64_t id, size_t count) {
    struct dachreup_took took = {0};
    struct dachreup_status status = {0};
    size_t at = 0;
    if (fails("in", id, dachreup_server_status(&server, id, &status)))
        return;
    do {
        check("take", dachreup_server_take(&server, id, bytes + at, count - at, &took), 0);
        follow_request(took.changed);
        at += took.bytes;
    } while (took.bytes && at < count);
    check("status", dachreup_server_status(&server, id, &status), 0);
    printf("in %" PRIu64 " %zu", id, at);
    if (status.phase >= DACHREUP_PHASE_RELEASING)
        printf(" stop %u", (unsigned)status.reason);
    puts("");
}

static void drain(uint64_t id, size_t most) {
    struct dachreup_parts parts = {{0}, {0}};
    if (fails("drain", id, dachreup_server_parts(&server, id, &parts)))
        return;
    const struct dachreup_span both[2] = {parts.first, parts.second};
    size_t count = 0;
    printf("out %" PRIu64 " ", id);
    for (int half = 0; half < 2; half++)
        for (size_t at = 0; at < both[half].count && count < most; at++, count++)
            printf("%02x", both[half].at[at]);
    puts(count ? "" : "-");
    check("written", dachreup_server_written(&server, id, count), 0);
}

static void status_of(uint64_t id) {
    static const char *const phases[] = {"waiting", "open", "releasing", "stopped"};
    struct dachreup_status it = {0};
    if (fails("status", id, dachreup_server_status(&server, id, &it)))
        return;
    printf("status %" PRIu64 " %s", id, phases[it.phase]);
    if (it.phase >= DACHREUP_PHASE_RELEASING)
        printf(" %u", (unsigned)it.reason);
    printf(" kept %zu waiting %zu pending %zu observers %zu\n", it.kept, it.waiting, it.pending, it.observers);
}

/* Stores or removes a resource, and returns the number of the call. */
static uint32_t store(char **words, int count, uint64_t *version) {
    char path[PATH_ROOM * 4];
    size_t length = plain_path(words[1], path);
    uint32_t format = count == 4 && strcmp(words[2], "-") ? (uint32_t)atol(words[2]) : DACHREUP_NO_FORMAT;
    size_t size = count == 4 ? hex(words[3], strlen(words[3])) : 0;
    uint32_t number = count == 4 ? dachreup_server_put(&server, path, length, format, bytes, size, version)
                                 : dachreup_server_remove(&server, path, length);
    if (number == 0)
        follow(path, length, 1);
    return number;
}

static int is(const char *word, const char *other) { return !strcmp(word, other); }

/* Runs one event, of these words. */
static void event(char **words, int count) {
    uint64_t id = count > 1 ? strtoull(words[1], NULL, 10) : 0, number = 0;
    const char *word = words[0];
    if (is(word, "open")) {
        if (!fails(word, 0, dachreup_server_open(&server, &number)))
            printf("open %" PRIu64 "\n", number);
    } else if (is(word, "in"))
        take(id, count > 2 ? hex(words[2], strlen(words[2])) : 0);
    else if (is(word, "drain"))
        drain(id, count > 2 ? (size_t)strtoull(words[2], NULL, 10) : SIZE_MAX);
    else if (is(word, "status"))
        status_of(id);
    else if (is(word, "put")) {
        if (!fails(word, 0, store(words, count, &number)))
            printf("put %" PRIu64 "\n", number);
    } else if (is(word, "remove")) {
        if (!fails(word, 0, store(words, count, &number)))
            printf("remove %s\n", words[1]);
    } else if (is(word, "tick")) {
        if (!fails(word, 0, dachreup_server_tick(&server, id)))
            printf("tick %" PRIu64 "\n", id);
    } else {
        uint32_t failure = is(word, "end")    ? dachreup_server_ended(&server, id)
                           : is(word, "drop") ? dachreup_server_drop(&server, id)
                           : is(word, "release")
                               ? dachreup_server_release(&server, id)
                               : dachreup_server_respond(&server, id, bytes, hex(words[2], strlen(words[2])), NULL);
        if (!fails(word, id, failure))
            printf("%s %" PRIu64 "\n", word, id);
    }
}

int main(int count, char **words) {
    struct dachreup_settings settings = DACHREUP_SETTINGS(0);
    size_t *values[7] = {&settings.max_message, &settings.max_sent,    &settings.queue,      &settings.pending,
                         &settings.observers,   &settings.connections, &settings.dynamic_max};
    static char line[2 * LINE];
    for (int at = 1; at < count && at < 8; at++)
        *values[at - 1] = strtoull(words[at], NULL, 10);
    settings.rep_max = 65000;
    if (dachreup_server_new(&server, &settings))
        return 2;
    while (fgets(line, sizeof line, stdin)) {
        char *parts[4] = {line, line, line, line};
        int some = 0;
        line[strcspn(line, "\n")] = 0;
        for (char *part = strtok(line, " "); part && some < 4; part = strtok(NULL, " "))
            parts[some++] = part;
        if (some && *line != '#')
            event(parts, some);
    }
    dachreup_server_free(&server);
    return failed;
}
