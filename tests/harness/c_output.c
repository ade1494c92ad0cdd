/* Which connections have output, and when a tick is needed. Run by tests/system/c_library.py.

       c_output steps             checks each kind of change, with three connections
       c_output random SEED       makes random changes, and compares with what the status of each connection says

   Prints each check that fails. */
#include "c_checks.h"
#include <dachreup.h>
#include <stdlib.h>
#include <string.h>

enum { MOST = 6, CHANGES = 20000 };

static struct dachreup_server server;
static uint64_t ids[MOST]; /* of the connections, or 0 */
static const uint8_t csm[2] = {0x00, 0xe1};

/* GET /a, the same with Observe, GET /time with Observe, GET /, GET /async, POST /b, and an empty message. */
static const uint8_t get[5] = {0x21, 0x01, 0x04, 0xb1, 'a'};
static const uint8_t observe[6] = {0x31, 0x01, 0x05, 0x60, 0x51, 'a'};
static const uint8_t clock_of[9] = {0x61, 0x01, 0x06, 0x60, 0x54, 't', 'i', 'm', 'e'};
static const uint8_t root[3] = {0x01, 0x01, 0x07};
static const uint8_t later[9] = {0x61, 0x01, 0x08, 0xb5, 'a', 's', 'y', 'n', 'c'};
static const uint8_t post[5] = {0x21, 0x02, 0x09, 0xb1, 'b'};
static const uint8_t nothing[2] = {0x00, 0x00};

static size_t waiting_of(size_t at) {
    struct dachreup_status status = {0};
    if (ids[at])
        check("status", dachreup_server_status(&server, ids[at], &status), 0);
    return status.waiting;
}

static void drain(size_t at) {
    check("written", dachreup_server_written(&server, ids[at], waiting_of(at)), 0);
}

static void take(size_t at, const uint8_t *bytes, size_t length) {
    struct dachreup_took took;
    check("take", dachreup_server_take(&server, ids[at], bytes, length, &took), 0);
    check("all bytes", (uint32_t)took.bytes, (uint32_t)length);
}

static void put(void) {
    check("put", dachreup_server_put(&server, "a", 1, 0, "x", 1, NULL), 0);
}

/* Returns the places of the connections that are yielded, each as a bit. None may be yielded twice. */
static uint32_t yielded(void) {
    uint32_t all = 0;
    uint64_t id = 0;
    while (!dachreup_server_next_output(&server, &id)) {
        size_t at = 0;
        while (at < MOST && ids[at] != id)
            at++;
        check("an open connection", at < MOST && id, 1);
        check("yielded once", all >> at & 1, 0);
        check("with output", waiting_of(at) > 0, 1);
        all |= 1u << at;
    }
    return all;
}

/* Checks which connections are yielded, and that none is without another call. `others` may be yielded too. */
static void yields_also(const char *what, uint32_t wanted, uint32_t others) {
    uint64_t id = 77;
    check(what, yielded() & ~others, wanted);
    check("no more", dachreup_server_next_output(&server, &id), DACHREUP_NO_MORE);
    check("the id is kept", (uint32_t)id, 77);
}

static void yields(const char *what, uint32_t wanted) {
    yields_also(what, wanted, 0);
}

static void open_server(size_t connections) {
    struct dachreup_settings settings = DACHREUP_SETTINGS(2);
    struct dachreup_applications entries = {0};
    settings.connections = connections;
    check("entries", dachreup_applications_new(&entries, 20), 0);
    check("entry", dachreup_applications_add(&entries, "b", 1, 1 << DACHREUP_POST, NULL, 0), 0);
    check("server", dachreup_server_new_for(&server, &settings, &entries), 0);
    memset(ids, 0, sizeof ids);
}

static void open_connection(size_t at) {
    check("open", dachreup_server_open(&server, &ids[at]), 0);
}

static uint64_t deadline(void) {
    uint64_t time = UINT64_MAX;
    dachreup_result result = dachreup_server_next_deadline(&server, &time);
    if (result)
        check("no deadline", result, DACHREUP_NO_MORE);
    check("a time", result == 0, time != UINT64_MAX);
    return time;
}

/* ---- one change after the other ---- */

enum { A = 1, B = 2, C = 4 };

static void opened(void) {
    uint64_t id = 77;
    check("empty", dachreup_server_next_output(&server, &id), DACHREUP_EMPTY);
    check("empty deadline", dachreup_server_next_deadline(&server, &id), DACHREUP_EMPTY);
    check("kept", (uint32_t)id, 77);
    open_server(3);
    yields("no connection", 0);
    for (size_t at = 0; at < 3; at++)
        open_connection(at);
    yields("the CSM of each", A | B | C);
    for (size_t at = 0; at < 3; at++)
        take(at, csm, sizeof csm);
    yields_also("a CSM of the peer has no response", 0, A | B | C);
    for (size_t at = 0; at < 3; at++)
        drain(at);
    yields("all is written", 0);
}

/* Calls that handle nothing, while C has output. */
static void unhandled(void) {
    static const uint8_t large[60000], accepts_large[6] = {0x40, 0xe1, 0x23, 0x01, 0x00, 0x00};
    struct dachreup_took took;
    check("put", dachreup_server_put(&server, "a", 1, 0, large, sizeof large, NULL), 0);
    take(2, accepts_large, sizeof accepts_large);
    take(2, get, sizeof get);
    take(2, get, sizeof get);
    yields("two large responses", C);
    check("take", dachreup_server_take(&server, ids[2], get, sizeof get, &took), 0);
    check("no room", (uint32_t)took.bytes * 10 + took.handled, DACHREUP_HANDLED_NOTHING);
    yields("no byte was accepted", 0);
    check("no part", dachreup_server_written(&server, ids[2], 0), 0);
    yields("no byte was written", 0);
    check("a part", dachreup_server_written(&server, ids[2], sizeof large), 0);
    yields("a part was written", C);
    take(2, get, 3);
    yields("a part of a message", 0);
    take(2, get + 3, sizeof get - 3);
    yields("its response", C);
    drain(2);
    check("remove", dachreup_server_remove(&server, "a", 1), 0);
    yields("nobody observes", 0);
}

/* A and B observe /a. */
static void notified(void) {
    put();
    yields("nobody observes", 0);
    take(0, observe, sizeof observe);
    take(1, observe, sizeof observe);
    yields("two responses", A | B);
    drain(0);
    drain(1);
    put();
    yields("two notifications", A | B);
    check("a part", dachreup_server_written(&server, ids[0], 1), 0);
    yields("a part was written", A);
    check("no part", dachreup_server_written(&server, ids[0], 0), 0);
    yields("nothing was written", 0);
    drain(0);
    yields("all of A was written, and nothing of B", 0);
    check("too many", dachreup_server_written(&server, ids[1], 100000), DACHREUP_TOO_MANY);
    yields("a call that fails", 0);
    put();
    yields("further notifications", A | B);
    take(2, nothing, sizeof nothing);
    yields("an empty message", 0);
    take(2, root, sizeof root);
    put();
    yields("a response and two notifications", A | B | C);
    for (size_t at = 0; at < 3; at++)
        drain(at);
    check("remove", dachreup_server_remove(&server, "a", 1), 0);
    yields("the resource is gone", A | B);
    drain(0);
    drain(1);
}

/* A change between two calls of next_output. */
static void interrupted(void) {
    uint64_t first = 0;
    put();
    take(0, observe, sizeof observe);
    take(1, observe, sizeof observe);
    yields("two responses", A | B);
    put();
    check("one of them", dachreup_server_next_output(&server, &first), 0);
    check("is A or B", first == ids[0] || first == ids[1], 1);
    put();
    yields("both again", A | B);
    put();
    drain(0);
    yields("what is written before is not yielded", B);
    put();
    check("drop", dachreup_server_drop(&server, ids[0]), 0);
    ids[0] = 0;
    yields("what is dropped is not yielded", B);
    drain(1);
    open_connection(0);
    yields("the CSM of a new one", A);
    take(0, csm, sizeof csm);
    drain(0);
    check("drop", dachreup_server_drop(&server, ids[1]), 0);
    ids[1] = 0;
    put();
    yields("its observer is gone", 0);
    open_connection(1);
    take(1, csm, sizeof csm);
    yields("another one", B);
    drain(1);
}

/* Times, responses of the program, and signalling messages. */
static void timed(void) {
    struct dachreup_took took;
    check("no time", deadline() == UINT64_MAX, 1);
    check("tick", dachreup_server_tick(&server, 100), 0);
    yields("nothing is due", 0);
    take(0, later, sizeof later);
    yields("nothing yet", 0);
    uint64_t due = deadline();
    check("a delayed response", due > 100 && due < 200, 1);
    check("tick before it", dachreup_server_tick(&server, due - 1), 0);
    yields("too early", 0);
    check("the same time", deadline() == due, 1);
    check("tick", dachreup_server_tick(&server, due), 0);
    yields("the delayed response", A);
    check("no time again", deadline() == UINT64_MAX, 1);
    drain(0);
    take(2, clock_of, sizeof clock_of);
    yields("the time", C);
    check("the next second", deadline() == due + 1, 1);
    check("tick", dachreup_server_tick(&server, due + 1), 0);
    yields("the next time", C);
    drain(2);
    check("drop", dachreup_server_drop(&server, ids[2]), 0);
    ids[2] = 0;
    check("nobody needs the time", deadline() == UINT64_MAX, 1);
    open_connection(2);
    take(2, csm, sizeof csm);
    yields("C again", C);
    drain(2);
    check("POST", dachreup_server_take(&server, ids[1], post, sizeof post, &took), 0);
    check("request", (uint32_t)took.request.count, sizeof post);
    yields("the program has not responded", 0);
    check("its deadline", deadline() == due + 21, 1);
    check("respond", dachreup_server_respond(&server, ids[1], "\x01\x44\x09", 3, NULL), 0);
    yields("its response", B);
    check("no deadline", deadline() == UINT64_MAX, 1);
    take(1, post, sizeof post);
    check("5.04", dachreup_server_tick(&server, deadline()), 0);
    yields("no response of the program", B);
    check("announce", dachreup_server_announce(&server, ids[0], 131072), 0);
    yields("a CSM", A);
    check("release", dachreup_server_release(&server, ids[0]), 0);
    yields("a Release", A);
    drain(2);
    check("ended", dachreup_server_ended(&server, ids[2]), 0);
    yields("an end", 0);
    check("a bad token", dachreup_server_take(&server, ids[1], "\x0f\xe1", 2, &took), 0);
    check("stopped", took.handled, DACHREUP_HANDLED_STOPPED);
    yields("an Abort", B);
    dachreup_server_free(&server);
}

static int steps(void) {
    opened();
    unhandled();
    notified();
    interrupted();
    timed();
    return failed;
}

/* ---- random changes ---- */

static uint64_t state;
static uint32_t due, may;     /* the connections that must be yielded, and those that may be */
static size_t before[MOST];   /* their queued bytes before a call */
static uint64_t now;

/* Returns a number below a limit (xorshift64*). */
static size_t below(size_t limit) {
    state ^= state >> 12;
    state ^= state << 25;
    state ^= state >> 27;
    return (size_t)((state * UINT64_C(2685821657736338717) >> 33) % limit);
}

static void remember(void) {
    for (size_t at = 0; at < MOST; at++)
        before[at] = waiting_of(at);
}

/* Notes the connections whose output has grown, and those that have none any more. Returns how many have grown. */
static size_t compare(void) {
    size_t grown = 0;
    for (size_t at = 0; at < MOST; at++) {
        size_t after = waiting_of(at);
        grown += after > before[at];
        if (after > before[at])
            due |= 1u << at;
        if (after == 0)
            due &= ~(1u << at);
    }
    return grown;
}

/* Asks for some of the connections with output, or for all. */
static void ask(size_t times) {
    uint64_t id = 0;
    while (times--) {
        size_t at = 0;
        if (dachreup_server_next_output(&server, &id)) {
            check("all were yielded", due, 0);
            due = may = 0;
            return;
        }
        while (at < MOST && ids[at] != id)
            at++;
        check("an open connection", at < MOST && id, 1);
        check("after a call that concerns it", at < MOST && (may >> at & 1), 1);
        check("with output", at < MOST && waiting_of(at) > 0, 1);
        due &= at < MOST ? ~(1u << at) : 0;
        may &= at < MOST ? ~(1u << at) : 0;
    }
}

static void tick(void) {
    uint64_t last = deadline();
    may = UINT32_MAX;
    now += below(4) ? below(3) : below(30);
    check("tick", dachreup_server_tick(&server, now), 0);
    size_t grown = compare();
    if (now < last)
        check("a tick that was not needed", (uint32_t)grown, 0);
}

/* Writes a part of the queued bytes. */
static void write_some(size_t at) {
    size_t count = below(2) ? before[at] : below(before[at] + 1);
    check("written", dachreup_server_written(&server, ids[at], count), 0);
    may |= count ? 1u << at : 0;
    if (count && count < before[at])
        due |= 1u << at;
    compare();
}

static void change(size_t at) {
    static const struct {
        const uint8_t *bytes;
        size_t length;
    } messages[] = {{observe, sizeof observe}, {clock_of, sizeof clock_of}, {root, sizeof root},
                    {later, sizeof later},     {post, sizeof post},         {nothing, sizeof nothing}};
    struct dachreup_took took;
    size_t kind = below(20), which = below(6);
    may = kind < 2 ? UINT32_MAX : may;
    may |= kind < 6 ? 1u << at : 0;
    if (kind == 0)
        put();
    else if (kind == 1)
        dachreup_ignore(dachreup_server_remove(&server, "a", 1));
    else if (kind == 2)
        dachreup_ignore(dachreup_server_respond(&server, ids[at], "\x01\x44\x09", 3, NULL));
    else if (kind == 3)
        dachreup_ignore(dachreup_server_announce(&server, ids[at], 65536 + (uint32_t)below(100)));
    else if (kind == 4 && below(8) == 0)
        dachreup_ignore(dachreup_server_release(&server, ids[at]));
    else if (kind == 5 && below(8) == 0)
        check("ended", dachreup_server_ended(&server, ids[at]), 0);
    else if (kind > 5) {
        check("take", dachreup_server_take(&server, ids[at], messages[which].bytes, messages[which].length, &took), 0);
        may |= took.handled ? 1u << at : 0;
    }
    compare();
}

static int random_changes(void) {
    open_server(MOST);
    for (size_t number = 0; number < CHANGES; number++) {
        size_t at = below(MOST), kind = below(16);
        remember();
        if (!ids[at]) {
            may |= 1u << at;
            open_connection(at);
            before[at] = 0;
            compare();
            dachreup_ignore(dachreup_server_take(&server, ids[at], csm, sizeof csm, &(struct dachreup_took){0}));
        } else if (kind == 0 && below(8) == 0) {
            check("drop", dachreup_server_drop(&server, ids[at]), 0);
            ids[at] = 0;
            compare();
        } else if (kind == 1)
            tick();
        else if (kind < 5)
            write_some(at);
        else if (kind < 9)
            ask(1 + below(3));
        else
            change(at);
    }
    ask(MOST + 1);
    dachreup_server_free(&server);
    return failed;
}

int main(int count, char **words) {
    if (count == 2 && !strcmp(words[1], "steps"))
        return steps();
    state = count == 3 ? strtoull(words[2], NULL, 10) | 1 : 1;
    return random_changes();
}
