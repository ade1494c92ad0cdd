/*
 * Tests gateway/mqtt/{packets,properties,guard,owner,pauses}.c with libmosquitto.
 *
 *     mqtt_packets sizes     compares computed sizes of packets with the bytes that libmosquitto sends
 *     mqtt_packets memory    reads properties while each allocation fails in turn
 *     mqtt_packets guard     lets assertions of libmosquitto fail, also within a callback
 *     mqtt_packets owner     compares the records of gateways with one id
 *     mqtt_packets pauses    computes pauses
 *
 * The last line is 'N seen, M wrong', and the status is 0 if M is 0.
 */
#include <arpa/inet.h>
#include <assert.h>
#include <linux/sockios.h>
#include <mosquitto.h>
#include <mqtt_protocol.h>
#include <signal.h>
#include <stdio.h>
#include <stdlib.h>
#include <string.h>
#include <sys/ioctl.h>
#include <sys/socket.h>
#include <sys/wait.h>
#include <unistd.h>

#include "guard.h"
#include "owner.h"
#include "packets.h"
#include "pauses.h"
#include "properties.h"

static unsigned long wrong, seen;

static void expect(int holds, const char *what, size_t got, size_t wanted) {
    seen++;
    if (!holds && wrong++ < 10)
        printf("%s: got %zu, wanted %zu\n", what, got, wanted);
}

static void expect_same(const char *what, size_t got, size_t wanted) {
    expect(got == wanted, what, got, wanted);
}

/* ---- a client, and the other end of its connection ---- */

struct link {
    struct mosquitto *client;
    int peer;
    int is_connected;
    int (*on_connect)(struct link *link); /* called in the callback, or NULL */
};

static void on_connect(struct mosquitto *client, void *owner, int reason, int flags,
                       const mosquitto_property *properties) {
    struct link *link = owner;
    (void)client, (void)flags, (void)properties;
    link->is_connected = reason == 0;
    if (link->on_connect)
        link->on_connect(link);
}

/* Returns the bytes that the client has written and the peer has not received yet. */
static int bytes_between(const struct link *link) {
    int count = 0;
    ioctl(mosquitto_socket(link->client), SIOCOUTQ, &count);
    return count;
}

/* Sends what the client has queued, and returns the number of bytes that arrived. */
static size_t arrived(struct link *link) {
    static uint8_t bytes[65536];
    size_t size = 0;
    for (;;) {
        bool is_sent = !mosquitto_want_write(link->client) && bytes_between(link) == 0;
        ssize_t got = recv(link->peer, bytes, sizeof bytes, MSG_DONTWAIT);
        size += got > 0 ? (size_t)got : 0;
        if (is_sent && got <= 0)
            return size;
        mosquitto_loop_write(link->client, 1);
    }
}

/* Begins a connection, and lets the peer send a CONNACK. Exits if it cannot. */
static void open_link(struct link *link, const uint8_t *connack, size_t length) {
    struct sockaddr_in at = {.sin_family = AF_INET, .sin_addr.s_addr = htonl(INADDR_LOOPBACK)};
    socklen_t size = sizeof at;
    int listener = socket(AF_INET, SOCK_STREAM, 0);
    link->client = mosquitto_new("test", true, link);
    mosquitto_int_option(link->client, MOSQ_OPT_PROTOCOL_VERSION, MQTT_PROTOCOL_V5);
    mosquitto_int_option(link->client, MOSQ_OPT_SEND_MAXIMUM, 65535);
    mosquitto_connect_v5_callback_set(link->client, on_connect);
    if (bind(listener, (struct sockaddr *)&at, size) || listen(listener, 1) ||
        getsockname(listener, (struct sockaddr *)&at, &size) ||
        mosquitto_connect_async(link->client, "127.0.0.1", ntohs(at.sin_port), 60) ||
        (link->peer = accept(listener, NULL, NULL)) < 0)
        exit(2);
    close(listener);
    if (arrived(link) == 0 || write(link->peer, connack, length) != (ssize_t)length)
        exit(2);
}

static void close_link(struct link *link) {
    mosquitto_destroy(link->client);
    close(link->peer);
}

/* CONNACK without properties, and with a Maximum Packet Size of 100. */
static const uint8_t CONNACK[] = {0x20, 3, 0, 0, 0}, CONNACK_100[] = {0x20, 8, 0, 0, 5, 0x27, 0, 0, 0, 100};

/* ---- sizes ---- */

/* Publishes a message, and compares the computed size with the bytes that arrived, and the room with the payload. */
static void try_publish(struct link *link, size_t topic_length, size_t payload, size_t properties_length,
                        mosquitto_property *properties) {
    static char topic[1024], bytes[3000000];
    memset(topic, 't', topic_length);
    topic[topic_length] = 0;
    struct guarded_message message = {topic, bytes, payload, true, properties};
    int result = guarded_publish(link->client, NULL, &message);
    size_t size = packet_publish_size(topic_length, properties_length, payload), got = arrived(link);
    expect_same("result of a publication", (size_t)result, 0);
    expect_same("size of a publication", size, got);
    expect_same("room of a publication", packet_publish_room(topic_length, properties_length, size), payload);
    size_t smaller = packet_publish_room(topic_length, properties_length, size - 1);
    expect(payload ? smaller < payload : smaller == 0, "room of one byte less", smaller, payload);
    mosquitto_property_free_all(&properties);
}

/* Payloads around each size at which a length needs another byte. */
static void try_payloads(struct link *link, size_t topic, int is_empty, uint32_t format) {
    static const size_t edges[] = {127, 16383};
    struct origin origin = {UINT64_MAX, UINT64_MAX};
    size_t properties_length = properties_size(is_empty, format);
    for (size_t edge = 0; edge < 2; edge++)
        for (size_t remaining = edges[edge] - 3; remaining < edges[edge] + 4; remaining++) {
            mosquitto_property *properties = NULL;
            size_t head = packet_publish_size(topic, properties_length, 0) - 2;
            if (head > remaining || !properties_make(&properties, is_empty, format, &origin))
                continue;
            try_publish(link, topic, remaining - head, properties_length, properties);
        }
}

static void try_properties(struct link *link) {
    static char value[20000];
    for (size_t length = 100; length < 16500; length = length == 200 ? 16300 : length + 1) {
        mosquitto_property *properties = NULL;
        memset(value, 'v', length);
        value[length] = 0;
        mosquitto_property_add_string_pair(&properties, MQTT_PROP_USER_PROPERTY, "name", value);
        try_publish(link, 10, 5, 5 + 4 + length, properties);
    }
}

static void try_subscription(struct link *link, size_t length) {
    static char filter[1024];
    memset(filter, 'f', length);
    filter[length] = 0;
    expect_same("result of a subscription", (size_t)guarded_subscribe(link->client, filter, 0), 0);
    expect_same("size of a subscription", packet_subscribe_size(length), arrived(link));
}

static void check_sizes(void) {
    static const uint32_t formats[] = {0, 9, 10, 50, 99, 100, 65535, BROKER_NO_FORMAT};
    static const size_t topics[] = {1, 8, 20, 100, 748, 1000};
    struct link link = {0};
    open_link(&link, CONNACK, sizeof CONNACK);
    while (!link.is_connected)
        guarded_read(link.client);
    for (size_t topic = 0; topic < sizeof topics / sizeof *topics; topic++)
        for (size_t format = 0; format < sizeof formats / sizeof *formats; format++)
            for (int is_empty = 0; is_empty < 2; is_empty++)
                try_payloads(&link, topics[topic], is_empty, formats[format]);
    try_properties(&link);
    for (size_t payload = 2097100; payload < 2097160; payload += payload < 2097130 || payload > 2097145 ? 10 : 1)
        try_publish(&link, 8, payload, 0, NULL);
    for (size_t length = 1; length < 1000; length = length == 130 ? 990 : length + 1)
        try_subscription(&link, length);
    close_link(&link);
}

/* ---- memory ---- */

extern void *__libc_calloc(size_t, size_t);

static long allocations_left = -1;

/* libmosquitto calls this function. */
void *calloc(size_t count, size_t size) {
    return allocations_left >= 0 && allocations_left-- == 0 ? NULL : __libc_calloc(count, size);
}

static void check_memory(void) {
    mosquitto_property *properties = NULL;
    struct origin origin = {7, 8};
    long tried = 0;
    properties_make(&properties, true, 50, &origin);
    for (bool is_read = false; !is_read && tried < 100; tried++) {
        struct broker_message message = {.length = 1, .format = BROKER_NO_FORMAT};
        allocations_left = tried;
        is_read = properties_read(&message, properties);
        bool is_refused = allocations_left < 0;
        allocations_left = -1;
        expect_same("read without memory", is_read, !is_refused);
        if (is_read)
            expect_same("content", message.format * 100 + message.origin.run * 10 + message.origin.number, 5078);
        if (is_read)
            expect_same("length", message.length, 0);
    }
    expect_same("allocations", (size_t)tried, 2 * 3 + 1);
    mosquitto_property_free_all(&properties);
}

/* ---- the guard ---- */

/* libmosquitto finds that this publication is too large only when it sends it. */
static int publish_too_large(struct link *link) {
    static char bytes[100];
    struct guarded_message message = {"topic", bytes, 0, false, NULL};
    while (packet_publish_size(5, 0, message.length) < 102)
        message.length++;
    return guarded_publish(link->client, NULL, &message);
}

/* An assertion that is not one of libmosquitto. */
static int fail_assertion(struct link *link) {
    assert(link == NULL);
    return 0;
}

/* Returns the status of a process that connects and calls a function in the callback. */
static int status_after(int (*call)(struct link *link)) {
    int status = 0;
    pid_t child = fork();
    if (child == 0) {
        struct link link = {.on_connect = call};
        freopen("/dev/null", "w", stderr);
        open_link(&link, CONNACK, sizeof CONNACK);
        while (guarded_read(link.client) == 0)
            ;
        _exit(0);
    }
    waitpid(child, &status, 0);
    return WIFSIGNALED(status) ? WTERMSIG(status) : -1;
}

static void check_guard(void) {
    struct link link = {0}, inner = {.on_connect = publish_too_large};
    open_link(&link, CONNACK_100, sizeof CONNACK_100);
    while (!link.is_connected)
        guarded_read(link.client);
    expect_same("a publication that is too large", (size_t)publish_too_large(&link), (size_t)GUARD_FAILED);
    close_link(&link);
    open_link(&inner, CONNACK_100, sizeof CONNACK_100);
    int result = 0;
    while (!inner.is_connected && result == 0)
        result = guarded_read(inner.client);
    expect_same("connected", (size_t)inner.is_connected, 1);
    expect_same("a publication in a callback", (size_t)result, (size_t)GUARD_FAILED);
    close_link(&inner);
    expect_same("status after a failed assertion of this program", (size_t)status_after(fail_assertion), SIGABRT);
    struct link again = {0};
    open_link(&again, CONNACK, sizeof CONNACK);
    while (!again.is_connected)
        guarded_read(again.client);
    expect_same("a later client", (size_t)again.is_connected, 1);
    close_link(&again);
}

/* ---- owners and pauses ---- */

static struct owner owner_of(uint64_t run) {
    return (struct owner){.own.run = run};
}

/* Lets a run connect and read a record. Returns true if it gives way. */
static bool connects(struct owner *owner, const struct origin *retained, struct origin *published) {
    owner_begin(owner);
    if (retained->run && owner_read(owner, retained)) {
        owner_give_way(owner);
        return true;
    }
    *published = owner_next(owner);
    owner->is_acknowledged = true;
    return false;
}

static void check_owner(void) {
    struct owner one = owner_of(11), two = owner_of(10);
    struct origin record = {0};
    expect_same("the first run connects", connects(&one, &record, &record), 0);
    expect_same("its record", record.run * 100 + record.number, 1101);
    expect_same("the second run takes over", connects(&two, &record, &record), 0);
    expect_same("its record", record.run * 100 + record.number, 1002);
    struct origin restored = {11, 1}, before = record;
    expect_same("the first run gives way", connects(&one, &record, &record), 1);
    expect_same("the record stays", record.run * 100 + record.number, 1002);
    expect_same("the second run goes on", connects(&two, &record, &record), 0);
    expect_same("its record is the same", record.run * 100 + record.number, before.run * 100 + before.number);
    expect_same("then the first run takes over", connects(&one, &record, &record), 0);
    expect_same("its record", record.run * 100 + record.number, 1103);
    expect_same("the second run gives way", connects(&two, &record, &record), 1);
    expect_same("an older state of the broker", connects(&one, &restored, &record), 0);
    expect_same("its record", record.run * 100 + record.number, 1103);
    expect_same("lost", owner_is_lost(&one), 1);
    restored = (struct origin){12, 2};
    expect_same("an older record of another run", connects(&one, &restored, &record), 0);
    struct origin none = {0};
    expect_same("an empty broker", connects(&one, &none, &record), 0);
    expect_same("lost", owner_is_lost(&one), 1);
    expect_same("its own record", connects(&one, &record, &record), 0);
    expect_same("not lost", owner_is_lost(&one), 0);
    for (uint64_t number = 0; number < 70; number++) {
        /* Whatever a forged record says, the run gives way once at most, and then its record is later. */
        struct owner run = owner_of(5);
        struct origin forged = {UINT64_MAX, number < 64 ? UINT64_MAX >> number : number}, first = {0}, again = {0};
        connects(&run, &none, &first);
        if (connects(&run, &forged, &again))
            expect_same("no second time", connects(&run, &forged, &again), 0);
        expect_same("the later one", owner_read(&run, &forged), 0);
        struct owner other = owner_of(6);
        struct origin published = {0};
        expect_same("another run takes over", connects(&other, &again, &published), 0);
        expect_same("the run gives way to it", owner_read(&run, &published), 1);
    }
}

static void check_pauses(void) {
    static const unsigned seconds[] = {1, 2, 4, 8, 16, 32, 60, 60, 60};
    for (unsigned count = 0; count < 1000; count++) {
        uint64_t least = 1000u * (count < 9 ? seconds[count] : 60), pause = pause_after(count);
        expect(pause >= least && pause <= least + least / 4, "pause", pause, least);
    }
    unsigned different = 0;
    for (unsigned count = 0; count < 100; count++)
        different += pause_after(7) != pause_after(7);
    expect(different > 50, "different pauses", different, 100);
}

int main(int count, char **words) {
    static const struct {
        const char *name;
        void (*check)(void);
    } checks[] = {{"sizes", check_sizes},
                  {"memory", check_memory},
                  {"guard", check_guard},
                  {"owner", check_owner},
                  {"pauses", check_pauses}};
    mosquitto_lib_init();
    for (size_t at = 0; at < sizeof checks / sizeof *checks; at++)
        if (count == 2 && !strcmp(words[1], checks[at].name))
            checks[at].check();
    printf("%lu seen, %lu wrong\n", seen, wrong);
    return wrong || !seen;
}
