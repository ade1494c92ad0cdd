/*
 * Measures changes from one end to the other, a fixed number under way at once, each of its own resource or topic.
 *
 *     changes coap PORT OTHER COUNT WINDOW                 PUT at one gateway, notification at the other
 *     changes mqtt PORT USER PASSWORD COUNT WINDOW         publication by one client, message to another
 *
 * All addresses are 127.0.0.1. A change is over when it has come to the other end; then the next one of its resource
 * begins.
 * Prints changes a second, and the latencies at 50 % and 99 % in microseconds. The status is 1 if a change does not
 * come.
 */
#define _GNU_SOURCE
#include <arpa/inet.h>
#include <errno.h>
#include <mosquitto.h>
#include <mqtt_protocol.h>
#include <netinet/tcp.h>
#include <poll.h>
#include <stdint.h>
#include <stdio.h>
#include <stdlib.h>
#include <string.h>
#include <time.h>
#include <unistd.h>

enum { MOST = 64, DIGITS = 10, BUFFER = 1 << 16, PATIENCE = 10000 };

static double began[MOST], *latencies, first;
static long numbers[MOST], count, started, ended;
static int window;

static double now(void) {
    struct timespec time;
    clock_gettime(CLOCK_MONOTONIC, &time);
    return (double)time.tv_sec * 1e6 + (double)time.tv_nsec / 1e3;
}

static int fail(const char *text) {
    fprintf(stderr, "changes: %s (%ld of %ld)\n", text, ended, count);
    exit(1);
}

/* Writes the state that the next change of a resource has, and returns it, or NULL if all changes have begun. */
static const char *next_state(int at) {
    static char text[DIGITS + 1];
    if (started == count)
        return NULL;
    numbers[at] = started++;
    began[at] = now();
    snprintf(text, sizeof text, "%0*ld", DIGITS, numbers[at]);
    return text;
}

/* Returns 1 if this state ends the change of its resource that is under way. */
static int is_over(int at, const char *state) {
    char text[DIGITS + 1] = "";
    if (at < 0 || at >= window)
        return 0;
    memcpy(text, state, DIGITS);
    if (strspn(text, "0123456789") != DIGITS || atol(text) != numbers[at] || ended == count)
        return 0;
    latencies[ended++] = now() - began[at];
    numbers[at] = -1;
    return 1;
}

static int compare(const void *one, const void *other) {
    double left = *(const double *)one, right = *(const double *)other;
    return left < right ? -1 : left > right;
}

static void report(void) {
    double seconds = (now() - first) / 1e6;
    qsort(latencies, (size_t)count, sizeof *latencies, compare);
    printf("%.1f %.1f %.1f\n", (double)count / seconds, latencies[count / 2], latencies[count * 99 / 100]);
}

/* ---- CoAP ---- */

struct end {
    int socket;
    size_t kept;
    uint8_t bytes[BUFFER];
};

static struct end writer, observer;

static void put_all(const struct end *end, const void *bytes, size_t length) {
    if (send(end->socket, bytes, length, MSG_NOSIGNAL) != (ssize_t)length)
        fail("cannot send");
}

static void open_end(struct end *end, int port) {
    struct sockaddr_in address = {
        .sin_family = AF_INET, .sin_port = htons((uint16_t)port), .sin_addr = {htonl(INADDR_LOOPBACK)}};
    int yes = 1;
    end->socket = socket(AF_INET, SOCK_STREAM, 0);
    setsockopt(end->socket, IPPROTO_TCP, TCP_NODELAY, &yes, sizeof yes);
    if (connect(end->socket, (struct sockaddr *)&address, sizeof address))
        fail("cannot connect");
    put_all(end, "\x00\xe1", 2);
}

/* Sends a request for /shared/NN. Its token is one byte, the number of the resource. Observe 0 is an empty option. */
static void request(const struct end *end, int code, int at, int observes, const char *state) {
    uint8_t message[64] = {0};
    size_t length = 4;
    if (observes)
        message[length++] = 0x60;
    length += (size_t)sprintf((char *)message + length, "%cshared\x02%02d", observes ? 0x56 : 0xB6, at);
    if (state)
        length += (size_t)sprintf((char *)message + length, "\xff%s", state);
    /* The length of the options and the payload is 13 or more, so it has one extension byte. */
    uint8_t body = (uint8_t)(length - 4);
    size_t skipped = body < 13;
    message[skipped] = (uint8_t)(body < 13 ? body << 4 | 1 : 0xD1);
    if (!skipped)
        message[1] = (uint8_t)(body - 13);
    message[2] = (uint8_t)code;
    message[3] = (uint8_t)at;
    put_all(end, message + skipped, length - skipped);
}

/* Reads what has arrived. Calls `handle` for each whole message: its token, and its last bytes. */
static void receive(struct end *end, void (*handle)(int at, const char *state)) {
    ssize_t got = recv(end->socket, end->bytes + end->kept, BUFFER - end->kept, MSG_DONTWAIT);
    if (got == 0 || (got < 0 && errno != EAGAIN))
        fail("the connection ended");
    end->kept += got > 0 ? (size_t)got : 0;
    size_t start = 0;
    while (end->kept - start >= 4) {
        const uint8_t *at = end->bytes + start;
        size_t nibble = at[0] >> 4, extension = nibble == 13, token = at[0] & 15u;
        size_t size = 2 + extension + token + (extension ? 13u + at[1] : nibble);
        if (nibble > 13 || size > end->kept - start)
            break;
        if (token == 1 && size > DIGITS)
            handle(at[2 + extension], (const char *)at + size - DIGITS);
        start += size;
    }
    memmove(end->bytes, end->bytes + start, end->kept - start);
    end->kept -= start;
}

static void ignore(int at, const char *state) {
    (void)at;
    (void)state;
}

static void change(int at) {
    const char *state = next_state(at);
    if (state)
        request(&writer, 3, at, 0, state);
}

static void on_notification(int at, const char *state) {
    if (is_over(at, state))
        change(at);
}

static void run_coap(int port, int other) {
    open_end(&writer, port);
    open_end(&observer, other);
    for (int at = 0; at < window; at++)
        request(&writer, 3, at, 0, "before....");
    usleep(500000);
    for (int at = 0; at < window; at++)
        request(&observer, 1, at, 1, NULL);
    usleep(300000);
    receive(&observer, ignore);
    first = now();
    for (int at = 0; at < window; at++)
        change(at);
    while (ended < count) {
        struct pollfd ready[2] = {{writer.socket, POLLIN, 0}, {observer.socket, POLLIN, 0}};
        if (poll(ready, 2, PATIENCE) <= 0)
            fail("a change did not come");
        if (ready[0].revents)
            receive(&writer, ignore);
        if (ready[1].revents)
            receive(&observer, on_notification);
    }
}

/* ---- MQTT ---- */

static struct mosquitto *publisher, *subscriber;
static int connected, is_subscribed;

static void publish(int at) {
    char topic[32];
    const char *state = next_state(at);
    snprintf(topic, sizeof topic, "shared/%02d", at);
    if (state && mosquitto_publish_v5(publisher, NULL, topic, DIGITS, state, 1, true, NULL))
        fail("cannot publish");
}

static void on_connect(struct mosquitto *client, void *owner, int reason) {
    (void)owner;
    if (reason)
        fail("refused");
    connected++;
    if (client == subscriber)
        mosquitto_subscribe_v5(client, NULL, "shared/#", 1,
                               MQTT_SUB_OPT_RETAIN_AS_PUBLISHED | MQTT_SUB_OPT_SEND_RETAIN_NEVER, NULL);
}

static void on_subscribe(struct mosquitto *client, void *owner, int message, int topics, const int *granted) {
    (void)client, (void)owner, (void)message, (void)topics, (void)granted;
    is_subscribed = 1;
}

static void on_message(struct mosquitto *client, void *owner, const struct mosquitto_message *message) {
    (void)client, (void)owner;
    int at = strlen(message->topic) > 7 ? atoi(message->topic + 7) : -1;
    if (message->payloadlen == DIGITS && is_over(at, message->payload))
        publish(at);
}

static struct mosquitto *open_client(int port, const char *user, const char *password) {
    struct mosquitto *client = mosquitto_new(NULL, true, NULL);
    mosquitto_int_option(client, MOSQ_OPT_PROTOCOL_VERSION, MQTT_PROTOCOL_V5);
    mosquitto_int_option(client, MOSQ_OPT_RECEIVE_MAXIMUM, 65535);
    mosquitto_int_option(client, MOSQ_OPT_SEND_MAXIMUM, 65535);
    mosquitto_int_option(client, MOSQ_OPT_TCP_NODELAY, 1);
    mosquitto_username_pw_set(client, user, password);
    mosquitto_connect_callback_set(client, on_connect);
    mosquitto_subscribe_callback_set(client, on_subscribe);
    mosquitto_message_callback_set(client, on_message);
    if (mosquitto_connect(client, "127.0.0.1", port, 60))
        fail("cannot connect");
    return client;
}

static void step(void) {
    struct mosquitto *both[2] = {publisher, subscriber};
    struct pollfd ready[2];
    for (int at = 0; at < 2; at++)
        ready[at] = (struct pollfd){mosquitto_socket(both[at]),
                                    (short)(POLLIN | (mosquitto_want_write(both[at]) ? POLLOUT : 0)), 0};
    if (poll(ready, 2, PATIENCE) <= 0)
        fail("a message did not come");
    for (int at = 0; at < 2; at++) {
        if ((ready[at].revents & POLLOUT) && mosquitto_loop_write(both[at], 1))
            fail("cannot write");
        for (errno = 0; (ready[at].revents & POLLIN) && errno != EAGAIN;) {
            errno = 0;
            if (mosquitto_loop_read(both[at], 1))
                fail("cannot read");
        }
    }
}

static void run_mqtt(int port, const char *user, const char *password) {
    mosquitto_lib_init();
    subscriber = open_client(port, user, password);
    publisher = open_client(port, user, password);
    while (connected < 2 || !is_subscribed)
        step();
    first = now();
    for (int at = 0; at < window; at++)
        publish(at);
    while (ended < count)
        step();
}

int main(int words, char **word) {
    if (words != 6 && words != 7)
        return fail("see the comment at the start of the source");
    count = atol(word[words - 2]);
    window = atoi(word[words - 1]);
    latencies = calloc((size_t)count, sizeof *latencies);
    if (!latencies || window < 1 || window > MOST || count < window)
        return fail("bad numbers");
    if (words == 6)
        run_coap(atoi(word[2]), atoi(word[3]));
    else
        run_mqtt(atoi(word[2]), word[3], word[4]);
    report();
    return 0;
}
