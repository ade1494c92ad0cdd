#include "gateway.h"

#include <errno.h>
#include <signal.h>
#include <string.h>
#include <sys/epoll.h>
#include <time.h>
#include <unistd.h>

#include "exchange.h"
#include "health.h"
#include "log.h"
#include "screen.h"

enum {
    EVENTS_A_TURN = 64,
    STALLED = 5000,          /* milliseconds of a turn after which the broker may have dropped messages */
    LOOK_FOR_NAME = 20,      /* milliseconds of a turn while the name of the broker is being resolved */
    QUIET = 60000,           /* milliseconds without need of a reading, after which the pauses are short again */
    TIME_FOR_ECHOES = 700,   /* milliseconds after a signal in which echoes are awaited */
    TIME_TO_END = 950        /* milliseconds after a signal in which queued bytes are written */
};

/* Least milliseconds between two readings on one connection. A peer can cause one by each DELETE, at every gateway. */
static const uint64_t pauses[] = {1000, 10000, 60000};

static volatile sig_atomic_t stops;

static void on_signal(int number) {
    (void)number;
    stops = 1;
}

static uint64_t milliseconds_of(clockid_t clock) {
    struct timespec time = {0};
    clock_gettime(clock, &time);
    return (uint64_t)time.tv_sec * 1000 + (uint64_t)time.tv_nsec / 1000000;
}

static uint64_t milliseconds(void) {
    return milliseconds_of(CLOCK_MONOTONIC);
}

static uint64_t real_milliseconds(void) {
    return milliseconds_of(CLOCK_REALTIME);
}

/* ---- readings of the retained messages ---- */

static void on_begin(void *owner) {
    struct gateway *gateway = owner;
    mirror_begin(&gateway->mirror);
}

/* Returns what the first reading on a connection says of the broker. The owner record is retained as resources are. */
static const char *remark(const struct gateway *gateway) {
    if (gateway->broker.has_own_record)
        return "connected again";
    return gateway->mirror.count + gateway->mirror.left_out ? "it has an older state" : "it is empty";
}

static void on_complete(void *owner) {
    struct gateway *gateway = owner;
    struct mirror *mirror = &gateway->mirror;
    bool is_again = gateway->is_complete && gateway->read != gateway->broker.losses;
    mirror_end(mirror);
    exchange_complete(gateway);
    gateway->is_complete = true;
    gateway->reading = gateway->now;
    gateway->read = gateway->broker.losses;
    log_line(is_again ? LOG_WARNINGS : LOG_CONNECTIONS,
             "broker: %s%s%zu resources, %llu new, %llu removed, %llu left out", is_again ? remark(gateway) : "",
             is_again ? ": " : "", mirror->count, (unsigned long long)mirror->came, (unsigned long long)mirror->went,
             (unsigned long long)mirror->left_out);
}

/* ---- the loop ---- */

/*
 * Returns the time of the server in milliseconds. If the system's clock is set back, the time continues by the
 * monotonic clock, as in coap-server: otherwise requests would wait for their deadlines until the clock is there again.
 */
static uint64_t server_time(struct gateway *gateway) {
    int64_t monotonic = (int64_t)milliseconds(), ahead = (int64_t)real_milliseconds() - monotonic;
    if (ahead > gateway->ahead)
        gateway->ahead = ahead;
    return (uint64_t)(monotonic + gateway->ahead);
}

/* Sets the time of the server. Returns true if a new second has begun. */
static bool tick(struct gateway *gateway) {
    uint64_t second = server_time(gateway) / 1000;
    if (second == gateway->second)
        return false;
    gateway->second = second;
    dachreup_ignore(dachreup_server_tick(&gateway->server, second));
    return true;
}

/* A broker drops messages for a subscriber that does not read. A new connection reads them all. */
static void check_stall(struct gateway *gateway, uint64_t now) {
    if (gateway->now && now - gateway->now > STALLED && gateway->broker.client)
        broker_fail(&gateway->broker, "the gateway did not run for %llu ms", (unsigned long long)(now - gateway->now));
    gateway->now = now;
}

/* Returns true if it is time to read all retained messages again on this connection. */
static bool wants_reading(struct gateway *gateway) {
    uint64_t since = gateway->now - gateway->reading, last = sizeof pauses / sizeof *pauses - 1;
    if (mirror_wants_reading(&gateway->mirror)) {
        gateway->wanted = gateway->now;
        if (since < pauses[gateway->pause])
            return false;
        gateway->pause += gateway->pause < last;
        return true;
    }
    if (gateway->now - gateway->wanted >= QUIET)
        gateway->pause = 0;
    /* A broker may have dropped a message. */
    return gateway->options->reread && since >= gateway->options->reread * 60000;
}

static void check_mirror(struct gateway *gateway) {
    struct broker *broker = &gateway->broker;
    if (gateway->mirror.is_out_of_memory && broker->client)
        broker_fail(broker, "no memory for a message");
    gateway->mirror.is_out_of_memory = false;
    if (broker->state == BROKER_READY && wants_reading(gateway))
        broker_read_again(broker, gateway->now);
}

/* Notifies systemd of a change of the health, and once a second the watchdog. */
static void notify_state(struct gateway *gateway, bool is_new_second) {
    bool is_good = health_is_good(gateway);
    if (is_new_second)
        notify_tick(&gateway->notify, gateway->now);
    if (is_good == gateway->was_good || gateway->is_ending)
        return;
    gateway->was_good = is_good;
    notify_send(&gateway->notify, is_good ? "STATUS=Connected to the broker, with %zu resources."
                                          : "STATUS=Not connected to the broker; %zu resources are in the mirror.",
                gateway->mirror.count);
}

/* The tasks of each second. */
static void check_second(struct gateway *gateway) {
    peers_tick(&gateway->peers);
    metrics_tick(gateway);
    log_tick();
}

/*
 * Listens from the first complete mirror on, in a later second than the first version: so a gateway that is restarted
 * in the second of its start has given no ETag.
 */
static bool check_listening(struct gateway *gateway) {
    if (gateway->peers.listens || !gateway->is_complete || gateway->second <= gateway->started)
        return true;
    return peers_listen(&gateway->peers);
}

/* Watches the socket of the broker. A closed socket has left epoll, and its number may be in use again. */
static void watch_broker(struct gateway *gateway) {
    int socket = broker_socket(&gateway->broker);
    if (gateway->losses != gateway->broker.losses || socket < 0)
        gateway->watched = -1;
    gateway->losses = gateway->broker.losses;
    if (socket < 0)
        return;
    uint32_t interest = (uint32_t)EPOLLIN | (broker_wants_write(&gateway->broker) ? (uint32_t)EPOLLOUT : 0);
    struct epoll_event event = {.events = interest, .data.u64 = EVENT_BROKER};
    int change = gateway->watched != socket ? EPOLL_CTL_ADD : EPOLL_CTL_MOD;
    bool is_watched = change == EPOLL_CTL_MOD && interest == gateway->interest;
    if (!is_watched && epoll_ctl(gateway->poll, change, socket, &event))
        broker_fail(&gateway->broker, "its socket cannot be watched: %s", strerror(errno));
    gateway->watched = socket;
    gateway->interest = interest;
}

static void handle(struct gateway *gateway, const struct epoll_event *event) {
    uint32_t events = event->events;
    gateway->peers.now = milliseconds();
    if (event->data.u64 == EVENT_LISTENER)
        peers_accept(&gateway->peers);
    else if (event->data.u64 == EVENT_BROKER)
        broker_ready(&gateway->broker, events & (EPOLLIN | EPOLLHUP | EPOLLERR), events & EPOLLOUT, gateway->now);
    else
        peers_ready(&gateway->peers, (size_t)event->data.u64, events);
}

/* Returns the milliseconds until the next second, in which time counts for the server and for the broker. */
static int wait_of(struct gateway *gateway) {
    if (gateway->broker.fault[0])
        return 0;
    if (gateway->broker.state == BROKER_RESOLVING)
        return LOOK_FOR_NAME;
    int wait = 1001 - (int)(server_time(gateway) % 1000);
    int64_t left = gateway->is_ending ? (int64_t)(gateway->ends - gateway->now) : wait;
    return left < 0 ? 0 : left < wait ? (int)left : wait;
}

/* One turn. Returns false if the gateway must end. */
static bool turn(struct gateway *gateway, const sigset_t *signals) {
    struct epoll_event ready[EVENTS_A_TURN];
    check_stall(gateway, milliseconds());
    bool is_new_second = tick(gateway);
    gateway->peers.now = gateway->now;
    if (is_new_second)
        check_second(gateway);
    exchange_check(gateway, is_new_second);
    check_mirror(gateway);
    broker_tick(&gateway->broker, gateway->now);
    if (!check_listening(gateway))
        return false;
    gateway->peers.refuses_reads = gateway->options->refuses_stale && !gateway->broker.is_usable;
    notify_state(gateway, is_new_second);
    /* Responses that had no room may have some after bytes were written. */
    while (peers_serve(&gateway->peers))
        exchange_check(gateway, false);
    watch_broker(gateway);
    int found = epoll_pwait(gateway->poll, ready, EVENTS_A_TURN, wait_of(gateway), signals);
    for (int at = 0; at < found; at++)
        handle(gateway, &ready[at]);
    return true;
}

/* Adds the entry of a path, whose requests with these methods the gateway answers. */
static dachreup_result add_entry(struct dachreup_applications *entries, const char *path, uint32_t methods,
                                 const char *attributes) {
    return dachreup_applications_add(entries, path, strlen(path), methods, attributes, strlen(attributes));
}

static bool open_server(struct gateway *gateway) {
    const struct options *options = gateway->options;
    uint32_t methods = 1u << METHOD_POST | 1u << METHOD_PUT | 1u << METHOD_DELETE | 1u << METHOD_REFUSED;
    gateway->started = server_time(gateway) / 1000;
    struct dachreup_settings settings = dachreup_settings_at(options->resources, gateway->started);
    settings.max_message = options->max_message;
    settings.max_sent = options->max_sent;
    settings.queue = options->queue;
    settings.pending = options->pending;
    settings.observers = options->observers;
    settings.connections = options->connections;
    settings.rep_max = REPRESENTATION_BYTES;
    /* Gateways with different ids never give one ETag to two states, nor does one in two of its runs. */
    settings.versions = (uint64_t)options->id << 48 | gateway->started << 16;
    struct dachreup_applications entries = {0};
    dachreup_result result = dachreup_applications_new(&entries, DEADLINE);
    if (!result)
        result = add_entry(&entries, options->prefix_text, methods, "");
    if (!result && options->health_text)
        result = add_entry(&entries, options->health_text, 1u << METHOD_GET, "rt=\"dachreup.health\"");
    if (!result)
        result = dachreup_server_new_for(&gateway->server, &settings, &entries);
    if (result)
        log_always("cannot make the server: %s", dachreup_error_text(result));
    dachreup_applications_free(&entries);
    return result == DACHREUP_OK;
}

static bool open_all(struct gateway *gateway) {
    const struct options *options = gateway->options;
    struct broker_events events = {.owner = gateway, .begins = on_begin, .message = exchange_message,
                                   .complete = on_complete, .refused = exchange_refused,
                                   .acknowledged = exchange_acknowledged};
    gateway->poll = epoll_create1(EPOLL_CLOEXEC);
    if (gateway->poll < 0 || !open_server(gateway) ||
        !peers_open(&gateway->peers, &gateway->server, options, gateway->poll))
        return false;
    gateway->peers.owner = gateway;
    gateway->peers.request = exchange_request;
    if (!mirror_open(&gateway->mirror, &gateway->server, &options->prefix, options->resources) ||
        !broker_open(&gateway->broker, options, &events) ||
        !writes_open(&gateway->writes, options->in_flight, gateway->broker.run))
        return log_always("no memory"), false;
    gateway->now = milliseconds();
    if (!metrics_write(gateway))
        return log_always("cannot write %s: %s", options->metrics, strerror(errno)), false;
    notify_send(&gateway->notify, "READY=1\nSTATUS=Not connected to the broker yet.");
    return true;
}

/* Lets the signals arrive during the wait alone, so that none is missed. */
static void take_signals(sigset_t *during) {
    sigset_t blocked;
    struct sigaction action = {.sa_handler = on_signal};
    sigemptyset(&blocked);
    sigaddset(&blocked, SIGTERM);
    sigaddset(&blocked, SIGINT);
    sigprocmask(SIG_BLOCK, &blocked, during);
    sigdelset(during, SIGTERM);
    sigdelset(during, SIGINT);
    sigaction(SIGTERM, &action, NULL);
    sigaction(SIGINT, &action, NULL);
}

/* Makes turns until a time, as long as there is something to wait for. */
static void wait_until(struct gateway *gateway, const sigset_t *signals, uint64_t ends, const size_t *something) {
    gateway->ends = ends;
    while (*something && milliseconds() < ends && turn(gateway, signals)) {
    }
}

/* Ends within a second: writes under way get a response, peers a Release, and queued bytes are written. */
static void drain(struct gateway *gateway, const sigset_t *signals) {
    uint64_t now = milliseconds();
    gateway->is_ending = true;
    notify_send(&gateway->notify, "STOPPING=1\nSTATUS=Ends.");
    peers_refuse(&gateway->peers);
    wait_until(gateway, signals, now + TIME_FOR_ECHOES, &gateway->writes.used);
    exchange_end(gateway);
    peers_release(&gateway->peers);
    wait_until(gateway, signals, now + TIME_TO_END, &gateway->peers.open);
}

static void close_all(struct gateway *gateway) {
    notify_close(&gateway->notify);
    broker_close(&gateway->broker);
    peers_close(&gateway->peers);
    writes_close(&gateway->writes);
    mirror_close(&gateway->mirror);
    dachreup_server_free(&gateway->server);
    if (gateway->poll >= 0)
        close(gateway->poll);
}

int gateway_run(const struct options *options) {
    struct gateway gateway = {.options = options, .watched = -1, .poll = -1, .peers.listener = -1, .ahead = INT64_MIN};
    sigset_t signals;
    notify_open(&gateway.notify);
    bool runs = open_all(&gateway);
    take_signals(&signals);
    while (runs && !stops)
        runs = turn(&gateway, &signals);
    if (runs)
        drain(&gateway, &signals);
    if (gateway.is_ending)
        metrics_write(&gateway);
    close_all(&gateway);
    log_close();
    return runs ? STATUS_ENDED : STATUS_FAILED;
}
