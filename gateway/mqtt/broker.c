#include "broker.h"

#include <errno.h>
#include <inttypes.h>
#include <mosquitto.h>
#include <netdb.h>
#include <stdio.h>
#include <stdlib.h>
#include <string.h>
#include <sys/random.h>

#include "guard.h"
#include "log.h"
#include "packets.h"
#include "pauses.h"
#include "properties.h"
#include "resolver.h"
#include "session.h"

/* Seconds of silence after which libmosquitto sends a PINGREQ. */
enum { KEEPALIVE = 12 };

/*
 * Milliseconds of a connection after which the next pause is the first one again: after a loss, and after giving way.
 */
enum { GOOD = 60000, GOOD_FOR_LONG = 600000 };

/* Least milliseconds between two lines about an unsuitable broker. */
enum { REMARK = 60000 };

/* Reads of one turn, so that peers are served between. libmosquitto may read several packets at once. */
enum { READS_A_TURN = 256 };

static void enter(struct broker *broker, enum broker_state state, uint64_t now) {
    broker->state = state;
    broker->since = now;
}

/* FNV-1a of a text. */
static uint32_t hash_of(const char *text) {
    uint32_t hash = UINT32_C(2166136261);
    for (; *text; text++)
        hash = (hash ^ (uint8_t)*text) * UINT32_C(16777619);
    return hash;
}

bool broker_open(struct broker *broker, const struct options *options, const struct broker_events *events) {
    char topic[TOPIC_ROOM];
    *broker = (struct broker){.options = options, .events = *events, .state = BROKER_AWAY, .marker = -1, .record = -1};
    while (broker->run == 0)
        if (getrandom(&broker->run, sizeof broker->run, 0) != (ssize_t)sizeof broker->run)
            return false;
    broker->owner.own.run = broker->run;
    topic_of_path(&options->prefix, topic);
    /*
     * Every broker accepts 23 letters and digits. Gateways with one id and different prefixes have different client
     * ids.
     */
    snprintf(broker->client_id, sizeof broker->client_id, "coapmqtt%05u%08" PRIx32, (unsigned)options->id,
             hash_of(topic));
    snprintf(broker->filter, sizeof broker->filter, "%s/#", topic);
    /* "%g" is no escape, so no path has these topics. */
    snprintf(broker->control, sizeof broker->control, "%s/%%gateway-", topic);
    snprintf(broker->marker_topic, sizeof broker->marker_topic, "%s%u/marker", broker->control, (unsigned)options->id);
    snprintf(broker->owner_topic, sizeof broker->owner_topic, "%s%u/owner", broker->control, (unsigned)options->id);
    return mosquitto_lib_init() == MOSQ_ERR_SUCCESS;
}

void broker_close(struct broker *broker) {
    /* After a fault, a lock of the client may be held. */
    if (broker->client && !broker->fault[0])
        guarded_disconnect(broker->client);
    if (broker->client)
        mosquitto_destroy(broker->client);
    broker->client = NULL;
    mosquitto_lib_cleanup();
}

/* Waits until the next attempt. */
static void stay_away(struct broker *broker, uint64_t pause, uint64_t now) {
    enter(broker, BROKER_AWAY, now + pause);
}

/* Counts an attempt that failed, and returns the pause after it. */
static uint64_t pause_after_failure(struct broker *broker) {
    uint64_t pause = pause_after(broker->failures);
    broker->failures++;
    return pause;
}

/*
 * Returns the pause after a connection. One that was usable leaves the pauses as they are, and they begin anew after
 * one that was good. A gateway that gives way has pauses of its own: two that keep running take turns, once a minute or
 * less.
 */
static uint64_t pause_after_connection(struct broker *broker, uint64_t now) {
    uint64_t lasted = broker->is_usable ? now - broker->usable_since : 0;
    broker->failures = lasted >= GOOD ? 0 : broker->failures;
    broker->retreats = lasted >= GOOD_FOR_LONG ? 0 : broker->retreats;
    if (broker->gives_way)
        return pause_after(broker->retreats++);
    return broker->is_usable ? pause_after(broker->failures) : pause_after_failure(broker);
}

/* Names the fault, and the pause. An unsuitable broker is named at most once a minute. */
static void log_loss(struct broker *broker, uint64_t pause, uint64_t now) {
    if (broker->is_unsuitable && now < broker->remark)
        return;
    if (broker->is_unsuitable)
        broker->remark = now + REMARK;
    unsigned tenths = (unsigned)(pause / 100);
    log_line(LOG_WARNINGS, "broker: %s; next attempt in %u.%u s", broker->fault, tenths / 10, tenths % 10);
}

/* Ends the connection. The client object goes with it, and with that all messages under way. */
static void lose(struct broker *broker, uint64_t now) {
    uint64_t pause = pause_after_connection(broker, now);
    log_loss(broker, pause, now);
    mosquitto_destroy(broker->client);
    broker->client = NULL;
    if (broker->gives_way)
        owner_give_way(&broker->owner);
    /* An address that was good is tried again, otherwise the next one. */
    broker->address += !broker->is_usable;
    broker->is_usable = broker->gives_way = broker->is_unsuitable = false;
    broker->marker = broker->record = -1;
    broker->usable_since = 0;
    broker->fault[0] = 0;
    broker->losses++;
    stay_away(broker, pause, now);
}

/* Refuses to decrypt a key: OpenSSL would ask for the password on a terminal, and the gateway would wait for it. */
static int no_password(char *buffer, int size, int is_writing, void *data) {
    (void)buffer;
    (void)size;
    (void)is_writing;
    (void)data;
    return 0;
}

/* Sets the options of a new client object. Returns the first error. */
static int set_up(struct broker *broker) {
    const struct options *options = broker->options;
    struct mosquitto *client = broker->client;
    int result = mosquitto_int_option(client, MOSQ_OPT_PROTOCOL_VERSION, MQTT_PROTOCOL_V5);
    /* The broker sends as many messages at once as it likes, and the gateway as many as the broker allows. */
    result = result ? result : mosquitto_int_option(client, MOSQ_OPT_RECEIVE_MAXIMUM, 65535);
    result = result ? result : mosquitto_int_option(client, MOSQ_OPT_SEND_MAXIMUM, 65535);
    /*
     * Publications and acknowledgements are small: without this, each waits for the acknowledgement of the one before.
     */
    result = result ? result : mosquitto_int_option(client, MOSQ_OPT_TCP_NODELAY, 1);
    if (!result && options->username)
        result = mosquitto_username_pw_set(client, options->username,
                                           options->password_file ? options->password : NULL);
    if (!result && options->cafile)
        result = mosquitto_tls_set(client, options->cafile, NULL, options->cert, options->key, no_password);
    session_watch(client);
    return result;
}

/* Connects to one of the known addresses. */
static void connect_to_broker(struct broker *broker, uint64_t now) {
    const struct options *options = broker->options;
    resolver_select(broker->address);
    enter(broker, BROKER_CONNECTING, now);
    owner_begin(&broker->owner);
    broker->packet_limit = PACKET_NO_LIMIT;
    broker->progress = now;
    broker->client = mosquitto_new(broker->client_id, true, broker);
    if (!broker->client) {
        log_line(LOG_WARNINGS, "broker: no memory for a connection");
        stay_away(broker, pause_after_failure(broker), now);
        return;
    }
    int result = set_up(broker);
    if (!result)
        result = mosquitto_connect_async(broker->client, options->broker_host, options->broker_port, KEEPALIVE);
    if (result)
        session_fail(broker, "cannot connect", result, errno);
}

/* Connects if the name of the broker has been resolved. */
static void check_name(struct broker *broker, uint64_t now) {
    int error = resolver_check();
    if (error == EAI_INPROGRESS)
        return;
    if (!error) {
        connect_to_broker(broker, now);
        return;
    }
    log_line(LOG_WARNINGS, "broker: cannot resolve its name: %s", gai_strerror(error));
    stay_away(broker, pause_after_failure(broker), now);
}

int broker_socket(const struct broker *broker) {
    return broker->client ? mosquitto_socket(broker->client) : -1;
}

bool broker_wants_write(const struct broker *broker) {
    return broker->client && !broker->fault[0] && mosquitto_want_write(broker->client);
}

/* Records the result of a call. libmosquitto closes the socket of a connection that has ended. */
static void check(struct broker *broker, int result, int error) {
    if (result)
        session_fail(broker, "connection failed", result, error);
    else if (mosquitto_socket(broker->client) < 0)
        broker_fail(broker, "connection ended");
}

static void write_packet(struct broker *broker) {
    errno = 0;
    int result = guarded_write(broker->client);
    check(broker, result, errno);
}

/*
 * Returns true if the broker may send other messages before what this step waits for: retained ones before the marker,
 * and messages that others publish before the answer to a later subscription, or before the record of the owner. Once
 * the broker has acknowledged the record, that is next.
 */
static bool is_after_others(const struct broker *broker) {
    bool is_again = broker->state == BROKER_SUBSCRIBING && broker->is_usable;
    bool is_sent = broker->state == BROKER_OWNING && broker->record >= 0;
    return broker->state == BROKER_READING || is_again || is_sent;
}

/* A connection before packets were read and written. Callbacks have no time. */
struct step {
    enum broker_state state;
    uint64_t packets;
    bool is_after_others;
};

/*
 * A deadline counts from the last step of the connection, or from the last message that may come before the next one.
 */
static void note_step(struct broker *broker, const struct step *before, uint64_t now) {
    bool has_progress = broker->packets != before->packets;
    if (broker->state != before->state || (has_progress && before->is_after_others))
        broker->since = now;
    if (has_progress)
        broker->progress = now;
    if (broker->is_usable && !broker->usable_since)
        broker->usable_since = now;
}

void broker_ready(struct broker *broker, bool may_read, bool may_write, uint64_t now) {
    const struct step before = {broker->state, broker->packets, is_after_others(broker)};
    if (!broker->client || broker->fault[0])
        return;
    if (may_write)
        write_packet(broker);
    /*
     * A call reports by errno alone that there are no more packets. After a publication of a callback, it may report
     * that too early: then epoll reports the socket again.
     */
    for (int calls = 0; may_read && calls < READS_A_TURN && !broker->fault[0]; calls++) {
        errno = 0;
        int result = guarded_read(broker->client), error = errno;
        check(broker, result, error);
        if (error == EAGAIN)
            break;
    }
    /* The acknowledgements of what was read need no turn of their own. */
    if (may_read && broker_wants_write(broker))
        write_packet(broker);
    note_step(broker, &before, now);
}

/* Checks the deadline of a step, and the keep-alive. */
static void check_time(struct broker *broker, uint64_t now) {
    static const char *const steps[] = {
        [BROKER_CONNECTING] = "no connection",
        [BROKER_SUBSCRIBING] = "no answer to the subscription",
        [BROKER_READING] = "the marker did not come",
        [BROKER_OWNING] = "the record of the owner did not come back",
    };
    bool is_step = broker->state != BROKER_READY;
    if (is_step && now - broker->since > BROKER_PATIENCE)
        broker_fail(broker, "%s within %d seconds", steps[broker->state], BROKER_PATIENCE / 1000);
    if (broker->fault[0])
        return;
    errno = 0;
    int result = guarded_misc(broker->client);
    check(broker, result, errno);
}

void broker_tick(struct broker *broker, uint64_t now) {
    if (broker->state == BROKER_AWAY && now >= broker->since) {
        enter(broker, BROKER_RESOLVING, now);
        resolver_begin(broker->options->broker_host);
    }
    if (broker->state == BROKER_RESOLVING)
        check_name(broker, now);
    if (broker->client && !broker->fault[0])
        check_time(broker, now);
    if (broker->client && broker->fault[0])
        lose(broker, now);
}

void broker_read_again(struct broker *broker, uint64_t now) {
    if (broker->fault[0])
        return;
    session_subscribe(broker);
    enter(broker, BROKER_SUBSCRIBING, now);
}

size_t broker_room(const struct broker *broker, const char *topic, uint32_t format) {
    return packet_publish_room(strlen(topic), properties_size(false, format), broker->packet_limit);
}

enum broker_result broker_publish(struct broker *broker, const char *topic, const uint8_t *bytes, size_t length,
                                  uint32_t format, uint64_t number, int *publication) {
    static const uint8_t zero = 0;
    mosquitto_property *properties = NULL;
    int result = MOSQ_ERR_NOMEM;
    struct origin origin = {broker->run, number};
    bool is_empty = bytes && length == 0;
    struct guarded_message message = {topic, is_empty ? &zero : bytes, is_empty ? 1 : length, true, NULL};
    if (broker->fault[0])
        return BROKER_NOT_SENT;
    if (packet_publish_size(strlen(topic), properties_size(is_empty, format), message.length) > broker->packet_limit)
        return BROKER_TOO_LARGE;
    if (properties_make(&properties, is_empty, format, &origin)) {
        message.properties = properties;
        result = guarded_publish(broker->client, publication, &message);
    }
    mosquitto_property_free_all(&properties);
    if (result && result != MOSQ_ERR_NOMEM)
        session_fail(broker, "cannot publish", result, errno);
    /* After another error, the broker may have received the message. The next retained messages show it. */
    return result == MOSQ_ERR_NOMEM || result == MOSQ_ERR_NO_CONN ? BROKER_NOT_SENT : BROKER_SENT;
}
