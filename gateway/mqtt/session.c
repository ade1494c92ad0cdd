#include "session.h"

#include <errno.h>
#include <inttypes.h>
#include <mosquitto.h>
#include <mqtt_protocol.h>
#include <stdarg.h>
#include <stdio.h>
#include <string.h>

#include "guard.h"
#include "log.h"
#include "packets.h"
#include "properties.h"

enum { LACK_ROOM = 120 };

void broker_fail(struct broker *broker, const char *format, ...) {
    va_list arguments;
    if (broker->fault[0])
        return;
    va_start(arguments, format);
    vsnprintf(broker->fault, sizeof broker->fault, format, arguments);
    va_end(arguments);
}

/* Lets the connection end because the broker lacks what every gateway needs. */
static void reject(struct broker *broker, const char *lack) {
    broker_fail(broker, "unsuitable: %s", lack);
    broker->is_unsuitable = true;
}

/* Lets the connection end because another gateway with this id has taken over. */
static void give_way(struct broker *broker) {
    broker_fail(broker, "another gateway has taken over the id %u", (unsigned)broker->options->id);
    broker->gives_way = true;
}

void session_fail(struct broker *broker, const char *what, int result, int error) {
    const char *reason = result == GUARD_FAILED ? "an assertion of libmosquitto failed" : mosquitto_strerror(result);
    broker_fail(broker, "%s: %s", what, result == MOSQ_ERR_ERRNO ? strerror(error) : reason);
}

/* ---- callbacks: they record a fault, and the connection ends after libmosquitto has returned ---- */

/*
 * Returns the size of the largest packet that every connection needs. The record of the owner is smaller than the
 * marker.
 */
static size_t needed_size(const struct broker *broker) {
    size_t subscription = packet_subscribe_size(strlen(broker->filter));
    size_t marker = packet_publish_size(strlen(broker->marker_topic), 0, ORIGIN_LENGTH);
    return subscription > marker ? subscription : marker;
}

/*
 * Reads the properties of a CONNACK, and rejects a broker that lacks something. An absent property stands for no limit.
 */
static void judge(struct broker *broker, const mosquitto_property *properties) {
    char lack[LACK_ROOM] = "";
    uint8_t has_retained = 1, quality = 2, has_wildcards = 1;
    uint32_t limit = PACKET_NO_LIMIT;
    size_t needed = needed_size(broker);
    mosquitto_property_read_byte(properties, MQTT_PROP_RETAIN_AVAILABLE, &has_retained, false);
    mosquitto_property_read_byte(properties, MQTT_PROP_MAXIMUM_QOS, &quality, false);
    mosquitto_property_read_byte(properties, MQTT_PROP_WILDCARD_SUB_AVAILABLE, &has_wildcards, false);
    mosquitto_property_read_int32(properties, MQTT_PROP_MAXIMUM_PACKET_SIZE, &limit, false);
    broker->packet_limit = limit;
    if (!has_retained)
        reject(broker, "it keeps no retained messages (Retain Available is 0)");
    if (!quality)
        reject(broker, "it accepts no publications with QoS 1 (Maximum QoS is 0)");
    if (!has_wildcards)
        reject(broker, "it accepts no subscriptions with wildcards (Wildcard Subscription Available is 0)");
    if (limit >= needed)
        return;
    snprintf(lack, sizeof lack, "it accepts packets of at most %" PRIu32 " bytes, and the gateway sends %zu", limit,
             needed);
    reject(broker, lack);
}

void session_subscribe(struct broker *broker) {
    int result = guarded_subscribe(broker->client, broker->filter, MQTT_SUB_OPT_RETAIN_AS_PUBLISHED);
    if (result)
        session_fail(broker, "cannot subscribe", result, errno);
    broker->state = BROKER_SUBSCRIBING;
    broker->events.begins(broker->events.owner);
}

static void on_connect(struct mosquitto *client, void *owner, int reason, int flags,
                       const mosquitto_property *properties) {
    struct broker *broker = owner;
    (void)client;
    (void)flags;
    if (broker->state != BROKER_CONNECTING) {
        broker_fail(broker, "sent a second CONNACK");
        return;
    }
    if (reason) {
        broker_fail(broker, "refused the connection: %s", mosquitto_reason_string(reason));
        return;
    }
    judge(broker, properties);
    if (!broker->fault[0])
        session_subscribe(broker);
}

/* Publishes a message of the gateway for itself. Its topic is the image of no path, so it is no resource. */
static void publish_control(struct broker *broker, const char *topic, const struct origin *origin, bool is_retained,
                            int *publication) {
    const char *failure = is_retained ? "cannot publish the record of the owner" : "cannot publish the marker";
    char text[ORIGIN_ROOM];
    struct guarded_message message = {.topic = topic, .bytes = text, .is_retained = is_retained};
    message.length = origin_write(text, origin);
    int result = guarded_publish(broker->client, publication, &message);
    if (result)
        session_fail(broker, failure, result, errno);
}

static void on_subscribe(struct mosquitto *client, void *owner, int message, int count, const int *granted,
                         const mosquitto_property *properties) {
    struct broker *broker = owner;
    (void)client;
    (void)message;
    (void)properties;
    /* One call of libmosquitto can read several packets. */
    if (broker->fault[0])
        return;
    if (count == 1 && granted[0] == 0) {
        reject(broker, "it grants subscriptions with QoS 0 alone");
        return;
    }
    if (count != 1 || granted[0] != 1) {
        int reason = count == 1 ? granted[0] : MQTT_RC_UNSPECIFIED;
        broker_fail(broker, "refused the subscription: %s", mosquitto_reason_string(reason));
        return;
    }
    struct origin origin = {broker->run, ++broker->markers};
    publish_control(broker, broker->marker_topic, &origin, false, &broker->marker);
    broker->state = BROKER_READING;
}

/*
 * Notes the acknowledgement of a publication of the gateway for itself. Returns its name, or NULL if it is another one.
 */
static const char *acknowledge_control(struct broker *broker, int publication) {
    int *known = publication == broker->marker ? &broker->marker : &broker->record;
    if (publication != *known)
        return NULL;
    /* A later publication can have this number again. */
    *known = -1;
    return known == &broker->marker ? "marker" : "record of the owner";
}

static void on_publish(struct mosquitto *client, void *owner, int publication, int reason,
                       const mosquitto_property *properties) {
    struct broker *broker = owner;
    (void)client;
    (void)properties;
    broker->packets++;
    const char *name = acknowledge_control(broker, publication);
    if (reason == MQTT_RC_NO_MATCHING_SUBSCRIBERS)
        broker_fail(broker, "it has lost the subscription");
    if (name && reason >= 0x80)
        broker_fail(broker, "refused the %s: %s", name, mosquitto_reason_string(reason));
    else if (!name && reason >= 0x80)
        broker->events.refused(broker->events.owner, publication, reason);
    else if (!name && broker->events.acknowledged)
        broker->events.acknowledged(broker->events.owner, publication);
}

static void on_disconnect(struct mosquitto *client, void *owner, int reason, const mosquitto_property *properties) {
    struct broker *broker = owner;
    (void)client;
    (void)properties;
    if (reason == MQTT_RC_SESSION_TAKEN_OVER)
        give_way(broker);
    /* libmosquitto reports its own errors here too, as small numbers. The result of the call has them. */
    if (reason >= 0x80)
        broker_fail(broker, "ended the connection: %s", mosquitto_reason_string(reason));
}

static void on_log(struct mosquitto *client, void *owner, int level, const char *text) {
    char printed[PRINTED_ROOM];
    (void)client;
    (void)owner;
    if (level == MOSQ_LOG_ERR)
        log_line(LOG_WARNINGS, "broker: %s", printed_name(printed, text, strlen(text)));
}

/* All retained messages have come. Callbacks have no time: the connection is usable from the end of the turn on. */
static void complete(struct broker *broker) {
    broker->state = BROKER_READY;
    broker->is_usable = true;
    broker->events.complete(broker->events.owner);
}

/* The marker has come, so this connection has read the record of the owner, if there is one. */
static void on_marker(struct broker *broker) {
    if (broker->is_usable) {
        complete(broker);
        return;
    }
    broker->has_own_record = !owner_is_lost(&broker->owner);
    struct origin record = owner_next(&broker->owner);
    broker->state = BROKER_OWNING;
    publish_control(broker, broker->owner_topic, &record, true, &broker->record);
}

/*
 * A record of the owner has come, as a retained message or later. mosquitto 2.0.11 sends no DISCONNECT 0x8E, so a
 * gateway whose session was taken over learns it here.
 */
static void on_record(struct broker *broker, const struct origin *record, bool is_retained) {
    bool is_own = record->run == broker->owner.own.run && record->number == broker->owner.own.number;
    if (owner_read(&broker->owner, record)) {
        give_way(broker);
        return;
    }
    if (!is_own || broker->state != BROKER_OWNING)
        return;
    if (!is_retained) {
        reject(broker, "it clears RETAIN although the subscription asks for Retain As Published");
        return;
    }
    broker->owner.is_acknowledged = true;
    complete(broker);
}

/* Handles the messages of gateways for themselves. Their topics are the image of no path. */
static void on_control(struct broker *broker, const struct mosquitto_message *message) {
    char text[ORIGIN_ROOM] = "";
    if (message->payload && message->payloadlen < ORIGIN_ROOM)
        memcpy(text, message->payload, (size_t)message->payloadlen);
    struct origin origin = origin_read(text);
    if (!strcmp(message->topic, broker->owner_topic) && origin.run)
        on_record(broker, &origin, message->retain);
    bool is_marker = origin.run == broker->run && origin.number == broker->markers;
    if (!strcmp(message->topic, broker->marker_topic) && is_marker && broker->state == BROKER_READING)
        on_marker(broker);
}

static void on_message(struct mosquitto *client, void *owner, const struct mosquitto_message *message,
                       const mosquitto_property *properties) {
    struct broker *broker = owner;
    (void)client;
    broker->packets++;
    if (broker->fault[0])
        return;
    if (!strncmp(message->topic, broker->control, strlen(broker->control))) {
        on_control(broker, message);
        return;
    }
    struct broker_message read = {.topic = message->topic,
                                  .bytes = message->payload ? message->payload : (const void *)"",
                                  .length = (size_t)message->payloadlen,
                                  .format = BROKER_NO_FORMAT,
                                  .is_retained = message->retain,
                                  .is_removal = message->payloadlen == 0};
    if (properties_read(&read, properties))
        broker->events.message(broker->events.owner, &read);
    else
        broker_fail(broker, "no memory for the properties of a message");
}

void session_watch(struct mosquitto *client) {
    mosquitto_connect_v5_callback_set(client, on_connect);
    mosquitto_subscribe_v5_callback_set(client, on_subscribe);
    mosquitto_publish_v5_callback_set(client, on_publish);
    mosquitto_message_v5_callback_set(client, on_message);
    mosquitto_disconnect_v5_callback_set(client, on_disconnect);
    mosquitto_log_callback_set(client, on_log);
}
