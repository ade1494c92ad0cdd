/*
 * Calls of libmosquitto that can fail an assertion.
 *
 * Version 2.0.11, Debian's, ends the process by one if a packet has a property that it does not know, or if a packet of
 * its own is too large for the broker: it then logs without a client, which its log function forbids. Here the
 * connection ends instead. This is the last resort: packets.h keeps packets that are too large from libmosquitto.
 *
 * A callback of libmosquitto may make these calls too. An assertion that fails within it leaves the outermost call.
 */
#ifndef COAP_MQTT_GUARD_H
#define COAP_MQTT_GUARD_H

#include <mosquitto.h>
#include <stdbool.h>
#include <stddef.h>

/* Returned if an assertion failed. No error of libmosquitto has this number. */
enum { GUARD_FAILED = -1000 };

/*
 * These functions do the same as those of libmosquitto, with one filter of QoS 1 and with publications of QoS 1.
 * libmosquitto decides how many packets a call reads or writes. After GUARD_FAILED, only mosquitto_destroy may be
 * called with the client.
 */
int guarded_read(struct mosquitto *client);
int guarded_write(struct mosquitto *client);
int guarded_misc(struct mosquitto *client);
int guarded_disconnect(struct mosquitto *client);
int guarded_subscribe(struct mosquitto *client, const char *filter, int options);

/* A publication: its topic, its payload and its properties. */
struct guarded_message {
    const char *topic;
    const void *bytes;
    size_t length;
    bool is_retained;
    const mosquitto_property *properties;
};

int guarded_publish(struct mosquitto *client, int *publication, const struct guarded_message *message);

#endif
