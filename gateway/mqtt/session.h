/*
 * A session at the broker: the subscription, the marker, the record of the owner, and the messages.
 *
 * The callbacks of libmosquitto record a fault, and broker.c ends the connection after libmosquitto has returned.
 */
#ifndef COAP_MQTT_SESSION_H
#define COAP_MQTT_SESSION_H

#include "broker.h"

/* Sets the callbacks of a client, whose owner is a broker. */
void session_watch(struct mosquitto *client);

/* Subscribes, so that the broker sends all retained messages. */
void session_subscribe(struct broker *broker);

/* Lets the connection end because a call failed. `error` is the value of errno after it. */
void session_fail(struct broker *broker, const char *what, int result, int error);

#endif
