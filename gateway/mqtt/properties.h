/* The user properties of a publication: its Content-Format, whether it is empty, and its origin. */
#ifndef COAP_MQTT_PROPERTIES_H
#define COAP_MQTT_PROPERTIES_H

#include <mosquitto.h>
#include <stdbool.h>
#include <stddef.h>
#include <stdint.h>

#include "broker.h"

/* Length of an origin as text: 16 digits, a hyphen and 20 digits. Room for it, or for a number. */
enum { ORIGIN_LENGTH = 37, ORIGIN_ROOM = 64 };

/*
 * Writes an origin to `text`, which has ORIGIN_ROOM bytes. Returns its length. Each origin has the same length, so a
 * payload that has room in one publication has room in each later one.
 */
size_t origin_write(char *text, const struct origin *origin);

/* Reads an origin. A malformed one has the run 0. */
struct origin origin_read(const char *text);

/*
 * Reads the user properties of a message, and whether it expires. A malformed one counts as absent. Returns false if
 * there is no memory.
 */
bool properties_read(struct broker_message *message, const mosquitto_property *properties);

/* Makes the user properties of a publication. Returns false if there is no memory. */
bool properties_make(mosquitto_property **properties, bool is_empty, uint32_t format, const struct origin *origin);

/* Returns the size of these properties in a packet, without the length before them. */
size_t properties_size(bool is_empty, uint32_t format);

#endif
