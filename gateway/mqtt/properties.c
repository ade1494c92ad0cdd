#include "properties.h"

#include <errno.h>
#include <inttypes.h>
#include <mqtt_protocol.h>
#include <stdio.h>
#include <stdlib.h>
#include <string.h>

/* Names of the user properties, and the value of the second one. */
static const char FORMAT[] = "content-format", EMPTY[] = "empty", ORIGIN[] = "origin", IS_EMPTY[] = "1";

size_t origin_write(char *text, const struct origin *origin) {
    return (size_t)snprintf(text, ORIGIN_ROOM, "%016" PRIx64 "-%020" PRIu64, origin->run, origin->number);
}

/* Reads a decimal number. Returns false if the text is not one, or above `greatest`. */
static bool read_decimal(const char *text, uint64_t greatest, uint64_t *number) {
    char *end = NULL;
    if (*text < '0' || *text > '9')
        return false;
    errno = 0;
    *number = strtoull(text, &end, 10);
    return !errno && !*end && *number <= greatest;
}

struct origin origin_read(const char *text) {
    struct origin none = {0}, origin = {0};
    if (strspn(text, "0123456789abcdef") != 16 || text[16] != '-')
        return none;
    origin.run = strtoull(text, NULL, 16);
    return read_decimal(text + 17, UINT64_MAX, &origin.number) ? origin : none;
}

/* Reads one user property. Sets *is_empty if it says so. */
static void read_one(struct broker_message *message, const char *name, const char *value, bool *is_empty) {
    uint64_t number = 0;
    if (!strcmp(name, FORMAT) && read_decimal(value, UINT16_MAX, &number))
        message->format = (uint32_t)number;
    if (!strcmp(name, ORIGIN))
        message->origin = origin_read(value);
    *is_empty = *is_empty || !strcmp(name, EMPTY);
}

bool properties_read(struct broker_message *message, const mosquitto_property *properties) {
    bool is_empty = false;
    for (const mosquitto_property *at = properties; at; at = mosquitto_property_next(at)) {
        char *name = NULL, *value = NULL;
        int identifier = mosquitto_property_identifier(at);
        message->expires = message->expires || identifier == MQTT_PROP_MESSAGE_EXPIRY_INTERVAL;
        if (identifier != MQTT_PROP_USER_PROPERTY)
            continue;
        /* The property is there, so the call fails for want of memory alone. */
        if (!mosquitto_property_read_string_pair(at, MQTT_PROP_USER_PROPERTY, &name, &value, false))
            return false;
        read_one(message, name, value, &is_empty);
        free(name);
        free(value);
    }
    /* A retained message without payload is a removal, so an empty representation is published as one byte. */
    if (is_empty && message->length == 1)
        message->length = 0;
    return true;
}

/* Writes the value of the Content-Format. Returns its length, or 0 if there is none. */
static size_t format_write(char *text, uint32_t format) {
    return format < BROKER_NO_FORMAT ? (size_t)snprintf(text, ORIGIN_ROOM, "%" PRIu32, format) : 0;
}

bool properties_make(mosquitto_property **properties, bool is_empty, uint32_t format, const struct origin *origin) {
    char text[ORIGIN_ROOM];
    origin_write(text, origin);
    int result = mosquitto_property_add_string_pair(properties, MQTT_PROP_USER_PROPERTY, ORIGIN, text);
    if (!result && is_empty)
        result = mosquitto_property_add_string_pair(properties, MQTT_PROP_USER_PROPERTY, EMPTY, IS_EMPTY);
    if (!result && format_write(text, format))
        result = mosquitto_property_add_string_pair(properties, MQTT_PROP_USER_PROPERTY, FORMAT, text);
    return result == MOSQ_ERR_SUCCESS;
}

/* Returns the size of a user property: its identifier, and two strings after their lengths. */
static size_t pair_size(size_t name, size_t value) {
    return 1 + 2 + name + 2 + value;
}

size_t properties_size(bool is_empty, uint32_t format) {
    char text[ORIGIN_ROOM];
    size_t length = format_write(text, format), size = pair_size(strlen(ORIGIN), ORIGIN_LENGTH);
    size += is_empty ? pair_size(strlen(EMPTY), strlen(IS_EMPTY)) : 0;
    return size + (length ? pair_size(strlen(FORMAT), length) : 0);
}
