/*
 * Numbers about the gateway, as text of Prometheus in a file, for the textfile collector of its node exporter. Peers
 * cannot read them.
 */
#ifndef COAP_MQTT_METRICS_H
#define COAP_MQTT_METRICS_H

#include <stdbool.h>
#include <stddef.h>
#include <stdint.h>

struct gateway;

struct metrics {
    uint64_t writes[256];   /* responses to PUT, POST and DELETE below the prefix, by code */
    uint64_t messages;      /* messages of the broker when they were counted last */
    uint64_t messages_at;   /* milliseconds when their number last grew */
    uint64_t written;       /* milliseconds when the file was written last */
    bool has_failed;        /* the file could not be written */
};

/* Counts a response to a request with this method. GET and methods that are not assigned are no writes. */
void metrics_count(struct metrics *metrics, uint32_t method, uint32_t code);

/* Writes the file, if `--metrics` names one: a new one replaces the old one. Returns false if that fails. */
bool metrics_write(struct gateway *gateway);

/* Called once a second. Writes the file if it is time. Logs the first failure of several. */
void metrics_tick(struct gateway *gateway);

#endif
