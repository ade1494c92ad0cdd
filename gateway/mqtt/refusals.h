/*
 * Publications that the broker refused.
 *
 * mosquitto 2.0.11 ends the connection after it refused a publication. So one peer could hold a gateway off its broker.
 * The gateway remembers the topics at which it may not publish, and when connections were lost so.
 */
#ifndef COAP_MQTT_REFUSALS_H
#define COAP_MQTT_REFUSALS_H

#include <stdbool.h>
#include <stddef.h>
#include <stdint.h>

#include "names.h"

enum {
    REFUSALS = 256,       /* paths that are remembered; a further one takes the place of the oldest */
    REFUSED_FOR = 60000,  /* milliseconds */
    LOSSES_BY_REFUSAL = 3 /* within this time: then no path is tried that has no resource */
};

struct refusals {
    struct path paths[REFUSALS];
    uint64_t hashes[REFUSALS], until[REFUSALS];
    size_t next;
    uint64_t latest; /* the end of the last one: later, no search is needed */
    uint64_t losses[LOSSES_BY_REFUSAL]; /* when the last connections were lost by a refusal, the oldest first */
};

/* Remembers a path whose topic is not allowed. */
void refusals_add(struct refusals *refusals, const struct path *path, uint64_t now);

/* Returns true if the broker refused this path within a minute. */
bool refusals_have(const struct refusals *refusals, const struct path *path, uint64_t now);

/* Records a connection that was lost by a refusal. Returns true if too many were. */
bool refusals_lost(struct refusals *refusals, uint64_t now);

/* Returns true while too many connections were lost within a minute. */
bool refusals_are_many(const struct refusals *refusals, uint64_t now);

#endif
