/*
 * The owner of an id: of the gateways with one id and one prefix, the one that took it over last.
 *
 * A gateway that has read all retained messages publishes a retained record: its run, and a number one above that of
 * the record which it read. A run that meets a record later than its own gives way: another gateway has taken over.
 * When it connects again, it takes over itself, so no record keeps a gateway away for good, whoever published it.
 *
 * No clock takes part. Numbers are compared as serial numbers, so each has a next one.
 */
#ifndef COAP_MQTT_OWNER_H
#define COAP_MQTT_OWNER_H

#include <stdbool.h>
#include <stdint.h>

/* Origin of a publication: the run of a gateway, and its number in this run. A run is never 0. */
struct origin {
    uint64_t run;
    uint64_t number;
};

struct owner {
    struct origin own;    /* record of this run */
    struct origin other;  /* last record of another run on this connection; run 0: none */
    bool is_published;    /* this run has published its record */
    bool is_acknowledged; /* the broker has sent it back */
    bool has_given_way;   /* since then, so the next connection takes over */
    bool was_read;        /* this connection has read the record of this run, as it is */
};

/* Begins a connection. */
void owner_begin(struct owner *owner);

/* Notes a record that this connection read. Returns true if this run must give way to it. */
bool owner_read(struct owner *owner, const struct origin *record);

/* Notes that this run gives way. */
void owner_give_way(struct owner *owner);

/* Returns the record that this run publishes when all retained messages have been read. */
struct origin owner_next(struct owner *owner);

/* Returns true if the broker acknowledged the record of this run, and now has neither it nor a later one. */
bool owner_is_lost(const struct owner *owner);

#endif
