/*
 * The mirror: the stored resources of the server, which equal the broker's retained messages.
 *
 * Only messages from the broker change it, in the order in which they arrive.
 */
#ifndef COAP_MQTT_MIRROR_H
#define COAP_MQTT_MIRROR_H

#include <dachreup.h>
#include <stdbool.h>
#include <stddef.h>
#include <stdint.h>

#include "broker.h"
#include "names.h"

/* A stored path, and the reading that had it last. */
struct mirrored {
    uint64_t reading; /* 0: the entry is free */
    struct path path;
};

struct mirror {
    struct dachreup_server *server;
    struct path prefix;
    struct mirrored *entries; /* a hash table without chains: an entry is in the first free place from its own on */
    size_t places;            /* a power of two, at least twice `limit` */
    size_t count, limit;
    uint64_t reading;         /* readings of the retained messages so far */
    uint64_t came, went;      /* resources that were stored and removed since this reading began */
    uint64_t left_out;        /* messages that were left out since then */
    bool lacks_room;          /* one of them had no place */
    bool has_room_again;      /* a place has become free since */
    bool is_out_of_memory;    /* a message could not be stored: the mirror must be read anew */
};

enum mirror_change {
    MIRROR_UNCHANGED, /* the stored state is equal */
    MIRROR_CREATED,
    MIRROR_CHANGED,
    MIRROR_REMOVED,
    MIRROR_LEFT_OUT, /* the message is not stored, and what was stored at the path is removed */
    MIRROR_IGNORED   /* not a message of a resource */
};

/* Makes a mirror without entries. Returns false if there is no memory. */
bool mirror_open(struct mirror *mirror, struct dachreup_server *server, const struct path *prefix, size_t limit);
void mirror_close(struct mirror *mirror);

/* Begins a reading of all retained messages. */
void mirror_begin(struct mirror *mirror);

/* Applies a message, and logs what is wrong with it. `path` is that of its topic, or NULL for the topic of no path. */
enum mirror_change mirror_apply(struct mirror *mirror, const struct path *path, const struct broker_message *message);

/* Ends a reading: removes the resources that no message of it named. */
void mirror_end(struct mirror *mirror);

/* Returns true if the retained messages must be read once more, because one that was left out may have a place now. */
bool mirror_wants_reading(const struct mirror *mirror);

/* Reads the stored state of a path. Returns false if there is none. */
bool mirror_state(const struct mirror *mirror, const struct path *path, struct dachreup_state *state);

/* Returns true if no other resource can be stored beside those that are stored, and `more` of them. */
bool mirror_is_full(const struct mirror *mirror, size_t more);

#endif
