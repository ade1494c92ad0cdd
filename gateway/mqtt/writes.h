/*
 * The writes under way: requests whose publication comes back, and requests with a condition that wait for others.
 *
 * A write occupies a place until its publication comes back, even if that is too late for a response. If the connection
 * to the broker ends before, it does so while a response is possible: the next retained messages may have it.
 *
 * The writes of one path share a lane. While it has publications under way, requests with a condition wait in it.
 */
#ifndef COAP_MQTT_WRITES_H
#define COAP_MQTT_WRITES_H

#include <stdbool.h>
#include <stddef.h>
#include <stdint.h>

#include "names.h"

enum { TOKEN_BYTES = 64 };

enum {
    /* What a write counts in bytes beside its topic and payload: its place, and its properties in libmosquitto. */
    WRITE_BYTES = 1024,
    /* MQTT has 65,535 numbers for publications. The gateway needs a few for itself. */
    WRITES_LIMIT = 65000,
    PUBLICATIONS = 65536
};

enum write_stage {
    WRITE_FREE,
    WRITE_NEW,
    WRITE_WAITS,     /* the request is judged later */
    WRITE_PUBLISHED, /* on the present connection to the broker */
    WRITE_LOST,      /* published on a connection that has ended */
    WRITE_ANSWERED   /* the response waits for room in the queue of the peer */
};

struct write;

/* A path that has writes. */
struct lane {
    size_t users;               /* its writes in any stage; 0: the lane is free */
    size_t published;           /* its publications under way */
    size_t stores;              /* those that store a representation */
    bool creates;               /* they occupy the place of a resource that is not stored yet */
    struct write *first, *last; /* requests that wait, in their order */
    struct lane *next;          /* in its bucket, or of the free ones */
    struct path path;
};

struct write {
    enum write_stage stage;
    uint64_t number;       /* number of the publication in this run */
    uint64_t peer;         /* connection of the request */
    uint64_t second;       /* time of the server when the request came */
    uint64_t sent;         /* when it was published, in milliseconds */
    uint64_t acknowledged; /* when the broker acknowledged the publication, or 0 */
    int publication;       /* its number in the connection to the broker until then, otherwise 0 */
    uint32_t method;
    uint32_t answer;       /* code of the response that waits for room */
    size_t bytes;          /* what it counts */
    uint8_t *request;      /* a copy of the request while it waits, otherwise NULL */
    size_t request_length;
    struct lane *lane;
    struct write *next;    /* that waits in its lane, or of the free places */
    struct write *before;  /* that waits in its lane */
    size_t token_length;
    uint8_t token[TOKEN_BYTES];
};

struct writes {
    struct write *places;
    struct lane *lanes, **buckets;
    uint16_t *published;     /* for each number of a publication one more than its place, or 0 */
    struct write *free;      /* places that were occupied before */
    struct lane *free_lanes;
    size_t count, fresh;     /* places, and how many of them were ever occupied */
    size_t fresh_lanes;
    size_t buckets_mask;
    size_t used;
    size_t waiting;          /* responses that wait for room */
    size_t creations;        /* lanes that create a resource */
    size_t bytes, limit;     /* bytes under way, and how many there may be */
    uint64_t rounds, seed;
};

/* Makes places for writes of `limit` bytes together. Returns false if there is no memory. */
bool writes_open(struct writes *writes, size_t limit, uint64_t seed);
void writes_close(struct writes *writes);

/* Occupies a place in the lane of a path, with a number that no earlier write had. Returns NULL if there is no room. */
struct write *writes_add(struct writes *writes, const struct path *path, size_t bytes);

/* Keeps the request of a new write, which waits in its lane. Returns false if there is no memory. */
bool writes_wait(struct write *write, const uint8_t *request, size_t length);

/* Records that a write was published. `is_stored`: its path has a resource now. */
void writes_sent(struct writes *writes, struct write *write, bool is_stored);

/* Records that the broker acknowledged a publication. Its number may be used again. */
void writes_acknowledged(struct writes *writes, struct write *write, uint64_t now);

/* Records that the connection on which a write was published has ended. */
void writes_lost(struct writes *writes, struct write *write);

/* Records the code of a response that waits for room. The write is not under way any more. */
void writes_answer(struct writes *writes, struct write *write, uint32_t code);

/* Frees the place of a write in any stage. */
void writes_remove(struct writes *writes, struct write *write);

/* Returns the write with this number, or NULL. */
struct write *writes_find(struct writes *writes, uint64_t number);

/* Returns the write whose publication has this number in the present connection, or NULL. */
struct write *writes_published(struct writes *writes, int publication);

/* Returns the lane of a path, or NULL if it has no writes. */
struct lane *writes_lane(const struct writes *writes, const struct path *path);

/* Counts anew whether a lane creates a resource, after its path has got one or lost it. */
void writes_note(struct writes *writes, struct lane *lane, bool is_stored);

#endif
