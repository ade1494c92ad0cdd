/* The connections of CoAP peers: one listening socket, and the sockets that it accepts, over epoll. */
#ifndef COAP_MQTT_PEERS_H
#define COAP_MQTT_PEERS_H

#include <dachreup.h>
#include <stdbool.h>
#include <stddef.h>
#include <stdint.h>

#include "options.h"

/* Values of epoll_data.u64. Those below are the places of peers. */
enum { EVENT_LISTENER = 1000, EVENT_BROKER = 1001 };

/*
 * A connection: its socket (-1: the place is free), its id in the server, and the bytes that the server has not
 * accepted.
 */
struct peer {
    int socket;
    uint64_t id;
    uint8_t *bytes;
    size_t start, kept;
    uint32_t interest; /* events of epoll */
    uint64_t opened;   /* milliseconds when the connection was opened */
    uint64_t moved;    /* milliseconds when bytes last went in either direction */
    uint64_t released; /* milliseconds when the gateway released it, or 0 */
    uint64_t ended;    /* milliseconds when the last message before the end of its input was processed, or 0 */
    bool has_ended;    /* the peer sends nothing more */
    bool is_finished;  /* the server knows that */
    bool is_raw;       /* its bytes are no messages any more, so the server ends the connection */
};

struct peers {
    struct dachreup_server *server;
    const struct options *options;
    void *owner;
    /* A request that the gateway answers. */
    void (*request)(void *owner, uint64_t id, const struct dachreup_span *request);
    struct peer *all;
    uint16_t *by_id;    /* places of the open peers, by ascending ids */
    size_t count, open;
    size_t room;        /* bytes of a peer's buffer: more than the largest message */
    uint64_t now;       /* milliseconds of the monotonic clock, set by the gateway before each event */
    int poll, listener; /* listener: -1 after peers_refuse */
    bool listens;       /* the socket listens */
    bool accepts;       /* the socket is watched */
    bool refuses_reads; /* GET below the prefix is answered 5.03 */
    bool is_short;      /* accept failed, for example for lack of descriptors; it is tried again a second later */
};

/* Binds the address, and does not listen yet. Prints the error and returns false if that fails. */
bool peers_open(struct peers *peers, struct dachreup_server *server, const struct options *options, int poll);
void peers_close(struct peers *peers);

/* Listens. Prints the address. Returns false if that fails. */
bool peers_listen(struct peers *peers);

/* Accepts peers until none waits or all places are occupied. */
void peers_accept(struct peers *peers);

/* Serves a peer whose socket is ready. */
void peers_ready(struct peers *peers, size_t place, uint32_t events);

/* Serves the peers that have new output. Returns true if there were some. */
bool peers_serve(struct peers *peers);

/* Accepts again after a failure. Ends connections that have finished, and silent ones: `--idle`. Called each second. */
void peers_tick(struct peers *peers);

/* Stops listening for good. */
void peers_refuse(struct peers *peers);

/* Sends a Release to each peer. A connection ends when its queue is empty. */
void peers_release(struct peers *peers);

#endif
