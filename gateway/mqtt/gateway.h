/* The gateway: it joins the server, the broker, the mirror and the peers, in one loop over epoll. */
#ifndef COAP_MQTT_GATEWAY_H
#define COAP_MQTT_GATEWAY_H

#include <dachreup.h>
#include <stdbool.h>
#include <stddef.h>
#include <stdint.h>

#include "broker.h"
#include "metrics.h"
#include "mirror.h"
#include "notify.h"
#include "options.h"
#include "peers.h"
#include "refusals.h"
#include "writes.h"

enum { STATUS_ENDED = 0, STATUS_OPTIONS = 1, STATUS_FAILED = 3 };

enum {
    REPRESENTATION_BYTES = 65000, /* as in coap-server: a response with it fits in 65,536 bytes */
    DEADLINE = 10                 /* seconds that a request waits for its echo: then the server sends 5.04 */
};

struct gateway {
    const struct options *options;
    struct dachreup_server server;
    struct broker broker;
    struct mirror mirror;
    struct writes writes;
    struct refusals refusals;
    struct peers peers;
    struct metrics metrics;
    struct notify notify;
    int poll;
    int watched;            /* socket of the broker in epoll, or -1 */
    uint32_t interest;      /* its events */
    uint64_t losses;        /* connections to the broker that had ended when it was added */
    uint64_t started;       /* second of the first version */
    uint64_t second;        /* second of the last tick */
    uint64_t now, reading;  /* milliseconds of the monotonic clock: now, and when the last reading ended */
    uint64_t wanted;        /* when another reading was wanted last */
    size_t pause;           /* which pause follows the last reading */
    uint64_t read;          /* connections to the broker that had ended before the last reading */
    uint64_t ended;         /* connections whose writes have ended */
    uint64_t refused;       /* when a publication was refused on this connection, or 0 */
    int64_t ahead;          /* milliseconds by which the time of the server is ahead of the monotonic clock */
    uint64_t ends;          /* milliseconds of the monotonic clock when a gateway that is ending has no time left */
    bool is_ending;         /* a signal has come: writes are refused */
    bool was_good;          /* the health that systemd was notified of */
    bool is_complete;       /* the mirror was complete once */
};

/* Runs until SIGTERM or SIGINT, or until a failure. Returns the exit status. */
int gateway_run(const struct options *options);

#endif
