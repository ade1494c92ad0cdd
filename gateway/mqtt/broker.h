/*
 * The connection to the broker: MQTT 5 over libmosquitto, in one thread. No call blocks: resolver.h has the addresses.
 *
 * Each connection is a new session and a new client object, so nothing is sent again by itself. After the subscription
 * the gateway publishes a marker. The broker sends everything on one connection in one order, so all retained messages
 * have come when the marker comes back. The gateway then publishes a retained message that names its run as the owner
 * of its id: owner.h has the rule for gateways with one id. When this record comes back with RETAIN set, the connection
 * is usable. The record shows that the broker keeps Retain As Published, since CONNACK does not. The marker cannot: it
 * is not retained, because a gateway that ends between two messages would leave it at the broker.
 *
 * Gateways with one id and one prefix have one client id. So only one of them is connected at a time, and what a
 * gateway has sent on a connection cannot arrive after it has connected again.
 */
#ifndef COAP_MQTT_BROKER_H
#define COAP_MQTT_BROKER_H

#include <stdbool.h>
#include <stddef.h>
#include <stdint.h>

#include "names.h"
#include "options.h"
#include "owner.h"

/* The broker does not know Content-Formats above this number. */
#define BROKER_NO_FORMAT UINT32_C(65536)

/* Milliseconds for a connection, a subscription, an echo, or a marker after the last message. */
enum { BROKER_PATIENCE = 10000 };

/* A message on a topic of the subscription. */
struct broker_message {
    const char *topic;
    const uint8_t *bytes; /* not null */
    size_t length;
    uint32_t format;      /* or BROKER_NO_FORMAT */
    bool is_retained;     /* has the RETAIN flag */
    bool is_removal;      /* has no payload */
    bool expires;         /* the broker removes it after some time */
    struct origin origin; /* run 0: of no gateway */
};

/* The broker's events. They must not destroy the connection. */
struct broker_events {
    void *owner;
    void (*begins)(void *owner);                                        /* retained messages follow */
    void (*message)(void *owner, const struct broker_message *message); /* a message, in the broker's order */
    void (*complete)(void *owner);                                      /* all retained messages have come */
    void (*acknowledged)(void *owner, int publication);                 /* the broker has a publication; or NULL */
    void (*refused)(void *owner, int publication, int reason);          /* the broker refused a publication */
};

struct mosquitto;

enum broker_state {
    BROKER_AWAY,
    BROKER_RESOLVING,
    BROKER_CONNECTING,
    BROKER_SUBSCRIBING,
    BROKER_READING, /* the marker is on its way */
    BROKER_OWNING,  /* the record of the owner is on its way */
    BROKER_READY
};

struct broker {
    const struct options *options;
    struct broker_events events;
    struct mosquitto *client; /* NULL while away */
    enum broker_state state;
    bool is_usable;        /* all retained messages of this connection have come */
    bool has_own_record;   /* the broker has the record of this run or a later one, if it acknowledged one */
    bool gives_way;        /* another gateway with this id has taken over */
    bool is_unsuitable;    /* the broker lacks what the gateway needs */
    uint64_t since;        /* when the state began, in milliseconds; while away, when the next connection begins */
    uint64_t usable_since; /* when the connection became usable, or 0 */
    uint64_t progress;     /* when the last PUBLISH or PUBACK came, or the connection began */
    uint64_t markers;      /* markers published in this run */
    uint64_t run;          /* random number of this run */
    int marker, record;    /* publications of the gateway for itself, or -1 after their acknowledgement */
    size_t packet_limit;   /* Maximum Packet Size of the broker */
    size_t address;        /* place of the address in the list of the resolver */
    uint64_t losses;       /* connections that ended */
    uint64_t packets;      /* PUBLISH and PUBACK packets that came in this run */
    unsigned failures;     /* attempts that failed since a connection that was good */
    unsigned retreats;     /* times that the gateway gave way since a connection that was good for long */
    uint64_t remark;       /* when an unsuitable broker may be named again */
    struct owner owner;
    char client_id[32];
    char filter[TOPIC_ROOM + 2];
    char control[TOPIC_ROOM + 16]; /* start of the topics of gateways for themselves */
    char marker_topic[TOPIC_ROOM + 32], owner_topic[TOPIC_ROOM + 32];
    char fault[160]; /* why the connection must end, or empty */
};

/* Sets a broker that is away. The first connection begins at the first tick. */
bool broker_open(struct broker *broker, const struct options *options, const struct broker_events *events);
void broker_close(struct broker *broker);

/* Returns the socket, or -1. */
int broker_socket(const struct broker *broker);
bool broker_wants_write(const struct broker *broker);

/* Reads and writes what the socket is ready for. */
void broker_ready(struct broker *broker, bool may_read, bool may_write, uint64_t now);

/* Begins a connection if it is time, and ends one that is late. */
void broker_tick(struct broker *broker, uint64_t now);

/* Lets the connection end, with a reason. The next tick ends it. */
void broker_fail(struct broker *broker, const char *format, ...) __attribute__((format(printf, 2, 3)));

/* Requests all retained messages once more. The connection must be ready. */
void broker_read_again(struct broker *broker, uint64_t now);

enum broker_result { BROKER_SENT, BROKER_NOT_SENT, BROKER_TOO_LARGE };

/*
 * Publishes a retained message, or a removal if `bytes` is NULL. The representation may be empty. Sets *publication to
 * its number in this connection. The connection must be usable. BROKER_TOO_LARGE: the broker accepts no packet of this
 * size.
 */
enum broker_result broker_publish(struct broker *broker, const char *topic, const uint8_t *bytes, size_t length,
                                  uint32_t format, uint64_t number, int *publication);

/* Returns the largest payload that the broker accepts for a topic and a Content-Format, or 0 if it accepts none. */
size_t broker_room(const struct broker *broker, const char *topic, uint32_t format);

#endif
