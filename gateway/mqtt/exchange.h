/*
 * The way of a write: a request becomes a publication, the broker sends it back, and only then it is applied and
 * answered.
 */
#ifndef COAP_MQTT_EXCHANGE_H
#define COAP_MQTT_EXCHANGE_H

#include "gateway.h"

/* Answers a request, or publishes its change. `owner` is the gateway. */
void exchange_request(void *owner, uint64_t peer, const struct dachreup_span *bytes);

/* Applies a message of the broker, and answers the request whose publication it is. `owner` is the gateway. */
void exchange_message(void *owner, const struct broker_message *message);

/* Answers the request whose publication the broker refused. `owner` is the gateway. */
void exchange_refused(void *owner, int publication, int reason);

/* Records that the broker acknowledged a publication. `owner` is the gateway. */
void exchange_acknowledged(void *owner, int publication);

/* Notes that a reading of all retained messages has ended. */
void exchange_complete(struct gateway *gateway);

/* Answers all writes at the end of the gateway: 5.03 if they were not published, otherwise 5.04. */
void exchange_end(struct gateway *gateway);

/* Sends responses that had no room, frees places that nobody needs, and ends a connection without echoes. */
void exchange_check(struct gateway *gateway, bool is_new_second);

#endif
