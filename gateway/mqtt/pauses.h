/* Pauses between attempts, which grow. */
#ifndef COAP_MQTT_PAUSES_H
#define COAP_MQTT_PAUSES_H

#include <stdint.h>

/*
 * Returns the milliseconds of a pause after a number of others: from a second on it doubles, up to a minute. Chance
 * adds up to a quarter, so that gateways that lost one broker do not all connect at once.
 */
uint64_t pause_after(unsigned count);

#endif
