/* The resource that says whether the gateway is of use: HAProxy asks for it. */
#ifndef COAP_MQTT_HEALTH_H
#define COAP_MQTT_HEALTH_H

#include <stdbool.h>
#include <stdint.h>

#include "requests.h"

struct gateway;

/* Returns true while a broker is connected and the mirror is complete. */
bool health_is_good(const struct gateway *gateway);

/*
 * Returns the code of the response to a GET of the resource, or 0 if the request is for another path. The response has
 * neither options nor a payload, so a check can compare all its bytes.
 */
uint32_t health_code(const struct gateway *gateway, const struct request *request);

#endif
