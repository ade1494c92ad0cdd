/*
 * Requests that the server must not answer from its store by itself.
 *
 * The server answers GET from the store, and would store PUT and POST outside the prefix in this gateway alone. So the
 * gateway changes the code of such requests, in their received bytes, to a method that is not assigned: the server then
 * passes it to the application below the prefix, and answers 4.05 elsewhere.
 */
#ifndef COAP_MQTT_SCREEN_H
#define COAP_MQTT_SCREEN_H

#include <stdbool.h>
#include <stddef.h>
#include <stdint.h>

#include "names.h"

/* Codes of methods, and the one that is not assigned. */
enum { METHOD_GET = 1, METHOD_POST = 2, METHOD_PUT = 3, METHOD_DELETE = 4, METHOD_REFUSED = 31 };

/* Returned by frame_size for bytes that begin no message. */
#define FRAME_BAD SIZE_MAX

/*
 * Returns the size of the message that begins with these bytes (RFC 8323 section 3.2), or 0 if more bytes are needed.
 */
size_t frame_size(const uint8_t *bytes, size_t count);

/* Changes the code of a whole message, if it must be refused. `refuses_reads`: below the prefix, GET too. */
void screen(uint8_t *frame, size_t size, const struct path *prefix, bool refuses_reads);

#endif
