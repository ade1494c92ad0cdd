/* Requests that the gateway answers, and their responses. */
#ifndef COAP_MQTT_REQUESTS_H
#define COAP_MQTT_REQUESTS_H

#include <dachreup.h>
#include <stdbool.h>
#include <stddef.h>
#include <stdint.h>

#include "names.h"

/* Codes of responses. */
enum {
    CODE_CREATED = 2 << 5 | 1,
    CODE_DELETED = 2 << 5 | 2,
    CODE_CHANGED = 2 << 5 | 4,
    CODE_CONTENT = 2 << 5 | 5,
    CODE_BAD_REQUEST = 4 << 5,
    CODE_FORBIDDEN = 4 << 5 | 3,
    CODE_NOT_FOUND = 4 << 5 | 4,
    CODE_NOT_ALLOWED = 4 << 5 | 5,
    CODE_NOT_ACCEPTABLE = 4 << 5 | 6,
    CODE_PRECONDITION_FAILED = 4 << 5 | 12,
    CODE_TOO_LARGE = 4 << 5 | 13,
    CODE_INTERNAL_ERROR = 5 << 5,
    CODE_UNAVAILABLE = 5 << 5 | 3,
    CODE_TIMEOUT = 5 << 5 | 4
};

/* A request. Its spans lie in the bytes from which it was read. */
struct request {
    struct dachreup_message message;
    struct path path;
    bool has_path;       /* a resource can have its path */
    bool is_conditional; /* has If-Match or If-None-Match */
    uint32_t format;     /* Content-Format, or DACHREUP_NO_FORMAT */
};

/* Reads a request. Returns false if the bytes are no message. */
bool request_read(struct request *request, const struct dachreup_span *bytes);

/*
 * Returns true if If-Match and If-None-Match hold (RFC 7252 section 5.10.8). `state` is NULL if there is no resource.
 */
bool request_conditions_hold(const struct request *request, const struct dachreup_state *state);

/* Room for a response: its header, a token, and a Location-Path for each segment. */
enum { RESPONSE_ROOM = 1024 };

/*
 * Writes a response to `response`, which has RESPONSE_ROOM bytes, and returns its size. `location` is the path of a
 * 2.01, or NULL. `limit` is the Size1 of a 4.13, or NULL.
 */
size_t response_write(uint8_t *response, uint32_t code, const uint8_t *token, size_t token_length,
                      const struct path *location, const uint32_t *limit);

#endif
