#include "requests.h"

#include <string.h>

/* Numbers of options. */
enum { IF_MATCH = 1, IF_NONE_MATCH = 5, LOCATION_PATH = 8, URI_PATH = 11, CONTENT_FORMAT = 12, SIZE1 = 60 };

static uint32_t read_format(const struct dachreup_span *value) {
    uint32_t format = 0;
    if (value->count > 2)
        return DACHREUP_NO_FORMAT;
    for (size_t at = 0; at < value->count; at++)
        format = format << 8 | value->at[at];
    return format;
}

bool request_read(struct request *request, const struct dachreup_span *bytes) {
    struct dachreup_span value = {0};
    size_t at = 0;
    uint32_t number = 0;
    bool has_format = false;
    *request = (struct request){.has_path = true, .format = DACHREUP_NO_FORMAT};
    if (dachreup_message_read(bytes->at, bytes->count, &request->message) != DACHREUP_OK)
        return false;
    const struct dachreup_span *options = &request->message.options;
    while (dachreup_option_next(options->at, options->count, &at, &number, &value) == DACHREUP_OK) {
        if (number == URI_PATH)
            request->has_path = path_add(&request->path, value.at, value.count) && request->has_path;
        request->is_conditional = request->is_conditional || number == IF_MATCH || number == IF_NONE_MATCH;
        /* A later one is not recognised, and Content-Format is not critical (RFC 7252 section 5.4.5). */
        if (number == CONTENT_FORMAT && !has_format)
            request->format = read_format(&value);
        has_format = has_format || number == CONTENT_FORMAT;
    }
    request->has_path = request->has_path && path_is_resource(&request->path);
    return true;
}

/* Returns true if an ETag is the version of a representation: its shortest encoding in network order. */
static bool is_etag(const struct dachreup_span *value, uint64_t version) {
    uint8_t bytes[8];
    size_t count = 0;
    for (int shift = 56; shift >= 0; shift -= 8)
        if (count || version >> shift)
            bytes[count++] = (uint8_t)(version >> shift);
    return value->count == count && memcmp(value->at, bytes, count) == 0;
}

bool request_conditions_hold(const struct request *request, const struct dachreup_state *state) {
    const struct dachreup_span *options = &request->message.options;
    struct dachreup_span value = {0};
    size_t at = 0;
    uint32_t number = 0;
    bool has_match = false, matches = false;
    while (dachreup_option_next(options->at, options->count, &at, &number, &value) == DACHREUP_OK) {
        if (number == IF_NONE_MATCH && state)
            return false;
        if (number != IF_MATCH)
            continue;
        has_match = true;
        /* The empty value is true for every resource that exists. */
        matches = matches || (state && (value.count == 0 || is_etag(&value, state->version)));
    }
    return matches || !has_match;
}

/* Appends the segments of a path. */
static void write_location(uint8_t *options, size_t *length, uint32_t *last, const struct path *path) {
    for (size_t at = 0; at < path->size; at += 1u + path->bytes[at])
        dachreup_ignore(dachreup_option_write(options, RESPONSE_ROOM, length, last, LOCATION_PATH, path->bytes + at + 1,
                                              path->bytes[at]));
}

static void write_limit(uint8_t *options, size_t *length, uint32_t *last, uint32_t limit) {
    uint8_t bytes[4];
    size_t count = 0;
    for (int shift = 24; shift >= 0; shift -= 8)
        if (count || limit >> shift)
            bytes[count++] = (uint8_t)(limit >> shift);
    dachreup_ignore(dachreup_option_write(options, RESPONSE_ROOM, length, last, SIZE1, bytes, count));
}

size_t response_write(uint8_t *response, uint32_t code, const uint8_t *token, size_t token_length,
                      const struct path *location, const uint32_t *limit) {
    struct dachreup_message message = dachreup_message_of(code, dachreup_span_of(token, token_length));
    uint8_t options[RESPONSE_ROOM] = {0};
    size_t options_length = 0, length = 0;
    uint32_t last = 0;
    if (location)
        write_location(options, &options_length, &last, location);
    if (limit)
        write_limit(options, &options_length, &last, *limit);
    message.options = dachreup_span_of(options, options_length);
    /* A path has at most 255 bytes, so the room is always enough. */
    dachreup_ignore(dachreup_message_write(&message, response, RESPONSE_ROOM, &length));
    return length;
}
