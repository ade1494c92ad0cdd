/* Paths of resources and topics of MQTT: one function each way. Neither allocates. */
#ifndef COAP_MQTT_NAMES_H
#define COAP_MQTT_NAMES_H

#include <stdbool.h>
#include <stddef.h>
#include <stdint.h>

enum {
    PATH_SEGMENTS = 16, /* largest number of segments */
    PATH_BYTES = 255,   /* largest size of a path; each segment counts one byte more than it has */
    TOPIC_ROOM = 1024,  /* room for the longest topic: a path of which each byte is escaped, and a zero byte */
    PRINTED_ROOM = 256  /* room for a name in a message */
};

/*
 * A path: its segments in order, each after a byte with its length. The C library reads these bytes as a list of
 * segments.
 */
struct path {
    size_t count;
    size_t size;
    uint8_t bytes[PATH_BYTES];
};

/* Appends a segment. Returns false, and changes nothing, if no path of a resource has it there. */
bool path_add(struct path *path, const uint8_t *segment, size_t length);

/* Returns true if a resource can have this path: it has a segment, and not an empty one alone. */
bool path_is_resource(const struct path *path);

/* Returns true if the first segments of `path` are those of `prefix`. */
bool path_begins(const struct path *path, const struct path *prefix);

/* Returns true if two paths have the same segments. */
bool path_equals(const struct path *path, const struct path *other);

/* Returns the FNV-1a hash of a path, from a seed on. */
uint64_t path_hash(const struct path *path, uint64_t seed);

/* Reads a path from a text: segments with slashes between them, not escaped. */
bool path_read(struct path *path, const char *text);

/*
 * Writes the topic of a path, and a zero byte, to `topic`, which has TOPIC_ROOM bytes. Returns its length.
 *
 * Segments are the levels of the topic. These bytes of a segment are written as a percent sign and two capital digits:
 * `/`, `+`, `#`, `%`, control characters, code points that MQTT forbids, and bytes that are no UTF-8. All others stay.
 */
size_t topic_of_path(const struct path *path, char *topic);

/* Reads the path whose topic this is. Returns false if it is the topic of no path. */
bool path_of_topic(struct path *path, const char *topic);

/* Writes a name for a message to `printed`, which has PRINTED_ROOM bytes: printable ASCII, cut if it is too long. */
const char *printed_name(char *printed, const void *name, size_t length);

#endif
