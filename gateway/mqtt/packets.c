#include "packets.h"

/* Bytes of the packet identifier, and of the length before a string. */
enum { IDENTIFIER = 2, STRING_LENGTH = 2 };

/* A variable byte integer has at most four bytes, of seven bits each. */
enum { INTEGER_BYTES = 4, INTEGER_BITS = 7 };

/* Returns the size of a number as a variable byte integer. */
static size_t integer_size(size_t number) {
    size_t size = 1;
    while (number >>= INTEGER_BITS)
        size++;
    return size;
}

/* Returns the size of a packet whose remaining length this is. */
static size_t packet_size(size_t remaining) {
    return 1 + integer_size(remaining) + remaining;
}

/* Returns the bytes of a PUBLISH between its remaining length and its payload. */
static size_t publish_head(size_t topic, size_t properties) {
    return STRING_LENGTH + topic + IDENTIFIER + integer_size(properties) + properties;
}

size_t packet_publish_size(size_t topic, size_t properties, size_t payload) {
    return packet_size(publish_head(topic, properties) + payload);
}

size_t packet_subscribe_size(size_t filter) {
    size_t no_properties = integer_size(0), options = 1;
    return packet_size(IDENTIFIER + no_properties + STRING_LENGTH + filter + options);
}

/* Returns the largest remaining length of a packet of at most `limit` bytes, or 0. */
static size_t largest_remaining(size_t limit) {
    size_t largest = 0;
    for (size_t bytes = 1; bytes <= INTEGER_BYTES && limit > 1 + bytes; bytes++) {
        size_t most = ((size_t)1 << INTEGER_BITS * bytes) - 1, left = limit - 1 - bytes;
        size_t remaining = left < most ? left : most;
        largest = remaining > largest ? remaining : largest;
    }
    return largest;
}

size_t packet_publish_room(size_t topic, size_t properties, size_t limit) {
    size_t remaining = largest_remaining(limit), head = publish_head(topic, properties);
    return remaining > head ? remaining - head : 0;
}
