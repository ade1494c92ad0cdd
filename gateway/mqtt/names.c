#include "names.h"

#include <stdio.h>
#include <string.h>

static const char digits[] = "0123456789ABCDEF";

static bool is_dots(const uint8_t *segment, size_t length) {
    return (length == 1 || length == 2) && memcmp(segment, "..", length) == 0;
}

bool path_add(struct path *path, const uint8_t *segment, size_t length) {
    if (path->count == PATH_SEGMENTS || length >= PATH_BYTES - path->size || is_dots(segment, length))
        return false;
    path->bytes[path->size] = (uint8_t)length;
    if (length)
        memcpy(path->bytes + path->size + 1, segment, length);
    path->size += length + 1;
    path->count++;
    return true;
}

bool path_is_resource(const struct path *path) {
    return path->size > 1;
}

/* Each segment begins with its length, so equal bytes are equal segments. */
bool path_begins(const struct path *path, const struct path *prefix) {
    return path->size >= prefix->size && memcmp(path->bytes, prefix->bytes, prefix->size) == 0;
}

bool path_equals(const struct path *path, const struct path *other) {
    return path->size == other->size && path_begins(path, other);
}

uint64_t path_hash(const struct path *path, uint64_t seed) {
    uint64_t hash = UINT64_C(14695981039346656037) ^ seed;
    for (size_t at = 0; at < path->size; at++)
        hash = (hash ^ path->bytes[at]) * UINT64_C(1099511628211);
    return hash ^ hash >> 32;
}

bool path_read(struct path *path, const char *text) {
    *path = (struct path){0};
    for (const char *slash; (slash = strchr(text, '/')); text = slash + 1)
        if (!path_add(path, (const uint8_t *)text, (size_t)(slash - text)))
            return false;
    return path_add(path, (const uint8_t *)text, strlen(text)) && path_is_resource(path);
}

/* Returns the number of bytes of a character that begins with this byte, or 0 if none does. */
static size_t character_length(uint8_t first) {
    if (first < 0x80)
        return 1;
    if (first < 0xC2 || first > 0xF4)
        return 0;
    return first < 0xE0 ? 2 : first < 0xF0 ? 3 : 4;
}

/* Returns the code point in a well-formed sequence of UTF-8 of this length, otherwise UINT32_MAX. */
static uint32_t code_point(const uint8_t *bytes, size_t length) {
    static const uint32_t least[] = {0, 0, 0x80, 0x800, 0x10000};
    static const uint8_t mask[] = {0, 0x7F, 0x1F, 0x0F, 0x07};
    uint32_t point = bytes[0] & mask[length];
    for (size_t at = 1; at < length; at++) {
        if ((bytes[at] & 0xC0) != 0x80)
            return UINT32_MAX;
        point = point << 6 | (bytes[at] & 0x3F);
    }
    return point < least[length] || point > 0x10FFFF ? UINT32_MAX : point;
}

/* Returns true if a code point may be in a topic as itself (MQTT 5, sections 1.5.4 and 4.7). */
static bool may_stay(uint32_t point) {
    if (point < 0x20 || (point >= 0x7F && point < 0xA0) || point == '/' || point == '+' || point == '#' || point == '%')
        return false;
    bool is_surrogate = point >= 0xD800 && point <= 0xDFFF;
    bool is_noncharacter = (point >= 0xFDD0 && point <= 0xFDEF) || (point & 0xFFFE) == 0xFFFE;
    return point <= 0x10FFFF && !is_surrogate && !is_noncharacter;
}

/*
 * Returns the number of bytes at the start of a segment that stay as they are in the topic, or 0 if the first is
 * escaped.
 */
static size_t stays(const uint8_t *bytes, size_t left) {
    size_t length = character_length(bytes[0]);
    return length && length <= left && may_stay(code_point(bytes, length)) ? length : 0;
}

static size_t write_level(const uint8_t *segment, size_t length, char *level) {
    size_t written = 0;
    for (size_t at = 0; at < length;) {
        size_t count = stays(segment + at, length - at);
        if (count) {
            memcpy(level + written, segment + at, count);
            written += count;
            at += count;
            continue;
        }
        level[written++] = '%';
        level[written++] = digits[segment[at] >> 4];
        level[written++] = digits[segment[at] & 15];
        at++;
    }
    return written;
}

size_t topic_of_path(const struct path *path, char *topic) {
    size_t length = 0;
    for (size_t at = 0; at < path->size; at += 1u + path->bytes[at]) {
        if (at)
            topic[length++] = '/';
        length += write_level(path->bytes + at + 1, path->bytes[at], topic + length);
    }
    topic[length] = 0;
    return length;
}

/* Returns the value of a capital hexadecimal digit, or -1. */
static int digit_of(char text) {
    const char *found = text ? strchr(digits, text) : NULL;
    return found ? (int)(found - digits) : -1;
}

/* Reads the escapes of a level. Returns false if one is malformed or the segment is too long. */
static bool read_level(const char *level, size_t length, uint8_t *segment, size_t *count) {
    *count = 0;
    for (size_t at = 0; at < length; at++) {
        if (*count == PATH_BYTES)
            return false;
        if (level[at] != '%') {
            segment[(*count)++] = (uint8_t)level[at];
            continue;
        }
        int high = length - at > 2 ? digit_of(level[at + 1]) : -1, low = high < 0 ? -1 : digit_of(level[at + 2]);
        if (low < 0)
            return false;
        segment[(*count)++] = (uint8_t)(high << 4 | low);
        at += 2;
    }
    return true;
}

bool path_of_topic(struct path *path, const char *topic) {
    char again[TOPIC_ROOM];
    uint8_t segment[PATH_BYTES];
    size_t count, length = strlen(topic);
    *path = (struct path){0};
    for (size_t at = 0; at <= length;) {
        size_t level = strcspn(topic + at, "/");
        if (!read_level(topic + at, level, segment, &count) || !path_add(path, segment, count))
            return false;
        at += level + 1;
    }
    /* Several spellings have the same escapes, such as %41 and A. Only the topic that is written is read. */
    return path_is_resource(path) && topic_of_path(path, again) == length && memcmp(again, topic, length) == 0;
}

const char *printed_name(char *printed, const void *name, size_t length) {
    const uint8_t *bytes = name;
    size_t written = 0;
    for (size_t at = 0; at < length; at++) {
        if (written > PRINTED_ROOM - 8) {
            memcpy(printed + written, "...", 3);
            written += 3;
            break;
        }
        if (bytes[at] >= 0x20 && bytes[at] < 0x7F && bytes[at] != '\\')
            printed[written++] = (char)bytes[at];
        else
            written += (size_t)snprintf(printed + written, 5, "\\x%02x", bytes[at]);
    }
    printed[written] = 0;
    return printed;
}
