/*
 * Tests the paths and topics of gateway/mqtt/names.c.
 *
 *     mqtt_names all        all topics of at most three bytes, and all paths of two short segments
 *     mqtt_names topics     reads paths as lines of hexadecimal digits, each segment after its length; prints their
 *                           topics
 *     mqtt_names paths      reads topics as lines of hexadecimal digits; prints their paths, or a hyphen
 */
#include <mosquitto.h>
#include <stdio.h>
#include <stdlib.h>
#include <string.h>

#include "names.h"

static unsigned long wrong, seen;

static void expect(int holds, const char *what, const void *bytes, size_t length) {
    char printed[PRINTED_ROOM];
    seen++;
    if (!holds && wrong++ < 10)
        printf("%s: %s\n", what, printed_name(printed, bytes, length));
}

/* The topic of a path is one that MQTT allows, and it has this path again. */
static void check_path(const struct path *path) {
    char topic[TOPIC_ROOM];
    struct path again;
    size_t length = topic_of_path(path, topic);
    expect(length == strlen(topic) && length < TOPIC_ROOM, "length", path->bytes, path->size);
    expect(mosquitto_pub_topic_check2(topic, length) == MOSQ_ERR_SUCCESS, "not a topic", path->bytes, path->size);
    expect(mosquitto_validate_utf8(topic, (int)length) == MOSQ_ERR_SUCCESS, "not UTF-8", path->bytes, path->size);
    expect(path_of_topic(&again, topic) && again.size == path->size && !memcmp(again.bytes, path->bytes, path->size),
           "another path", path->bytes, path->size);
}

/* A topic has no path, or that path has this topic. */
static void check_topic(const char *topic, size_t length) {
    char again[TOPIC_ROOM];
    struct path path;
    if (path_of_topic(&path, topic))
        expect(path_is_resource(&path) && topic_of_path(&path, again) == length && !memcmp(again, topic, length),
               "another topic", topic, length);
}

static void check_segments(const uint8_t *one, size_t first, const uint8_t *two, size_t second) {
    struct path path = {0};
    if (path_add(&path, one, first) && path_add(&path, two, second))
        check_path(&path);
    path = (struct path){0};
    if (path_add(&path, one, first) && path_is_resource(&path))
        check_path(&path);
}

static void check_all(void) {
    char topic[4] = "";
    for (unsigned long number = 1; number < 1ul << 24; number++) {
        uint8_t bytes[3] = {(uint8_t)number, (uint8_t)(number >> 8), (uint8_t)(number >> 16)};
        memcpy(topic, bytes, 3);
        check_topic(topic, strlen(topic));
        for (size_t first = 0; number % 97 == 0 && first <= 3; first++)
            check_segments(bytes, first, bytes + first, 3 - first);
    }
    for (unsigned number = 0; number < 1u << 16; number++) {
        uint8_t bytes[2] = {(uint8_t)number, (uint8_t)(number >> 8)};
        check_segments(bytes, 2, bytes, 2);
    }
}

static size_t read_line(uint8_t *bytes, size_t room) {
    size_t length = 0;
    for (int high; (high = getchar()) != '\n' && high != EOF;) {
        char text[3] = {(char)high, (char)getchar(), 0};
        if (length < room)
            bytes[length++] = (uint8_t)strtoul(text, NULL, 16);
    }
    return feof(stdin) ? SIZE_MAX : length;
}

static void print_hex(const void *bytes, size_t length) {
    for (size_t at = 0; at < length; at++)
        printf("%02x", ((const uint8_t *)bytes)[at]);
    putchar('\n');
}

static void print_topics(void) {
    uint8_t bytes[8192];
    char topic[TOPIC_ROOM];
    for (size_t length; (length = read_line(bytes, sizeof bytes)) != SIZE_MAX;) {
        struct path path = {0};
        int is_path = 1;
        for (size_t at = 0; at < length; at += 1u + bytes[at])
            is_path = is_path && path_add(&path, bytes + at + 1, bytes[at]);
        if (is_path && path_is_resource(&path))
            print_hex(topic, topic_of_path(&path, topic));
        else
            puts("-");
    }
}

static void print_paths(void) {
    uint8_t bytes[8192];
    for (size_t length; (length = read_line(bytes, sizeof bytes - 1)) != SIZE_MAX;) {
        struct path path;
        bytes[length] = 0;
        if (path_of_topic(&path, (const char *)bytes))
            print_hex(path.bytes, path.size);
        else
            puts("-");
    }
}

int main(int count, char **words) {
    const char *what = count > 1 ? words[1] : "all";
    if (!strcmp(what, "topics"))
        print_topics();
    else if (!strcmp(what, "paths"))
        print_paths();
    else
        check_all();
    if (!strcmp(what, "all"))
        printf("%lu checks, %lu wrong\n", seen, wrong);
    return wrong ? 1 : 0;
}
