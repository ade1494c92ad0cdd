#include "metrics.h"

#include <errno.h>
#include <fcntl.h>
#include <limits.h>
#include <stdarg.h>
#include <stdio.h>
#include <string.h>
#include <sys/stat.h>
#include <unistd.h>

#include "gateway.h"
#include "health.h"
#include "log.h"
#include "requests.h"
#include "screen.h"

enum { PERIOD = 15000, TEXT_ROOM = 8192 };

/* The text of the file. */
struct text {
    size_t length;
    char bytes[TEXT_ROOM];
};

void metrics_count(struct metrics *metrics, uint32_t method, uint32_t code) {
    if (method == METHOD_POST || method == METHOD_PUT || method == METHOD_DELETE)
        metrics->writes[code & 255]++;
}

/* ---- the text ---- */

__attribute__((format(printf, 2, 3))) static void append(struct text *text, const char *format, ...) {
    size_t room = TEXT_ROOM - text->length;
    va_list arguments;
    va_start(arguments, format);
    int length = vsnprintf(text->bytes + text->length, room, format, arguments);
    va_end(arguments);
    text->length += length < 0 ? 0 : (size_t)length < room ? (size_t)length : room - 1;
}

static void append_head(struct text *text, const char *name, const char *type, const char *help) {
    append(text, "# HELP dachreup_mqtt_%s %s\n# TYPE dachreup_mqtt_%s %s\n", name, help, name, type);
}

/* The id is a label, because the collector joins the files of all gateways of a machine. */
static void append_number(struct text *text, const struct gateway *gateway, const char *name, const char *type,
                          const char *help, uint64_t number) {
    append_head(text, name, type, help);
    append(text, "dachreup_mqtt_%s{id=\"%u\"} %llu\n", name, (unsigned)gateway->options->id,
           (unsigned long long)number);
}

/* Returns true if a code is written although no response has it yet, so that its first increase can be seen. */
static bool is_usual(uint32_t code) {
    return code == CODE_CREATED || code == CODE_DELETED || code == CODE_CHANGED || code == CODE_UNAVAILABLE ||
           code == CODE_TIMEOUT;
}

static void append_writes(struct text *text, const struct gateway *gateway) {
    const uint64_t *writes = gateway->metrics.writes;
    unsigned id = gateway->options->id;
    append_head(text, "writes_total", "counter", "Responses to PUT, POST and DELETE below the prefix.");
    for (unsigned code = 0; code < 256; code++)
        if (writes[code] || is_usual(code))
            append(text, "dachreup_mqtt_writes_total{id=\"%u\",code=\"%u.%02u\"} %llu\n", id, code >> 5, code & 31,
                   (unsigned long long)writes[code]);
}

static void append_all(struct text *text, const struct gateway *gateway) {
    const struct metrics *metrics = &gateway->metrics;
    append_number(text, gateway, "healthy", "gauge", "1 while a broker is connected and the mirror is complete.",
                  health_is_good(gateway));
    append_number(text, gateway, "peers", "gauge", "Connections of CoAP peers.", gateway->peers.open);
    append_number(text, gateway, "resources", "gauge", "Resources in the mirror.", gateway->mirror.count);
    append_number(text, gateway, "left_out", "gauge", "Messages that a limit left out since the last reading began.",
                  gateway->mirror.left_out);
    append_writes(text, gateway);
    append_number(text, gateway, "pending_writes", "gauge", "Writes under way.", gateway->writes.used);
    append_number(text, gateway, "in_flight_bytes", "gauge", "Bytes that the writes under way count.",
                  gateway->writes.bytes);
    append_number(text, gateway, "reconnects_total", "counter", "Connections to the broker that ended or failed.",
                  gateway->broker.losses);
    if (metrics->messages)
        append_number(text, gateway, "last_message_age_seconds", "gauge", "Time since the last message of the broker.",
                      (gateway->now - metrics->messages_at) / 1000);
}

/* ---- the file ---- */

/* Writes a new file. Returns false, with errno, if that fails. Other users may read it, whatever the unit's mask. */
static bool write_file(const char *name, const struct text *text) {
    int file = open(name, O_WRONLY | O_CREAT | O_TRUNC | O_CLOEXEC, 0644);
    if (file < 0)
        return false;
    ssize_t count = write(file, text->bytes, text->length);
    if (count >= 0 && (size_t)count < text->length)
        errno = ENOSPC;
    bool is_good = count == (ssize_t)text->length && fchmod(file, 0644) == 0;
    return close(file) == 0 && is_good;
}

bool metrics_write(struct gateway *gateway) {
    const char *name = gateway->options->metrics;
    char other[PATH_MAX];
    struct text text = {0};
    if (!name)
        return true;
    gateway->metrics.written = gateway->now;
    append_all(&text, gateway);
    /* A file of this name is none of those that the collector reads, which end in .prom. */
    if (snprintf(other, sizeof other, "%s.tmp", name) >= (int)sizeof other)
        return errno = ENAMETOOLONG, false;
    return write_file(other, &text) && rename(other, name) == 0;
}

void metrics_tick(struct gateway *gateway) {
    struct metrics *metrics = &gateway->metrics;
    if (metrics->messages != gateway->broker.packets)
        metrics->messages_at = gateway->now;
    metrics->messages = gateway->broker.packets;
    if (!gateway->options->metrics || gateway->now - metrics->written < PERIOD)
        return;
    bool has_failed = !metrics_write(gateway);
    if (has_failed && !metrics->has_failed)
        log_line(LOG_WARNINGS, "cannot write %s: %s", gateway->options->metrics, strerror(errno));
    metrics->has_failed = has_failed;
}
