#include "options.h"

#include <arpa/inet.h>
#include <getopt.h>
#include <stdio.h>
#include <stdlib.h>
#include <string.h>

#include "log.h"
#include "tls_files.h"

#ifndef COAP_MQTT_VERSION
#define COAP_MQTT_VERSION "unknown"
#endif

/* Long options without a letter of their own. */
enum {
    MAX_MESSAGE = 256,
    MAX_SENT,
    QUEUE,
    PENDING,
    OBSERVERS,
    CONNECTIONS,
    IDLE,
    BROKER_HOST,
    BROKER_PORT,
    USERNAME,
    PASSWORD_FILE,
    CAFILE,
    CERT,
    KEY,
    ID,
    PREFIX,
    STALE,
    HEALTH,
    METRICS,
    IN_FLIGHT,
    REREAD,
    LOG,
    AFTER_LAST
};

static const struct option names[] = {
    {"max-message", required_argument, NULL, MAX_MESSAGE},
    {"max-sent", required_argument, NULL, MAX_SENT},
    {"queue", required_argument, NULL, QUEUE},
    {"pending", required_argument, NULL, PENDING},
    {"observers", required_argument, NULL, OBSERVERS},
    {"connections", required_argument, NULL, CONNECTIONS},
    {"idle", required_argument, NULL, IDLE},
    {"broker-host", required_argument, NULL, BROKER_HOST},
    {"broker-port", required_argument, NULL, BROKER_PORT},
    {"username", required_argument, NULL, USERNAME},
    {"password-file", required_argument, NULL, PASSWORD_FILE},
    {"cafile", required_argument, NULL, CAFILE},
    {"cert", required_argument, NULL, CERT},
    {"key", required_argument, NULL, KEY},
    {"id", required_argument, NULL, ID},
    {"prefix", required_argument, NULL, PREFIX},
    {"stale", required_argument, NULL, STALE},
    {"health", required_argument, NULL, HEALTH},
    {"metrics", required_argument, NULL, METRICS},
    {"in-flight", required_argument, NULL, IN_FLIGHT},
    {"reread", required_argument, NULL, REREAD},
    {"log", required_argument, NULL, LOG},
    {"help", no_argument, NULL, 'h'},
    {"version", no_argument, NULL, 'V'},
    {NULL, 0, NULL, 0},
};

static const char help[] =
    "Usage: coap-mqtt [OPTIONS]\n"
    "\n"
    "Serves CoAP over TCP. Resources below a prefix are the retained messages of an MQTT broker.\n"
    "\n"
    "CoAP:\n"
    "  -A <ADDRESS>           Numeric IP address to listen on [default: 127.0.0.1]\n"
    "  -p <PORT>              Port to listen on, 1 to 65535 [default: 5683]\n"
    "  -d <MAX>               Resources below the prefix, 1 to 1000 [default: 1000]\n"
    "      --max-message <N>  Largest accepted message in bytes, 1152 to 1048576 [default: 65536]\n"
    "      --max-sent <N>     Largest sent message in bytes, 1152 to 65536 [default: 65536]\n"
    "      --queue <N>        Output queue of a connection in bytes, --max-sent to 4194304 [default: 131072]\n"
    "      --pending <N>      Pending requests of a connection, 1 to 256 [default: 16]\n"
    "      --observers <N>    Observers of a connection, 0 to 256 [default: 16]\n"
    "      --connections <N>  Connections at the same time, 1 to 256 [default: 16]\n"
    "      --idle <SECONDS>   Seconds until a silent connection is closed, 0 to 4294967295 (0: never) [default: 0]\n"
    "\n"
    "Broker:\n"
    "      --broker-host <HOST>    Name or address of the broker [default: 127.0.0.1]\n"
    "      --broker-port <PORT>    Port of the broker, 1 to 65535 [default: 1883, or 8883 with --cafile]\n"
    "      --username <NAME>       User at the broker\n"
    "      --password-file <FILE>  File with the password in its first line\n"
    "      --cafile <FILE>         Use TLS, with the authorities in FILE\n"
    "      --cert <FILE>           Certificate of the gateway, for TLS\n"
    "      --key <FILE>            Key of the certificate\n"
    "      --id <N>                Number of this gateway, 0 to 65535, different for each [default: 0]\n"
    "\n"
    "Other:\n"
    "      --prefix <PATH>      Path of the shared resources, and their topic [default: shared]\n"
    "      --stale <WHAT>       Reads while the broker is away: serve or refuse [default: serve]\n"
    "      --in-flight <BYTES>  Bytes of all writes under way, 131072 to 1073741824 [default: 16777216]\n"
    "      --reread <MINUTES>   Minutes between readings of all messages, 0 to 10080 (0: never) [default: 60]\n"
    "      --health <PATH>      Path that says whether the broker is connected, or none [default: health]\n"
    "      --metrics <FILE>     Write metrics for Prometheus to FILE every 15 seconds\n"
    "      --log <LEVEL>        Log on standard error: 0 nothing, 1 warnings, 2 also connections, 3 also messages "
    "[default: 1]\n"
    "  -h, --help               Print help\n"
    "  -V, --version            Print version\n";

/* Reads a decimal number of 1 to 20 digits. Returns false if it is malformed or out of its range. */
static bool read_number(const char *text, uint64_t least, uint64_t greatest, uint64_t *number) {
    uint64_t value = 0;
    size_t length = strlen(text);
    if (length < 1 || length > 20 || strspn(text, "0123456789") != length)
        return false;
    for (; *text; text++) {
        uint64_t digit = (uint64_t)(*text - '0');
        if (value > (UINT64_MAX - digit) / 10)
            return false;
        value = value * 10 + digit;
    }
    *number = value;
    return value >= least && value <= greatest;
}

static bool read_size(const char *text, uint64_t least, uint64_t greatest, size_t *size) {
    uint64_t number = 0;
    bool is_good = read_number(text, least, greatest, &number);
    *size = (size_t)number;
    return is_good;
}

static bool read_small(const char *text, uint64_t least, uint16_t *small) {
    uint64_t number = 0;
    bool is_good = read_number(text, least, UINT16_MAX, &number);
    *small = (uint16_t)number;
    return is_good;
}

static bool read_address(struct options *options, const char *text) {
    uint8_t bytes[16];
    options->address = text;
    return inet_pton(AF_INET, text, bytes) == 1 || inet_pton(AF_INET6, text, bytes) == 1;
}

/* Paths of the server's own resources. */
static const char *const built_in[] = {"time", "async", ".well-known/core"};

/* Returns true if no path begins with both. */
static bool are_apart(const struct path *one, const struct path *other) {
    return !path_begins(one, other) && !path_begins(other, one);
}

static bool is_apart_from_built_in(const struct path *path) {
    for (size_t at = 0; at < sizeof built_in / sizeof *built_in; at++) {
        struct path other;
        if (path_read(&other, built_in[at]) && !are_apart(path, &other))
            return false;
    }
    return true;
}

/*
 * The topic of the prefix is a level of its own, so a broker must deliver it to `prefix/#`: not so with a leading
 * dollar.
 */
static bool read_prefix(struct options *options, const char *text) {
    options->prefix_text = text;
    return path_read(&options->prefix, text) && text[0] != '$' && is_apart_from_built_in(&options->prefix);
}

static bool read_health(struct options *options, const char *text) {
    options->health_text = strcmp(text, "none") == 0 ? NULL : text;
    if (!options->health_text)
        return true;
    return path_read(&options->health, text) && is_apart_from_built_in(&options->health);
}

static bool read_idle(struct options *options, const char *text) {
    uint64_t seconds = 0;
    bool is_good = read_number(text, 0, UINT32_MAX, &seconds);
    options->idle = seconds * 1000;
    return is_good;
}

/* Returns NAME of a value `credential:NAME`, or NULL. */
static const char *credential_of(const char *text) {
    static const char scheme[] = "credential:";
    return strncmp(text, scheme, sizeof scheme - 1) == 0 ? text + sizeof scheme - 1 : NULL;
}

/* Reads the name of a file. `credential:NAME` is the file NAME among those that systemd passes to the program. */
static bool read_file(struct options *options, const char **file, int place, const char *text) {
    const char *folder = getenv("CREDENTIALS_DIRECTORY"), *name = credential_of(text);
    *file = text;
    if (!name)
        return *text != 0;
    if (!folder || !*name || strchr(name, '/'))
        return false;
    int length = snprintf(options->credentials[place], CREDENTIAL_ROOM, "%s/%s", folder, name);
    *file = options->credentials[place];
    return length < CREDENTIAL_ROOM;
}

/* Returns the end of the message on a bad value. */
static const char *reason_of(const char *text) {
    return credential_of(text) && !getenv("CREDENTIALS_DIRECTORY") ? " (systemd passes no credentials)" : "";
}

static bool read_stale(struct options *options, const char *text) {
    options->refuses_stale = strcmp(text, "refuse") == 0;
    return options->refuses_stale || strcmp(text, "serve") == 0;
}

static bool read_level(struct options *options, const char *text) {
    size_t level = 0;
    bool is_good = read_size(text, 0, 3, &level);
    options->log_level = (int)level;
    return is_good;
}

/* Reads a value of the CoAP side. Returns false if it is bad, or if the option is not one of these. */
static bool read_coap(struct options *options, int name, const char *text) {
    switch (name) {
    case 'A': return read_address(options, text);
    case 'p': return read_small(text, 1, &options->port);
    case 'd': return read_size(text, 1, 1000, &options->resources);
    case MAX_MESSAGE: return read_size(text, 1152, 1048576, &options->max_message);
    case MAX_SENT: return read_size(text, 1152, 65536, &options->max_sent);
    case QUEUE: return read_size(text, 1152, 4194304, &options->queue);
    case PENDING: return read_size(text, 1, 256, &options->pending);
    case OBSERVERS: return read_size(text, 0, 256, &options->observers);
    case CONNECTIONS: return read_size(text, 1, 256, &options->connections);
    case IDLE: return read_idle(options, text);
    default: return false;
    }
}

/* Reads the value of an option. Returns false if it is bad. */
static bool read_value(struct options *options, int name, const char *text) {
    switch (name) {
    case BROKER_HOST: options->broker_host = text; return *text != 0;
    case BROKER_PORT: return read_small(text, 1, &options->broker_port);
    case USERNAME: options->username = text; return true;
    case PASSWORD_FILE: return read_file(options, &options->password_file, CREDENTIAL_PASSWORD, text);
    case CAFILE: return read_file(options, &options->cafile, CREDENTIAL_CAFILE, text);
    case CERT: return read_file(options, &options->cert, CREDENTIAL_CERT, text);
    case KEY: return read_file(options, &options->key, CREDENTIAL_KEY, text);
    case ID: return read_small(text, 0, &options->id);
    case PREFIX: return read_prefix(options, text);
    case STALE: return read_stale(options, text);
    case HEALTH: return read_health(options, text);
    case METRICS: options->metrics = text; return *text != 0;
    case IN_FLIGHT: return read_size(text, 131072, 1073741824, &options->in_flight);
    case REREAD: return read_number(text, 0, 10080, &options->reread);
    case LOG: return read_level(options, text);
    default: return read_coap(options, name, text);
    }
}

static void set_defaults(struct options *options) {
    *options = (struct options){.address = "127.0.0.1", .port = 5683, .resources = 1000, .max_message = 65536,
                                .max_sent = 65536, .queue = 131072, .pending = 16, .observers = 16,
                                .connections = 16, .broker_host = "127.0.0.1",
                                .in_flight = 16777216, .reread = 60, .log_level = LOG_WARNINGS};
    read_prefix(options, "shared");
    read_health(options, "health");
}

/* The password is in a file, since every user of the machine can read a command line. */
static bool read_password(struct options *options) {
    FILE *file = fopen(options->password_file, "r");
    if (!file)
        return false;
    bool is_read = fgets(options->password, PASSWORD_ROOM, file) != NULL;
    size_t length = strcspn(options->password, "\r\n");
    is_read = is_read && (options->password[length] || length < PASSWORD_ROOM - 1);
    options->password[length] = 0;
    fclose(file);
    return is_read;
}

/* Checks the options that depend on others. Prints the error and returns false if they do not fit. */
static bool check(struct options *options) {
    if (!options->broker_port)
        options->broker_port = options->cafile ? 8883 : 1883;
    if (options->queue < options->max_sent)
        return log_always("bad value for --queue: below --max-sent"), false;
    if (options->password_file && !options->username)
        return log_always("--password-file needs --username"), false;
    if (!options->cert != !options->key || (options->cert && !options->cafile))
        return log_always("--cert and --key need each other and --cafile"), false;
    if (options->health_text && !are_apart(&options->health, &options->prefix))
        return log_always("the paths of --health and --prefix overlap: %s and %s", options->health_text,
                          options->prefix_text), false;
    if (options->password_file && !read_password(options))
        return log_always("cannot read a password of at most %d bytes from %s", PASSWORD_ROOM - 2,
                          options->password_file),
               false;
    return tls_files_check(options);
}

/* Returns the name of an option for a message. */
static const char *name_of(int option, char *room) {
    for (const struct option *one = names; one->name; one++)
        if (one->val == option) {
            snprintf(room, 32, "--%s", one->name);
            return room;
        }
    snprintf(room, 32, "-%c", option);
    return room;
}

enum options_result options_read(struct options *options, int count, char **words) {
    bool is_given[AFTER_LAST] = {false};
    char name[32];
    set_defaults(options);
    for (int option; (option = getopt_long(count, words, "A:p:d:hV", names, NULL)) != -1;) {
        if (option == '?')
            return OPTIONS_BAD;
        if (option == 'h' || option == 'V') {
            fputs(option == 'h' ? help : PROGRAM " " COAP_MQTT_VERSION "\n", stdout);
            return OPTIONS_DONE;
        }
        if (is_given[option])
            return log_always("%s is given twice", name_of(option, name)), OPTIONS_BAD;
        is_given[option] = true;
        if (!read_value(options, option, optarg))
            return log_always("bad value for %s: %s%s", name_of(option, name), optarg, reason_of(optarg)), OPTIONS_BAD;
    }
    if (optind < count)
        return log_always("unexpected argument: %s", words[optind]), OPTIONS_BAD;
    return check(options) ? OPTIONS_RUN : OPTIONS_BAD;
}
