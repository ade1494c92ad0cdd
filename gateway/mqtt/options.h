/* The options of the command line. */
#ifndef COAP_MQTT_OPTIONS_H
#define COAP_MQTT_OPTIONS_H

#include <stdbool.h>
#include <stddef.h>
#include <stdint.h>

#include "names.h"

/* Sizes of a password and of the name of a file among the credentials of systemd. */
enum { PASSWORD_ROOM = 256, CREDENTIAL_ROOM = 512 };

/* Options with the name of a file that can be a credential. */
enum { CREDENTIAL_PASSWORD, CREDENTIAL_CAFILE, CREDENTIAL_CERT, CREDENTIAL_KEY, CREDENTIALS };

struct options {
    /* CoAP, as in coap-server */
    const char *address;
    uint16_t port;
    size_t resources, max_message, max_sent, queue, pending, observers, connections;
    uint64_t idle; /* milliseconds after which a silent connection ends, or 0 */
    /* the broker */
    const char *broker_host;
    uint16_t broker_port;
    const char *username, *password_file, *cafile, *cert, *key;
    char password[PASSWORD_ROOM]; /* the first line of password_file */
    char credentials[CREDENTIALS][CREDENTIAL_ROOM]; /* names of files for values `credential:NAME` */
    uint16_t id;
    /* the resources that all gateways share */
    struct path prefix;
    const char *prefix_text;
    size_t in_flight; /* bytes of writes under way */
    uint64_t reread;  /* minutes between two readings of all retained messages, 0: never */
    /* operation */
    struct path health;
    const char *health_text; /* NULL: no such resource */
    const char *metrics;     /* name of a file, or NULL */
    bool refuses_stale; /* answers 5.03 to reads while there is no connection to the broker */
    int log_level;
};

enum options_result { OPTIONS_RUN, OPTIONS_DONE, OPTIONS_BAD };

/*
 * Reads the options and the password. After OPTIONS_DONE, the help or the version is on standard output. After
 * OPTIONS_BAD, the error is on standard error.
 */
enum options_result options_read(struct options *options, int count, char **words);

#endif
