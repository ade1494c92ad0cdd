/* The files of TLS, which are checked at the start: afterwards, each attempt to connect would fail. */
#ifndef COAP_MQTT_TLS_FILES_H
#define COAP_MQTT_TLS_FILES_H

#include <stdbool.h>

#include "options.h"

/*
 * Checks the files of the authorities, the certificate and the key, if they are given. Prints the error and returns
 * false if one cannot be read or is not PEM, or if the key is encrypted: nobody is there who could type its password.
 */
bool tls_files_check(const struct options *options);

#endif
