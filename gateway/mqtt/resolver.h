/*
 * The addresses of the broker. A thread of the C library resolves the name, so no call blocks.
 *
 * libmosquitto calls getaddrinfo when it connects. That call blocks, and libmosquitto tries the first address alone. It
 * needs the name for TLS, so it cannot be given an address in its place. Therefore this file defines a getaddrinfo,
 * which comes before that of the C library. It returns one of the addresses that are known.
 */
#ifndef COAP_MQTT_RESOLVER_H
#define COAP_MQTT_RESOLVER_H

#include <stddef.h>

/* Begins to resolve a name, which must last until the next call of this function. An address needs no thread. */
void resolver_begin(const char *name);

/*
 * Returns EAI_INPROGRESS while the name is being resolved, 0 if there is an address, otherwise the error of
 * getaddrinfo. If a name that was resolved before cannot be resolved now, its addresses of that time stay.
 */
int resolver_check(void);

/*
 * Selects the address to which libmosquitto connects next, by its place in the list. The list begins anew at its end.
 */
void resolver_select(size_t place);

#endif
