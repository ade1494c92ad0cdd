/*
 * Messages to systemd, if it started the program with Type=notify: sd_notify(3) is one datagram, so no library is
 * needed. No call blocks, and a message that cannot be sent is left out.
 */
#ifndef COAP_MQTT_NOTIFY_H
#define COAP_MQTT_NOTIFY_H

#include <stdint.h>

struct notify {
    int socket;      /* -1: nobody is notified */
    uint64_t period; /* milliseconds between two signs of life, or 0: none is expected */
    uint64_t last;   /* milliseconds of the last one */
};

/* Connects to the socket that the environment names, if it names one. */
void notify_open(struct notify *notify);
void notify_close(struct notify *notify);

/* Sends lines such as "READY=1". */
void notify_send(const struct notify *notify, const char *format, ...) __attribute__((format(printf, 2, 3)));

/* Sends a sign of life if it is time: systemd restarts a program that sends none for WatchdogSec. */
void notify_tick(struct notify *notify, uint64_t now);

#endif
