/*
 * Sizes of packets of MQTT 5 in bytes, as a Maximum Packet Size counts them.
 *
 * libmosquitto 2.0.11 compares a smaller size with the limit of the broker, and later ends the process because the
 * packet is too large. So the gateway computes each size itself, before libmosquitto gets the packet.
 */
#ifndef COAP_MQTT_PACKETS_H
#define COAP_MQTT_PACKETS_H

#include <stddef.h>
#include <stdint.h>

/* The limit of a broker that names none: larger than every packet. */
#define PACKET_NO_LIMIT UINT32_MAX

/*
 * Returns the size of a PUBLISH with QoS 1. `properties` is the size of its properties, without the length before them.
 */
size_t packet_publish_size(size_t topic, size_t properties, size_t payload);

/* Returns the size of a SUBSCRIBE with one filter and without properties. */
size_t packet_subscribe_size(size_t filter);

/* Returns the largest payload with which a PUBLISH has at most `limit` bytes, or 0 if no payload fits. */
size_t packet_publish_room(size_t topic, size_t properties, size_t limit);

#endif
