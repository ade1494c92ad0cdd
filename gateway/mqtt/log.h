/* The log, on standard error. A line that standard error does not accept at once is left out, so no call blocks. */
#ifndef COAP_MQTT_LOG_H
#define COAP_MQTT_LOG_H

#define PROGRAM "coap-mqtt"

/* Levels as in coap-server: each includes the lower ones. */
enum { LOG_NOTHING = 0, LOG_WARNINGS = 1, LOG_CONNECTIONS = 2, LOG_MESSAGES = 3 };

/* Sets the highest level that is written. */
void log_open(int level);

/* Returns 1 if lines of this level are written, otherwise 0. */
int log_is_on(int level);

/* Writes a line with the time in UTC. At most 100 lines a second are written. */
void log_line(int level, const char *format, ...) __attribute__((format(printf, 2, 3)));

/* Says how many lines the last second left out, if it did. Called once a second, and at the end. */
void log_tick(void);
void log_close(void);

/* Writes a line without a time at every level: the address at the start, and the reason of the end. */
void log_always(const char *format, ...) __attribute__((format(printf, 1, 2)));

#endif
