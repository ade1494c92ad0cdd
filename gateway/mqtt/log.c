#include "log.h"

#include <poll.h>
#include <stdarg.h>
#include <stdio.h>
#include <string.h>
#include <time.h>
#include <unistd.h>

enum { LINES_A_SECOND = 100, LINE_ROOM = 1024 };

static int greatest;
static time_t second;
static unsigned written, left_out;

void log_open(int level) {
    greatest = level;
}

int log_is_on(int level) {
    return level <= greatest;
}

/* Writes a line, if standard error accepts it. A pipe that is ready accepts this many bytes without blocking. */
static int write_line(char *line, int length) {
    struct pollfd ready = {.fd = STDERR_FILENO, .events = POLLOUT};
    if (length > LINE_ROOM - 2)
        length = LINE_ROOM - 2;
    line[length++] = '\n';
    return poll(&ready, 1, 0) == 1 && (ready.revents & POLLOUT) && write(STDERR_FILENO, line, (size_t)length) == length;
}

static int write_time(char *line, const struct timespec *now) {
    struct tm parts;
    gmtime_r(&now->tv_sec, &parts);
    int length = (int)strftime(line, LINE_ROOM, "%Y-%m-%dT%H:%M:%S", &parts);
    return length +
           snprintf(line + length, (size_t)(LINE_ROOM - length), ".%03ldZ " PROGRAM ": ", now->tv_nsec / 1000000);
}

/* Begins a new second, and says how many lines the last ones left out. */
static void begin_second(const struct timespec *now) {
    char line[LINE_ROOM];
    second = now->tv_sec;
    written = 0;
    if (left_out == 0)
        return;
    int start = write_time(line, now);
    int length = start + snprintf(line + start, (size_t)(LINE_ROOM - start), "lines left out: %u", left_out);
    if (write_line(line, length))
        left_out = 0;
}

void log_tick(void) {
    struct timespec now;
    clock_gettime(CLOCK_REALTIME, &now);
    if (left_out && now.tv_sec != second)
        begin_second(&now);
}

void log_close(void) {
    struct timespec now;
    clock_gettime(CLOCK_REALTIME, &now);
    begin_second(&now);
}

void log_line(int level, const char *format, ...) {
    char line[LINE_ROOM];
    struct timespec now;
    if (!log_is_on(level))
        return;
    clock_gettime(CLOCK_REALTIME, &now);
    if (now.tv_sec != second)
        begin_second(&now);
    if (written == LINES_A_SECOND) {
        left_out++;
        return;
    }
    int start = write_time(line, &now);
    va_list arguments;
    va_start(arguments, format);
    int length = start + vsnprintf(line + start, (size_t)(LINE_ROOM - start), format, arguments);
    va_end(arguments);
    if (write_line(line, length))
        written++;
    else
        left_out++;
}

void log_always(const char *format, ...) {
    char line[LINE_ROOM];
    int start = snprintf(line, LINE_ROOM, PROGRAM ": ");
    va_list arguments;
    va_start(arguments, format);
    int length = start + vsnprintf(line + start, (size_t)(LINE_ROOM - start), format, arguments);
    va_end(arguments);
    write_line(line, length);
}
