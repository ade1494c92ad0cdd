/* coap-mqtt: resources of CoAP over TCP that are the retained messages of an MQTT broker. */
#include <fcntl.h>
#include <signal.h>
#include <unistd.h>

#include "gateway.h"
#include "log.h"

/*
 * Opens /dev/null for each standard stream that is closed. Otherwise a socket would have its number, and get the log.
 */
static bool open_standard_streams(void) {
    int opened;
    do
        opened = open("/dev/null", O_RDWR);
    while (opened >= 0 && opened <= STDERR_FILENO);
    if (opened > STDERR_FILENO)
        close(opened);
    return opened >= 0;
}

int main(int count, char **words) {
    static struct options options;
    signal(SIGPIPE, SIG_IGN);
    if (!open_standard_streams())
        return STATUS_FAILED;
    switch (options_read(&options, count, words)) {
    case OPTIONS_DONE: return STATUS_ENDED;
    case OPTIONS_BAD: return STATUS_OPTIONS;
    default: break;
    }
    log_open(options.log_level);
    return gateway_run(&options);
}
