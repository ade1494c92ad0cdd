#include "guard.h"

#include <dlfcn.h>
#include <setjmp.h>
#include <stdio.h>
#include <stdlib.h>
#include <string.h>

static jmp_buf place;
static volatile int is_armed;

/* Returns true if an address is in the code of libmosquitto. */
static bool is_of_library(const void *address) {
    Dl_info caller = {0}, library = {0};
    void *known = dlsym(RTLD_DEFAULT, "mosquitto_lib_version");
    return known && dladdr(known, &library) && dladdr(address, &caller) && caller.dli_fbase == library.dli_fbase;
}

/*
 * The macro assert of every library calls this function, and the program's own comes before that of the C library. Only
 * an assertion of libmosquitto ends a guarded call.
 *
 * The call may leave two locks of its client held: that of the callbacks, since a callback runs under it, and that of
 * the outgoing messages, under which publications are sent. Most other calls with this client would wait for them for
 * ever. mosquitto_destroy takes neither: it destroys them, which POSIX leaves undefined for a lock that is held, and
 * which glibc does not mind. The packet that was being read or written is not freed.
 */
_Noreturn void __assert_fail(const char *expression, const char *file, unsigned line, const char *function);

_Noreturn void __assert_fail(const char *expression, const char *file, unsigned line, const char *function) {
    if (is_armed && is_of_library(__builtin_return_address(0))) {
        is_armed = 0;
        longjmp(place, 1);
    }
    fprintf(stderr, "coap-mqtt: %s:%u: %s: assertion failed: %s\n", file, line, function, expression);
    abort();
}

/* A call with its arguments. */
struct call {
    int (*make)(const struct call *call);
    struct mosquitto *client;
    const char *filter;
    int options;
    int *publication;
    const struct guarded_message *message;
};

/* Makes a call. Only the outermost one has a place to which a failed assertion can return. */
static int guarded(const struct call *call) {
    if (is_armed)
        return call->make(call);
    if (setjmp(place))
        return GUARD_FAILED;
    is_armed = 1;
    int result = call->make(call);
    is_armed = 0;
    return result;
}

static int make_read(const struct call *call) {
    return mosquitto_loop_read(call->client, 1);
}

static int make_write(const struct call *call) {
    return mosquitto_loop_write(call->client, 1);
}

static int make_misc(const struct call *call) {
    return mosquitto_loop_misc(call->client);
}

static int make_disconnect(const struct call *call) {
    return mosquitto_disconnect(call->client);
}

static int make_subscribe(const struct call *call) {
    return mosquitto_subscribe_v5(call->client, NULL, call->filter, 1, call->options, NULL);
}

static int make_publish(const struct call *call) {
    const struct guarded_message *message = call->message;
    return mosquitto_publish_v5(call->client, call->publication, message->topic, (int)message->length, message->bytes,
                                1, message->is_retained, message->properties);
}

int guarded_read(struct mosquitto *client) {
    return guarded(&(struct call){.make = make_read, .client = client});
}

int guarded_write(struct mosquitto *client) {
    return guarded(&(struct call){.make = make_write, .client = client});
}

int guarded_misc(struct mosquitto *client) {
    return guarded(&(struct call){.make = make_misc, .client = client});
}

int guarded_disconnect(struct mosquitto *client) {
    return guarded(&(struct call){.make = make_disconnect, .client = client});
}

int guarded_subscribe(struct mosquitto *client, const char *filter, int options) {
    return guarded(&(struct call){.make = make_subscribe, .client = client, .filter = filter, .options = options});
}

int guarded_publish(struct mosquitto *client, int *publication, const struct guarded_message *message) {
    struct call call = {.make = make_publish, .client = client, .publication = publication, .message = message};
    return guarded(&call);
}
