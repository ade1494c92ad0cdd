#include "health.h"

#include "gateway.h"

enum { ACCEPT = 17 };

bool health_is_good(const struct gateway *gateway) {
    return gateway->broker.is_usable && !gateway->broker.fault[0] && !gateway->is_ending;
}

/* Returns true if a request asks for a Content-Format. The resource has none. */
static bool has_accept(const struct request *request) {
    const struct dachreup_span *options = &request->message.options;
    struct dachreup_span value = {0};
    size_t at = 0;
    uint32_t number = 0;
    while (number < ACCEPT && !dachreup_option_next(options->at, options->count, &at, &number, &value)) {
    }
    return number == ACCEPT;
}

/* The server passes all requests whose paths begin with that of the resource, with the method GET alone. */
uint32_t health_code(const struct gateway *gateway, const struct request *request) {
    const struct options *options = gateway->options;
    if (!options->health_text || !path_begins(&request->path, &options->health))
        return 0;
    if (!request->has_path || !path_equals(&request->path, &options->health))
        return CODE_NOT_FOUND;
    /* The resource exists, and no ETag names its state. */
    if (!request_conditions_hold(request, &(struct dachreup_state){{0}, 0, 0}))
        return CODE_PRECONDITION_FAILED;
    if (has_accept(request))
        return CODE_NOT_ACCEPTABLE;
    return health_is_good(gateway) ? CODE_CONTENT : CODE_UNAVAILABLE;
}
