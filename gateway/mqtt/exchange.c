#include "exchange.h"

#include <mqtt_protocol.h>
#include <string.h>

#include "health.h"
#include "log.h"
#include "requests.h"
#include "screen.h"

/* Milliseconds within which the end of a connection follows from a refusal on it. */
enum { AFTER_REFUSAL = 5000 };

/* ---- requests ---- */

/* Returns the largest payload of a PUT: by the limit of the store, or that of the broker for packets. */
static uint32_t room_of(const struct gateway *gateway, const struct request *request) {
    char topic[TOPIC_ROOM];
    if (!request->has_path)
        return REPRESENTATION_BYTES;
    topic_of_path(&request->path, topic);
    size_t room = broker_room(&gateway->broker, topic, request->format);
    return (uint32_t)(room < REPRESENTATION_BYTES ? room : REPRESENTATION_BYTES);
}

/* Responds at once. The take before it left room for the largest message sent, so this is never refused for room. */
static void respond(struct gateway *gateway, uint64_t peer, const struct request *request, uint32_t code) {
    uint8_t response[RESPONSE_ROOM] = {0};
    uint32_t room = code == CODE_TOO_LARGE ? room_of(gateway, request) : 0;
    const struct dachreup_span *token = &request->message.token;
    size_t size = response_write(response, code, token->at, token->count, NULL, code == CODE_TOO_LARGE ? &room : NULL);
    dachreup_ignore(dachreup_server_respond(&gateway->server, peer, response, size, NULL));
    metrics_count(&gateway->metrics, request->message.code, code);
}

/* Returns the code that refuses a request whatever the mirror has, or 0. */
static uint32_t refusal_at_once(const struct gateway *gateway, const struct request *request) {
    if (request->message.code == METHOD_REFUSED)
        return gateway->peers.refuses_reads ? CODE_UNAVAILABLE : CODE_NOT_ALLOWED;
    return health_is_good(gateway) ? 0 : CODE_UNAVAILABLE;
}

/* Returns true if a path without a resource may get one. Creations under way have their places already. */
static bool has_place(const struct gateway *gateway, const struct path *path) {
    const struct lane *lane = writes_lane(&gateway->writes, path);
    return (lane && lane->creates) || !mirror_is_full(&gateway->mirror, gateway->writes.creations);
}

/*
 * Returns the code that refuses a request, or 0. Sets *is_stored to whether its resource exists. At a path that no
 * resource can have, a DELETE has nothing to do, and succeeds (RFC 7252 section 5.8.4).
 */
static uint32_t refusal_of(const struct gateway *gateway, const struct request *request, bool *is_stored) {
    struct dachreup_state state = {{0}, 0, 0};
    bool is_delete = request->message.code == METHOD_DELETE;
    *is_stored = request->has_path && mirror_state(&gateway->mirror, &request->path, &state);
    if (!request_conditions_hold(request, *is_stored ? &state : NULL))
        return CODE_PRECONDITION_FAILED;
    if (!is_delete && request->message.payload.count > REPRESENTATION_BYTES)
        return CODE_TOO_LARGE;
    if (!request->has_path)
        return is_delete ? CODE_DELETED : CODE_BAD_REQUEST;
    if (refusals_have(&gateway->refusals, &request->path, gateway->now))
        return CODE_FORBIDDEN;
    if (*is_stored)
        return 0;
    if (refusals_are_many(&gateway->refusals, gateway->now))
        return CODE_UNAVAILABLE;
    return is_delete || has_place(gateway, &request->path) ? 0 : CODE_NOT_ACCEPTABLE;
}

/*
 * Publishes the change that a request asks for. Returns the code that refuses it, or 0: the response follows the echo.
 */
static uint32_t publish(struct gateway *gateway, struct write *write, const struct request *request, bool is_stored) {
    char topic[TOPIC_ROOM];
    bool is_delete = request->message.code == METHOD_DELETE;
    const struct dachreup_span *payload = &request->message.payload;
    topic_of_path(&request->path, topic);
    const uint8_t *bytes = is_delete ? NULL : payload->at;
    enum broker_result result = broker_publish(&gateway->broker, topic, bytes, bytes ? payload->count : 0,
                                               bytes ? request->format : BROKER_NO_FORMAT, write->number,
                                               &write->publication);
    if (result == BROKER_NOT_SENT)
        return CODE_UNAVAILABLE;
    /* A smaller payload can help a PUT alone. */
    if (result == BROKER_TOO_LARGE)
        return is_delete ? CODE_INTERNAL_ERROR : CODE_TOO_LARGE;
    write->sent = gateway->now;
    writes_sent(&gateway->writes, write, is_stored);
    return 0;
}

/* Occupies a place for a request that counts so many bytes. Returns NULL if there is no room. */
static struct write *enter(struct gateway *gateway, uint64_t peer, const struct request *request, size_t bytes) {
    const struct dachreup_span *token = &request->message.token;
    struct write *write = writes_add(&gateway->writes, &request->path, bytes + WRITE_BYTES);
    if (!write)
        return NULL;
    write->peer = peer;
    write->second = gateway->second;
    write->method = request->message.code;
    write->token_length = token->count;
    memcpy(write->token, token->at, token->count);
    return write;
}

/* Publishes the change of a new request, unless something refuses it. Returns the code of the refusal, or 0. */
static uint32_t begin(struct gateway *gateway, uint64_t peer, const struct request *request) {
    bool is_stored = false;
    uint32_t code = refusal_of(gateway, request, &is_stored);
    if (code)
        return code;
    struct write *write = enter(gateway, peer, request, request->message.payload.count);
    code = write ? publish(gateway, write, request, is_stored) : CODE_UNAVAILABLE;
    if (write && code)
        writes_remove(&gateway->writes, write);
    return code;
}

/*
 * Returns true if a request has a condition, and its resource may change before its publication would be applied. Of
 * two requests with one ETag, the second must see what the first one did.
 */
static bool must_wait(const struct gateway *gateway, const struct request *request) {
    if (!request->is_conditional || !request->has_path)
        return false;
    const struct lane *lane = writes_lane(&gateway->writes, &request->path);
    /* A payload that is too large is refused at once. */
    return lane && lane->published && request->message.payload.count <= room_of(gateway, request);
}

/* Keeps a request until no write of its path is under way. Returns the code that refuses it, or 0. */
static uint32_t wait_for_others(struct gateway *gateway, uint64_t peer, const struct request *request,
                                const struct dachreup_span *bytes) {
    struct write *write = enter(gateway, peer, request, bytes->count);
    if (write && writes_wait(write, bytes->at, bytes->count))
        return 0;
    if (write)
        writes_remove(&gateway->writes, write);
    return CODE_UNAVAILABLE;
}

void exchange_request(void *owner, uint64_t peer, const struct dachreup_span *bytes) {
    struct gateway *gateway = owner;
    struct request request;
    if (!request_read(&request, bytes))
        return;
    uint32_t code = health_code(gateway, &request);
    if (code == 0)
        code = refusal_at_once(gateway, &request);
    if (code == 0 && must_wait(gateway, &request))
        code = wait_for_others(gateway, peer, &request, bytes);
    else if (code == 0)
        code = begin(gateway, peer, &request);
    if (code)
        respond(gateway, peer, &request, code);
}

/* ---- responses that follow later ---- */

/* Returns true if the server has answered a request with 5.04. Another request may have its token now. */
static bool is_over(const struct gateway *gateway, const struct write *write) {
    return gateway->second >= write->second + DEADLINE;
}

/* Sends the response to a request. If the queue of the peer has no room, it is sent later. */
static void deliver(struct gateway *gateway, struct write *write, uint32_t code) {
    uint8_t response[RESPONSE_ROOM] = {0};
    if (is_over(gateway, write)) {
        metrics_count(&gateway->metrics, write->method, CODE_TIMEOUT);
        writes_remove(&gateway->writes, write);
        return;
    }
    const struct path *location = code == CODE_CREATED && write->method == METHOD_POST ? &write->lane->path : NULL;
    size_t size = response_write(response, code, write->token, write->token_length, location, NULL);
    dachreup_result result = dachreup_server_respond(&gateway->server, write->peer, response, size, NULL);
    if (result != DACHREUP_QUEUE_FULL) {
        /* Without a request, the server has sent 5.04. A peer that is gone gets no response. */
        if (result == DACHREUP_OK || result == DACHREUP_NO_SUCH_REQUEST)
            metrics_count(&gateway->metrics, write->method, result ? CODE_TIMEOUT : code);
        writes_remove(&gateway->writes, write);
        return;
    }
    writes_answer(&gateway->writes, write, code);
}

/* Judges a request that waited, by the mirror of now: publishes its change, or answers it. */
static void judge(struct gateway *gateway, struct write *write) {
    struct dachreup_span bytes = {write->request, write->request_length};
    struct request request;
    bool is_stored = false;
    request_read(&request, &bytes);
    uint32_t code = refusal_at_once(gateway, &request);
    if (code == 0)
        code = refusal_of(gateway, &request, &is_stored);
    if (code == 0)
        code = publish(gateway, write, &request, is_stored);
    if (code)
        deliver(gateway, write, code);
}

/* Answers a write that is not under way any more. Then those of its path are judged that waited for it. */
static void finish(struct gateway *gateway, struct write *write, uint32_t code) {
    struct lane *lane = write->lane;
    deliver(gateway, write, code);
    /* A lane that is free now has no writes. */
    while (lane->first && !lane->published)
        judge(gateway, lane->first);
}

/* Returns the code of the response after an echo changed the mirror. */
static uint32_t code_after(const struct write *write, enum mirror_change change) {
    /* The broker has the change, and the mirror has no place for it. */
    if (change == MIRROR_IGNORED || change == MIRROR_LEFT_OUT)
        return CODE_INTERNAL_ERROR;
    if (write->method == METHOD_DELETE)
        return CODE_DELETED;
    return change == MIRROR_CREATED ? CODE_CREATED : CODE_CHANGED;
}

/* Returns the publication whose echo this message is, or NULL. */
static struct write *echo_of(struct gateway *gateway, const struct path *path, const struct broker_message *message) {
    if (!path || message->origin.run != gateway->broker.run)
        return NULL;
    struct write *write = writes_find(&gateway->writes, message->origin.number);
    bool is_out = write && (write->stage == WRITE_PUBLISHED || write->stage == WRITE_LOST);
    return is_out && path_equals(&write->lane->path, path) ? write : NULL;
}

/* Counts the creations under way anew, after a message created or removed a resource. */
static void note_creation(struct gateway *gateway, const struct path *path, enum mirror_change change) {
    bool matters = change == MIRROR_CREATED || change == MIRROR_REMOVED || change == MIRROR_LEFT_OUT;
    struct lane *lane = matters && gateway->writes.used ? writes_lane(&gateway->writes, path) : NULL;
    if (lane)
        writes_note(&gateway->writes, lane, change == MIRROR_CREATED);
}

void exchange_message(void *owner, const struct broker_message *message) {
    struct gateway *gateway = owner;
    struct path path;
    bool has_path = path_of_topic(&path, message->topic);
    enum mirror_change change = mirror_apply(&gateway->mirror, has_path ? &path : NULL, message);
    struct write *write = echo_of(gateway, has_path ? &path : NULL, message);
    note_creation(gateway, &path, change);
    if (log_is_on(LOG_MESSAGES)) {
        char printed[PRINTED_ROOM];
        log_line(LOG_MESSAGES, "broker: %s: %zu bytes%s", printed_name(printed, message->topic, strlen(message->topic)),
                 message->length, write ? ", of this gateway" : "");
    }
    if (write)
        finish(gateway, write, code_after(write, change));
}

void exchange_acknowledged(void *owner, int publication) {
    struct gateway *gateway = owner;
    struct write *write = writes_published(&gateway->writes, publication);
    if (write)
        writes_acknowledged(&gateway->writes, write, gateway->now);
}

/* Returns the code for the reason of a refused publication. */
static uint32_t code_of(int reason) {
    switch (reason) {
    case MQTT_RC_NOT_AUTHORIZED: return CODE_FORBIDDEN;
    case MQTT_RC_QUOTA_EXCEEDED: return CODE_UNAVAILABLE;
    case MQTT_RC_TOPIC_NAME_INVALID: return CODE_BAD_REQUEST;
    default: return CODE_INTERNAL_ERROR;
    }
}

void exchange_refused(void *owner, int publication, int reason) {
    struct gateway *gateway = owner;
    struct write *write = writes_published(&gateway->writes, publication);
    char topic[TOPIC_ROOM] = "", printed[PRINTED_ROOM];
    size_t length = write ? topic_of_path(&write->lane->path, topic) : 0;
    gateway->refused = gateway->now;
    log_line(LOG_WARNINGS, "broker: refused a publication: 0x%02X: %s", (unsigned)reason,
             printed_name(printed, topic, length));
    if (!write)
        return;
    if (reason == MQTT_RC_NOT_AUTHORIZED)
        refusals_add(&gateway->refusals, &write->lane->path, gateway->now);
    finish(gateway, write, code_of(reason));
}

/* ---- the ends of connections, and deadlines ---- */

/* Counts the creations under way anew, after a reading removed resources. */
void exchange_complete(struct gateway *gateway) {
    struct writes *writes = &gateway->writes;
    struct dachreup_state state;
    for (size_t at = 0; writes->used && at < writes->fresh_lanes; at++) {
        struct lane *lane = &writes->lanes[at];
        if (lane->stores)
            writes_note(writes, lane, mirror_state(&gateway->mirror, &lane->path, &state));
    }
}

/* After a refusal, mosquitto ends the connection. */
static void note_refusal(struct gateway *gateway) {
    bool is_its_end = gateway->refused && gateway->now - gateway->refused < AFTER_REFUSAL;
    gateway->refused = 0;
    if (is_its_end && refusals_lost(&gateway->refusals, gateway->now))
        log_line(LOG_WARNINGS, "broker: lost %d connections by refusals within a minute: no new path until it is over",
                 LOSSES_BY_REFUSAL);
}

/* Ends what was under way on a connection to the broker that has ended. Requests that waited were not published. */
static void check_loss(struct gateway *gateway) {
    struct writes *writes = &gateway->writes;
    if (gateway->ended == gateway->broker.losses)
        return;
    gateway->ended = gateway->broker.losses;
    note_refusal(gateway);
    for (size_t at = 0; writes->used && at < writes->fresh; at++) {
        struct write *write = &writes->places[at];
        if (write->stage == WRITE_PUBLISHED)
            writes_lost(writes, write);
        else if (write->stage == WRITE_WAITS)
            deliver(gateway, write, CODE_UNAVAILABLE);
    }
}

/*
 * Returns true if an echo must have come: nothing came for a time, or the broker acknowledged the publication, and
 * messages came for a time after that. On a slow link, an echo may take longer.
 */
static bool is_late(const struct gateway *gateway, const struct write *write) {
    uint64_t progress = gateway->broker.progress, last = progress > write->sent ? progress : write->sent;
    bool is_passed = write->acknowledged && progress > write->acknowledged + BROKER_PATIENCE;
    return is_passed || gateway->now - last > BROKER_PATIENCE;
}

/* Checks the deadlines of a write. */
static void check_write(struct gateway *gateway, struct write *write) {
    struct dachreup_status status;
    /* What is published stays until its echo comes, whether or not somebody waits for it. */
    if (write->stage != WRITE_PUBLISHED) {
        bool has_ended = is_over(gateway, write);
        if (has_ended)
            metrics_count(&gateway->metrics, write->method, CODE_TIMEOUT);
        if (has_ended || dachreup_server_status(&gateway->server, write->peer, &status) != DACHREUP_OK)
            writes_remove(&gateway->writes, write);
    } else if (is_late(gateway, write) && gateway->broker.client)
        broker_fail(&gateway->broker, "an echo did not come within %d seconds", BROKER_PATIENCE / 1000);
}

void exchange_end(struct gateway *gateway) {
    struct writes *writes = &gateway->writes;
    for (size_t at = 0; at < writes->fresh; at++) {
        struct write *write = &writes->places[at];
        if (write->stage == WRITE_WAITS)
            deliver(gateway, write, CODE_UNAVAILABLE);
        else if (write->stage == WRITE_PUBLISHED || write->stage == WRITE_LOST)
            deliver(gateway, write, CODE_TIMEOUT);
    }
}

void exchange_check(struct gateway *gateway, bool is_new_second) {
    struct writes *writes = &gateway->writes;
    check_loss(gateway);
    if (!writes->used || (!is_new_second && !writes->waiting))
        return;
    for (size_t at = 0; at < writes->fresh; at++) {
        struct write *write = &writes->places[at];
        if (write->stage == WRITE_ANSWERED)
            deliver(gateway, write, write->answer);
        else if (write->stage != WRITE_FREE && is_new_second)
            check_write(gateway, write);
    }
}
