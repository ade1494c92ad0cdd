#include "mirror.h"

#include <stdlib.h>
#include <string.h>

#include "log.h"

bool mirror_open(struct mirror *mirror, struct dachreup_server *server, const struct path *prefix, size_t limit) {
    *mirror = (struct mirror){.server = server, .prefix = *prefix, .limit = limit, .places = 16};
    while (mirror->places < 2 * limit)
        mirror->places *= 2;
    mirror->entries = calloc(mirror->places, sizeof *mirror->entries);
    return mirror->entries != NULL;
}

void mirror_close(struct mirror *mirror) {
    free(mirror->entries);
}

/* ---- the table of stored paths ---- */

/* A publisher that finds equal values only makes searches among at most `limit` entries longer. */
static size_t home_of(const struct mirror *mirror, const struct path *path) {
    return (size_t)path_hash(path, 0) & (mirror->places - 1);
}

/* Returns the entry of a path, or the free place where it belongs. The table is at most half full. */
static struct mirrored *place_of(const struct mirror *mirror, const struct path *path) {
    size_t at = home_of(mirror, path);
    for (struct mirrored *entry;; at = (at + 1) & (mirror->places - 1)) {
        entry = &mirror->entries[at];
        if (!entry->reading || path_equals(&entry->path, path))
            return entry;
    }
}

/* Records that this reading has a path. */
static void note(struct mirror *mirror, const struct path *path) {
    struct mirrored *entry = place_of(mirror, path);
    if (!entry->reading) {
        entry->path = *path;
        mirror->count++;
        mirror->came++;
    }
    entry->reading = mirror->reading;
}

/* Frees an entry, and moves each later one whose search would end at the gap. */
static void forget(struct mirror *mirror, struct mirrored *entry) {
    size_t mask = mirror->places - 1, gap = (size_t)(entry - mirror->entries);
    mirror->count--;
    mirror->went++;
    mirror->entries[gap].reading = 0;
    for (size_t at = (gap + 1) & mask; mirror->entries[at].reading; at = (at + 1) & mask) {
        struct mirrored *later = &mirror->entries[at];
        size_t home = home_of(mirror, &later->path);
        if (((at - home) & mask) < ((at - gap) & mask))
            continue;
        mirror->entries[gap] = *later;
        later->reading = 0;
        gap = at;
    }
}

/* ---- changes ---- */

/* Removes a stored resource, and notifies its observers. */
static enum mirror_change take_away(struct mirror *mirror, const struct path *path) {
    struct mirrored *entry = place_of(mirror, path);
    if (!entry->reading)
        return MIRROR_UNCHANGED;
    dachreup_ignore(dachreup_server_remove_at(mirror->server, path->bytes, path->size));
    forget(mirror, entry);
    mirror->has_room_again = true;
    return MIRROR_REMOVED;
}

static bool is_equal(const struct dachreup_state *state, const struct broker_message *message) {
    uint32_t format = state->format < BROKER_NO_FORMAT ? state->format : BROKER_NO_FORMAT;
    return format == message->format && state->bytes.count == message->length &&
           (message->length == 0 || memcmp(state->bytes.at, message->bytes, message->length) == 0);
}

/* A message that is not stored leaves no place to the state before it: a reader gets 4.04, not old bytes. */
static enum mirror_change leave_out(struct mirror *mirror, const struct path *path,
                                    const struct broker_message *message, const char *reason) {
    char printed[PRINTED_ROOM];
    mirror->left_out++;
    log_line(LOG_WARNINGS, "left out: %s: %s (%llu left out)",
             printed_name(printed, message->topic, strlen(message->topic)), reason,
             (unsigned long long)mirror->left_out);
    take_away(mirror, path);
    return MIRROR_LEFT_OUT;
}

/* Stores a message. One that equals the stored state changes nothing, so that nobody is notified twice. */
static enum mirror_change store(struct mirror *mirror, const struct path *path, const struct broker_message *message) {
    struct dachreup_state state = {{0}, 0, 0};
    bool is_stored = dachreup_server_state_at(mirror->server, path->bytes, path->size, &state) == DACHREUP_OK;
    if (is_stored && is_equal(&state, message)) {
        note(mirror, path);
        return MIRROR_UNCHANGED;
    }
    switch (dachreup_server_put_at(mirror->server, path->bytes, path->size, message->format, message->bytes,
                                   message->length, NULL)) {
    case DACHREUP_OK: note(mirror, path); return is_stored ? MIRROR_CHANGED : MIRROR_CREATED;
    case DACHREUP_TOO_LARGE: return leave_out(mirror, path, message, "payload above the size limit");
    case DACHREUP_LIMIT:
        mirror->lacks_room = true;
        return leave_out(mirror, path, message, "no place for another resource");
    case DACHREUP_MEMORY: mirror->is_out_of_memory = true; return leave_out(mirror, path, message, "no memory");
    case DACHREUP_VERSIONS_SPENT: return leave_out(mirror, path, message, "no version is left");
    default: return MIRROR_IGNORED;
    }
}

static enum mirror_change ignore(const struct broker_message *message, const char *reason) {
    char printed[PRINTED_ROOM];
    log_line(LOG_WARNINGS, "ignored: %s: %s", printed_name(printed, message->topic, strlen(message->topic)), reason);
    return MIRROR_IGNORED;
}

enum mirror_change mirror_apply(struct mirror *mirror, const struct path *path, const struct broker_message *message) {
    enum mirror_change change;
    if (!message->is_retained)
        return ignore(message, "a message that is not retained");
    if (!path || !path_begins(path, &mirror->prefix))
        return ignore(message, "the topic of no path");
    /* The broker removes it at some time without a message. So no gateway stores it, and all stay equal. */
    if (message->expires && !message->is_removal)
        return leave_out(mirror, path, message, "a message with an expiry interval");
    change = message->is_removal ? take_away(mirror, path) : store(mirror, path, message);
    return change == MIRROR_IGNORED ? ignore(message, "the path of a built-in resource") : change;
}

/* ---- readings ---- */

void mirror_begin(struct mirror *mirror) {
    mirror->reading++;
    mirror->came = mirror->went = mirror->left_out = 0;
    mirror->lacks_room = mirror->has_room_again = false;
}

void mirror_end(struct mirror *mirror) {
    /* A removal moves later entries into its place, so the place is looked at again. */
    for (size_t at = 0; at < mirror->places;) {
        struct mirrored *entry = &mirror->entries[at];
        if (!entry->reading || entry->reading == mirror->reading) {
            at++;
            continue;
        }
        dachreup_ignore(dachreup_server_remove_at(mirror->server, entry->path.bytes, entry->path.size));
        forget(mirror, entry);
        mirror->has_room_again = true;
    }
}

bool mirror_wants_reading(const struct mirror *mirror) {
    return mirror->lacks_room && mirror->has_room_again;
}

bool mirror_state(const struct mirror *mirror, const struct path *path, struct dachreup_state *state) {
    return dachreup_server_state_at(mirror->server, path->bytes, path->size, state) == DACHREUP_OK;
}

bool mirror_is_full(const struct mirror *mirror, size_t more) {
    return mirror->count + more >= mirror->limit;
}
