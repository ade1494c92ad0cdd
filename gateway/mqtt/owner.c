#include "owner.h"

/*
 * Returns true if the record of another run is later than that of this run. Of two equal numbers, the greater run
 * counts.
 */
static bool is_later(const struct origin *other, const struct origin *own) {
    uint64_t ahead = other->number - own->number;
    return other->run && (ahead ? ahead <= INT64_MAX : other->run > own->run);
}

void owner_begin(struct owner *owner) {
    owner->other = (struct origin){0};
    owner->was_read = false;
}

bool owner_read(struct owner *owner, const struct origin *record) {
    if (record->run == owner->own.run) {
        owner->was_read = record->number == owner->own.number;
        return false;
    }
    owner->other = *record;
    return owner->is_published && !owner->has_given_way && is_later(record, &owner->own);
}

void owner_give_way(struct owner *owner) {
    owner->has_given_way = true;
}

struct origin owner_next(struct owner *owner) {
    if (!owner->is_published || is_later(&owner->other, &owner->own))
        owner->own.number = owner->other.number + 1;
    owner->is_published = true;
    owner->has_given_way = false;
    return owner->own;
}

bool owner_is_lost(const struct owner *owner) {
    return owner->is_acknowledged && !owner->was_read && !is_later(&owner->other, &owner->own);
}
