#include "refusals.h"

#include <string.h>

/* Returns the place of a path that is remembered, or REFUSALS. */
static size_t find(const struct refusals *refusals, const struct path *path, uint64_t now) {
    uint64_t hash = path_hash(path, 0);
    for (size_t at = 0; at < REFUSALS; at++)
        if (refusals->hashes[at] == hash && refusals->until[at] > now && path_equals(&refusals->paths[at], path))
            return at;
    return REFUSALS;
}

void refusals_add(struct refusals *refusals, const struct path *path, uint64_t now) {
    size_t at = find(refusals, path, now);
    if (at == REFUSALS) {
        at = refusals->next;
        refusals->next = (at + 1) % REFUSALS;
        refusals->paths[at] = *path;
        refusals->hashes[at] = path_hash(path, 0);
    }
    refusals->until[at] = now + REFUSED_FOR;
    if (refusals->latest < refusals->until[at])
        refusals->latest = refusals->until[at];
}

bool refusals_have(const struct refusals *refusals, const struct path *path, uint64_t now) {
    return refusals->latest > now && find(refusals, path, now) < REFUSALS;
}

bool refusals_lost(struct refusals *refusals, uint64_t now) {
    memmove(refusals->losses, refusals->losses + 1, sizeof refusals->losses - sizeof *refusals->losses);
    refusals->losses[LOSSES_BY_REFUSAL - 1] = now;
    return refusals_are_many(refusals, now);
}

bool refusals_are_many(const struct refusals *refusals, uint64_t now) {
    return refusals->losses[0] && now - refusals->losses[0] < REFUSED_FOR;
}
