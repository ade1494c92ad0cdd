/*
 * Makes random calls of gateway/mqtt/writes.c, and compares it after each with a list that is searched: mqtt_writes
 * SEED CALLS. Prints the number of calls, and how many differences there were.
 */
#include <stdio.h>
#include <stdlib.h>
#include <string.h>

#include "screen.h"
#include "writes.h"

enum { PATHS = 5, ROOM = 400, LIMIT = 300 * 1024 };

/* A write as the list has it. */
struct entry {
    struct write *write;
    uint64_t number;
    int path, publication;
    enum write_stage stage;
    bool stores;
    size_t bytes;
};

static struct entry entries[ROOM];
static size_t count;
static bool stored[PATHS];
static struct path paths[PATHS];
static struct writes writes;
static unsigned long state;
static int publication, ended; /* the last number of a publication, and one that no publication has any more */

static unsigned pick(unsigned below) {
    state = state * 6364136223846793005UL + 1442695040888963407UL;
    return (unsigned)(state >> 33) % below;
}

/* Returns the first entry of a path in a stage, or of any path if it is -1, from a random one on if `any` is set. */
static struct entry *find(int path, enum write_stage stage, bool any) {
    size_t start = any && count ? pick((unsigned)count) : 0;
    for (size_t step = 0; step < count; step++) {
        struct entry *entry = &entries[(start + step) % count];
        if ((path < 0 || entry->path == path) && entry->stage == stage)
            return entry;
    }
    return NULL;
}

static void erase(struct entry *entry) {
    memmove(entry, entry + 1, (size_t)(entries + --count - entry) * sizeof *entry);
}

static void send(struct entry *entry) {
    publication = publication % 65535 + 1;
    entry->publication = entry->write->publication = publication;
    entry->stage = WRITE_PUBLISHED;
    writes_sent(&writes, entry->write, stored[entry->path]);
}

static void add(void) {
    int path = (int)pick(PATHS);
    size_t bytes = WRITE_BYTES + pick(4000);
    struct write *write = writes_add(&writes, &paths[path], bytes);
    if (!write)
        return;
    struct entry *entry = &entries[count++];
    *entry = (struct entry){write, write->number, path, 0, WRITE_NEW, pick(2), bytes};
    write->method = entry->stores ? METHOD_PUT : METHOD_DELETE;
    if (write->lane->published && pick(2)) {
        entry->stage = WRITE_WAITS;
        if (!writes_wait(write, (const uint8_t *)"request", 7))
            abort();
    } else if (pick(10)) {
        send(entry);
    } else {
        writes_remove(&writes, write);
        erase(entry);
    }
}

/* Ends a publication: its echo may have stored or removed the resource. Then one that waits may follow. */
static void echo(struct entry *entry) {
    int path = entry->path;
    ended = entry->publication;
    if (pick(4)) {
        stored[path] = entry->stores;
        writes_note(&writes, entry->write->lane, stored[path]);
    }
    if (pick(3)) {
        writes_remove(&writes, entry->write);
        erase(entry);
    } else {
        writes_answer(&writes, entry->write, 1);
        entry->stage = WRITE_ANSWERED;
        entry->bytes = 0;
    }
    struct lane *lane = writes_lane(&writes, &paths[path]);
    if (lane && lane->first && !lane->published)
        send(find(path, WRITE_WAITS, false));
}

/* The connection to the broker ends. */
static void lose(void) {
    for (struct entry *entry; (entry = find(-1, WRITE_PUBLISHED, false));) {
        ended = entry->publication;
        writes_lost(&writes, entry->write);
        entry->stage = WRITE_LOST;
        entry->bytes = 0;
    }
    for (struct entry *entry; (entry = find(-1, WRITE_WAITS, false));) {
        writes_remove(&writes, entry->write);
        erase(entry);
    }
}

static void step(void) {
    struct entry *entry = NULL;
    unsigned what = pick(100);
    if (what < 50)
        add();
    else if (what < 80 && (entry = find(-1, WRITE_PUBLISHED, true)))
        echo(entry);
    else if (what < 90 && (entry = find(-1, WRITE_PUBLISHED, true))) {
        writes_acknowledged(&writes, entry->write, 1);
        ended = entry->publication;
        entry->publication = 0;
    } else if (what < 93 && (entry = find(-1, WRITE_WAITS, true))) {
        writes_remove(&writes, entry->write);
        erase(entry);
    } else if (what < 99 && (entry = find(-1, pick(2) ? WRITE_ANSWERED : WRITE_LOST, true))) {
        writes_remove(&writes, entry->write);
        erase(entry);
    } else if (what == 99)
        lose();
}

/* Returns true if a lane equals what the list has of its path. Adds to *creations. */
static bool is_lane(int path, size_t *creations) {
    struct lane *lane = writes_lane(&writes, &paths[path]);
    struct entry *first = find(path, WRITE_WAITS, false);
    size_t users = 0, published = 0, stores = 0;
    for (size_t at = 0; at < count; at++) {
        bool is_out = entries[at].path == path && entries[at].stage == WRITE_PUBLISHED;
        users += entries[at].path == path;
        published += is_out;
        stores += is_out && entries[at].stores;
    }
    *creations += stores && !stored[path];
    if (!lane)
        return users == 0;
    return lane->users == users && lane->published == published && lane->stores == stores &&
           lane->first == (first ? first->write : NULL) && lane->creates == (stores && !stored[path]);
}

static bool is_same(void) {
    size_t bytes = 0, creations = 0, answered = 0;
    bool is_good = !writes_published(&writes, ended);
    for (size_t at = 0; at < count; at++) {
        struct entry *entry = &entries[at];
        bool is_out = entry->stage == WRITE_PUBLISHED && entry->publication;
        bytes += entry->bytes;
        answered += entry->stage == WRITE_ANSWERED;
        is_good = is_good && writes_find(&writes, entry->number) == entry->write && entry->write->stage == entry->stage;
        is_good = is_good && (!is_out || writes_published(&writes, entry->publication) == entry->write);
    }
    for (int path = 0; path < PATHS; path++)
        is_good = is_lane(path, &creations) && is_good;
    return is_good && writes.used == count && writes.bytes == bytes && writes.creations == creations &&
           writes.waiting == answered;
}

int main(int words, char **word) {
    size_t calls = words > 2 ? strtoul(word[2], NULL, 10) : 0, differences = 0, most = 0;
    state = words > 1 ? strtoul(word[1], NULL, 10) : 0;
    if (!writes_open(&writes, LIMIT, state))
        return 1;
    for (int at = 0; at < PATHS; at++)
        path_add(&paths[at], (const uint8_t *)&"abcde"[at], 1);
    for (size_t call = 0; call < calls; call++) {
        step();
        differences += !is_same();
        most = count > most ? count : most;
    }
    printf("%zu calls, %zu writes at most, %zu differences\n", calls, most, differences);
    lose();
    writes_close(&writes);
    return differences != 0;
}
