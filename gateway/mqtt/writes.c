#include "writes.h"

#include <stdlib.h>
#include <string.h>

#include "screen.h"

bool writes_open(struct writes *writes, size_t limit, uint64_t seed) {
    size_t count = limit / WRITE_BYTES < WRITES_LIMIT ? limit / WRITE_BYTES : WRITES_LIMIT, buckets = 16;
    while (buckets < count)
        buckets *= 2;
    *writes = (struct writes){.count = count, .limit = limit, .seed = seed, .buckets_mask = buckets - 1};
    /* The system provides the pages of these when they are written for the first time. */
    writes->places = calloc(count, sizeof *writes->places);
    writes->lanes = calloc(count, sizeof *writes->lanes);
    writes->buckets = calloc(buckets, sizeof *writes->buckets);
    writes->published = calloc(PUBLICATIONS, sizeof *writes->published);
    return writes->places && writes->lanes && writes->buckets && writes->published;
}

void writes_close(struct writes *writes) {
    for (size_t at = 0; at < writes->fresh; at++)
        free(writes->places[at].request);
    free(writes->places);
    free(writes->lanes);
    free(writes->buckets);
    free(writes->published);
}

/* ---- lanes ---- */

static struct lane **bucket_of(const struct writes *writes, const struct path *path) {
    return &writes->buckets[(size_t)path_hash(path, writes->seed) & writes->buckets_mask];
}

struct lane *writes_lane(const struct writes *writes, const struct path *path) {
    struct lane *lane = *bucket_of(writes, path);
    while (lane && !path_equals(&lane->path, path))
        lane = lane->next;
    return lane;
}

/* Returns the lane of a path, and makes it if the path has no writes. There are as many lanes as places. */
static struct lane *enter(struct writes *writes, const struct path *path) {
    struct lane *lane = writes_lane(writes, path), **bucket = bucket_of(writes, path);
    if (!lane) {
        lane = writes->free_lanes;
        if (lane)
            writes->free_lanes = lane->next;
        else
            lane = &writes->lanes[writes->fresh_lanes++];
        *lane = (struct lane){.next = *bucket, .path = *path};
        *bucket = lane;
    }
    lane->users++;
    return lane;
}

static void leave(struct writes *writes, struct lane *lane) {
    struct lane **at = bucket_of(writes, &lane->path);
    if (--lane->users)
        return;
    while (*at != lane)
        at = &(*at)->next;
    *at = lane->next;
    lane->next = writes->free_lanes;
    writes->free_lanes = lane;
}

void writes_note(struct writes *writes, struct lane *lane, bool is_stored) {
    bool creates = lane->stores && !is_stored;
    writes->creations += creates;
    writes->creations -= lane->creates;
    lane->creates = creates;
}

/* ---- places ---- */

/* The number names its place, so that an echo finds it without a search. */
struct write *writes_add(struct writes *writes, const struct path *path, size_t bytes) {
    if (writes->used == writes->count || bytes > writes->limit - writes->bytes)
        return NULL;
    struct write *write = writes->free;
    if (write)
        writes->free = write->next;
    else
        write = &writes->places[writes->fresh++];
    uint64_t number = ++writes->rounds * writes->count + (uint64_t)(write - writes->places);
    *write = (struct write){.stage = WRITE_NEW, .number = number, .bytes = bytes, .lane = enter(writes, path)};
    writes->bytes += bytes;
    writes->used++;
    return write;
}

bool writes_wait(struct write *write, const uint8_t *request, size_t length) {
    struct lane *lane = write->lane;
    write->request = malloc(length);
    if (!write->request)
        return false;
    memcpy(write->request, request, length);
    write->request_length = length;
    write->stage = WRITE_WAITS;
    write->before = lane->last;
    if (lane->last)
        lane->last->next = write;
    else
        lane->first = write;
    lane->last = write;
    return true;
}

/* Takes a write out of those that wait in its lane, and frees its request. */
static void stop_waiting(struct write *write) {
    struct lane *lane = write->lane;
    *(write->before ? &write->before->next : &lane->first) = write->next;
    *(write->next ? &write->next->before : &lane->last) = write->before;
    write->next = write->before = NULL;
    free(write->request);
    write->request = NULL;
}

/* Returns the entry of the number of a publication. */
static uint16_t *entry_of(const struct writes *writes, int publication) {
    return &writes->published[(unsigned)publication % PUBLICATIONS];
}

void writes_sent(struct writes *writes, struct write *write, bool is_stored) {
    if (write->stage == WRITE_WAITS)
        stop_waiting(write);
    write->stage = WRITE_PUBLISHED;
    write->lane->published++;
    write->lane->stores += write->method != METHOD_DELETE;
    writes_note(writes, write->lane, is_stored);
    *entry_of(writes, write->publication) = (uint16_t)(write - writes->places + 1);
}

/* Forgets the number of a publication. */
static void release(struct writes *writes, struct write *write) {
    uint16_t *entry = entry_of(writes, write->publication);
    if (*entry == write - writes->places + 1)
        *entry = 0;
    write->publication = 0;
}

void writes_acknowledged(struct writes *writes, struct write *write, uint64_t now) {
    release(writes, write);
    write->acknowledged = now;
}

/* Takes a write out of those that are under way, and sets its stage. */
static void settle(struct writes *writes, struct write *write, enum write_stage stage) {
    struct lane *lane = write->lane;
    if (write->stage == WRITE_WAITS)
        stop_waiting(write);
    if (write->stage == WRITE_PUBLISHED) {
        release(writes, write);
        lane->published--;
        lane->stores -= write->method != METHOD_DELETE;
        writes_note(writes, lane, !lane->creates);
    }
    writes->bytes -= write->bytes;
    write->bytes = 0;
    write->stage = stage;
}

void writes_lost(struct writes *writes, struct write *write) {
    settle(writes, write, WRITE_LOST);
}

void writes_answer(struct writes *writes, struct write *write, uint32_t code) {
    writes->waiting += write->stage != WRITE_ANSWERED;
    settle(writes, write, WRITE_ANSWERED);
    write->answer = code;
}

void writes_remove(struct writes *writes, struct write *write) {
    writes->waiting -= write->stage == WRITE_ANSWERED;
    settle(writes, write, WRITE_FREE);
    leave(writes, write->lane);
    *write = (struct write){.next = writes->free};
    writes->free = write;
    writes->used--;
}

struct write *writes_find(struct writes *writes, uint64_t number) {
    struct write *write = &writes->places[number % writes->count];
    return number && write->number == number ? write : NULL;
}

struct write *writes_published(struct writes *writes, int publication) {
    uint16_t place = *entry_of(writes, publication);
    return place ? &writes->places[place - 1] : NULL;
}
