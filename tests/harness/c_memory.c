/* Counts the bytes that the library allocates for the smallest server and the smallest client, with one connection
   each, and prints them. It has an allocator of its own. Run by tests/system/c_library.py. */
#include <dachreup.h>
#include <stdio.h>
#include <stdlib.h>

/* A block follows its length, with the alignment of malloc. */
union head {
    size_t size;
    max_align_t aligned;
};

static size_t allocated, most;

void *dachreup_malloc(size_t size) {
    return dachreup_realloc(NULL, size);
}

void *dachreup_realloc(void *block, size_t size) {
    union head *before = block ? (union head *)block - 1 : NULL;
    size_t old = before ? before->size : 0;
    union head *head = realloc(before, sizeof *head + size);
    if (!head)
        return NULL;
    head->size = size;
    allocated += size - old;
    most = allocated > most ? allocated : most;
    return head + 1;
}

void dachreup_free(void *block) {
    if (!block)
        return;
    union head *head = (union head *)block - 1;
    allocated -= head->size;
    free(head);
}

int main(void) {
    struct dachreup_settings settings = DACHREUP_SETTINGS(0);
    struct dachreup_limits limits = DACHREUP_LIMITS;
    struct dachreup_server server = {0};
    struct dachreup_client client = {0};
    uint64_t id = 0;
    settings.max_message = settings.max_sent = settings.queue = 1152;
    settings.pending = settings.observers = settings.rep_max = 0;
    settings.outstanding = settings.connections = 1;
    if (dachreup_server_new(&server, &settings) || dachreup_server_open(&server, &id))
        return 1;
    printf("server %zu\n", most);
    dachreup_server_free(&server);
    if (allocated)
        return 2;
    most = 0;
    limits.max_message = limits.max_sent = limits.queue = 1152;
    limits.pending = limits.observers = 0;
    limits.outstanding = 1;
    if (dachreup_client_new(&client, &limits, 0))
        return 3;
    printf("client %zu\n", most);
    dachreup_client_free(&client);
    return allocated != 0;
}
