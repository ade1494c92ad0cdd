/* A server of the C library over standard input and output, as `coap-server --stdio`: library < INPUT. Run by
   bench/instructions. */
#include <dachreup.h>
#include <string.h>
#include <unistd.h>

enum { READ = 4096, QUEUE = 131072 };

static struct dachreup_server server;

static uint8_t queued[QUEUE + 2 * READ];

static size_t count_queued;

/* Moves the queued bytes of a connection to `queued`. */
static int flush(uint64_t id) {
    struct dachreup_parts parts = {{0}, {0}};
    if (dachreup_server_parts(&server, id, &parts))
        return 1;
    size_t count = parts.first.count + parts.second.count;
    if (count_queued + count > sizeof queued)
        return 1;
    if (parts.first.count)
        memcpy(queued + count_queued, parts.first.at, parts.first.count);
    if (parts.second.count)
        memcpy(queued + count_queued + parts.first.count, parts.second.at, parts.second.count);
    count_queued += count;
    return dachreup_server_written(&server, id, count) != 0;
}

/* Writes the moved bytes. */
static int write_queued(void) {
    size_t done = 0;
    while (done < count_queued) {
        ssize_t count = write(1, queued + done, count_queued - done);
        if (count <= 0)
            return 1;
        done += (size_t)count;
    }
    count_queued = 0;
    return 0;
}

int main(void) {
    struct dachreup_settings settings = DACHREUP_SETTINGS(0);
    struct dachreup_took took = {0};
    static uint8_t input[READ];
    uint64_t id = 0;
    ssize_t count;
    if (dachreup_server_new(&server, &settings) || dachreup_server_open(&server, &id))
        return 1;
    while ((count = read(0, input, sizeof input)) > 0) {
        for (size_t at = 0; at < (size_t)count; at += took.bytes)
            if (dachreup_server_take(&server, id, input + at, (size_t)count - at, &took) || took.bytes == 0 ||
                flush(id))
                return 1;
        if (write_queued())
            return 1;
    }
    dachreup_server_free(&server);
    return count < 0;
}
