/* A program with both the C library and libcoap. Run by tests/system/c_library.py.

   It starts libcoap, serves the standard input by the C library, writes the output of the server, and ends libcoap. */
#include <coap3/coap.h>
#include <dachreup.h>
#include <stdio.h>
#include <string.h>
#include <unistd.h>

static struct dachreup_server server;

static int flush(uint64_t id) {
    struct dachreup_parts parts = {{0}, {0}};
    if (dachreup_server_parts(&server, id, &parts))
        return 1;
    fwrite(parts.first.at, 1, parts.first.count, stdout);
    fwrite(parts.second.at, 1, parts.second.count, stdout);
    return dachreup_server_written(&server, id, parts.first.count + parts.second.count) != 0;
}

static int serve(void) {
    static uint8_t input[4096];
    struct dachreup_settings settings = DACHREUP_SETTINGS(0);
    struct dachreup_took took = {0};
    uint64_t id = 0;
    ssize_t count = read(0, input, sizeof input);
    if (count < 0 || dachreup_server_new(&server, &settings) || dachreup_server_open(&server, &id) || flush(id))
        return 2;
    for (size_t at = 0; at < (size_t)count; at += took.bytes)
        if (dachreup_server_take(&server, id, input + at, (size_t)count - at, &took) || took.bytes == 0 || flush(id))
            return 3;
    dachreup_server_free(&server);
    return fflush(stdout) != 0;
}

int main(void) {
    coap_startup();
    if (strncmp(coap_package_version(), "libcoap", 7))
        return 9;
    /* The server of the C library serves while one of libcoap exists. */
    coap_context_t *context = coap_new_context(NULL);
    int status = context ? serve() : 8;
    coap_free_context(context);
    coap_cleanup();
    return status;
}
