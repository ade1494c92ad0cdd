/*
 * Compares the splitting of frames in gateway/mqtt/screen.c with that of the proved library, on bytes at random.
 *
 *     mqtt_frames SEED STREAMS     prints the numbers of streams, of messages and of differences
 *
 * A stream has messages with lengths and tokens of each encoding, of which some are damaged. Each step offers the
 * server all later bytes, as a program without frame_size does, and compares the message that the server takes with
 * frame_size. The header of each message is also compared, byte by byte, with dachreup_message_read.
 */
#include <dachreup.h>
#include <stdio.h>
#include <stdlib.h>
#include <string.h>

#include "screen.h"

enum { MAX_MESSAGE = 1 << 20, STREAM_ROOM = 1 << 19, HEADER = 1 + 4 + 1 + 2 };

static uint8_t stream[STREAM_ROOM];
static unsigned long messages, wrong;
static uint64_t state;

/* Returns a number below a limit (xorshift64*). */
static uint64_t below(uint64_t limit) {
    state ^= state >> 12;
    state ^= state << 25;
    state ^= state >> 27;
    return (state * UINT64_C(2685821657736338717) >> 16) % limit;
}

static void expect(int holds, const char *what, const uint8_t *bytes, size_t count) {
    if (holds || wrong++ >= 10)
        return;
    printf("%s:", what);
    for (size_t at = 0; at < count && at < 12; at++)
        printf(" %02x", bytes[at]);
    printf(" (%zu bytes)\n", count);
}

/* ---- streams ---- */

/* Writes a number after its nibble, in the shortest form. Returns the nibble. */
static unsigned extend(uint64_t number, uint8_t *bytes, size_t *count) {
    uint64_t rest = number < 13 ? 0 : number < 269 ? number - 13 : number < 65805 ? number - 269 : number - 65805;
    unsigned nibble = number < 13 ? (unsigned)number : number < 269 ? 13 : number < 65805 ? 14 : 15;
    for (int left = nibble < 13 ? 0 : 1 << (nibble - 13); left--;)
        bytes[(*count)++] = (uint8_t)(rest >> 8 * left);
    return nibble;
}

/* Returns a length: mostly a small one, and often one at a limit between two encodings. */
static size_t some_length(void) {
    static const size_t limits[] = {0, 12, 13, 14, 268, 269, 270, 1152, 65520, 65536, 65804, 65805, 65806};
    switch (below(8)) {
    case 0: return limits[below(sizeof limits / sizeof *limits)];
    case 1: return below(2000);
    default: return below(40);
    }
}

static size_t some_token(void) {
    static const size_t limits[] = {12, 13, 63, 64, 65, 268, 269, 400};
    return below(40) ? below(9) : limits[below(sizeof limits / sizeof *limits)];
}

/* Appends a message without options. The start of its payload is at random. */
static void add_message(size_t *count) {
    static const uint8_t codes[] = {METHOD_GET, METHOD_POST, METHOD_PUT, METHOD_DELETE, METHOD_REFUSED,
                                    0,          0xe1,        0xe2,       0xe3,          0x45};
    uint8_t *first = stream + *count, *bytes = first + 1;
    size_t body = some_length(), token = some_token(), extensions = 0, last = 0;
    body += body == 1;
    unsigned high = extend(body, bytes, &extensions);
    bytes[extensions] = codes[below(sizeof codes)];
    unsigned low = extend(token, bytes + extensions + 1, &last);
    /* Sometimes the length of the token is one that no message has. */
    first[0] = (uint8_t)(high << 4 | (below(200) ? low : 15));
    bytes += extensions + 1 + last;
    for (size_t at = 0; at < token + body; at++)
        bytes[at] = at < 64 ? (uint8_t)below(256) : (uint8_t)at;
    /* A payload marker, so that no byte of the body begins an option. */
    if (body)
        bytes[token] = 0xff;
    *count += (size_t)(bytes - first) + token + body;
}

/* Makes a stream, and returns the number of its bytes. */
static size_t make_stream(void) {
    static const uint8_t settings[] = {0x00, 0xe1};
    size_t count = sizeof settings;
    memcpy(stream, settings, sizeof settings);
    for (uint64_t left = 1 + below(20); left && count < STREAM_ROOM / 2; left--)
        add_message(&count);
    for (uint64_t damages = below(3); damages--;)
        stream[below(2) ? below(count) : below(count < 64 ? count : 64)] = (uint8_t)below(256);
    return below(3) ? count : below(count) + 1;
}

/* ---- comparisons ---- */

/* Compares frame_size with the proved reader, for the first bytes of a message up to a few after its header. */
static void check_starts(const uint8_t *bytes, size_t count) {
    struct dachreup_message message = {{0}, {0}, {0}, 0};
    for (size_t length = 1; length <= count && length <= HEADER + 16; length++) {
        uint8_t start[HEADER + 32] = {0};
        memcpy(start, bytes, length);
        size_t size = frame_size(start, length);
        expect(size == frame_size(bytes, length), "a size that depends on bytes after it", bytes, length);
        uint32_t read = dachreup_message_read(bytes, length, &message);
        if (read == DACHREUP_FRAME_TOKEN_LENGTH)
            expect((bytes[0] & 15u) >= 13, "no bad token", bytes, length);
        else
            expect((read != DACHREUP_FRAME_NOT_ONE) == (size == length), "not the size of the message", bytes, length);
        expect(size != FRAME_BAD || read == DACHREUP_FRAME_TOKEN_LENGTH, "no bad message", bytes, length);
        expect(size == 0 || size == frame_size(bytes, count), "a size that changes with later bytes", bytes, length);
    }
}

/* Returns true if a message has a token whose length has an extension, and is bad. */
static int has_long_token(const uint8_t *bytes, size_t count) {
    struct dachreup_message message = {{0}, {0}, {0}, 0};
    uint32_t read = dachreup_message_read(bytes, count, &message);
    return (bytes[0] & 15u) != 15 && read == DACHREUP_FRAME_TOKEN_LENGTH;
}

/* Offers all bytes to the server, and compares each message that it takes. */
static void check_stream(struct dachreup_server *server, size_t count) {
    struct dachreup_took took = {0};
    struct dachreup_parts parts = {{0}, {0}};
    uint64_t id = 0;
    expect(dachreup_server_open(server, &id) == DACHREUP_OK, "no connection", stream, 0);
    for (size_t at = 0; at < count && took.handled != DACHREUP_HANDLED_STOPPED; at += took.bytes) {
        const uint8_t *bytes = stream + at;
        size_t left = count - at, size = frame_size(bytes, left);
        check_starts(bytes, left);
        expect(dachreup_server_take(server, id, bytes, left, &took) == DACHREUP_OK, "the take fails", bytes, left);
        messages += took.handled == DACHREUP_HANDLED_MESSAGE;
        if (took.handled == DACHREUP_HANDLED_MESSAGE)
            expect(took.bytes == size, "another size than that of the message", bytes, left);
        if (took.handled == DACHREUP_HANDLED_NOTHING)
            expect(size == 0 || (size > left && size != FRAME_BAD), "a message that is not whole", bytes, left);
        if (size == FRAME_BAD)
            expect(took.handled == DACHREUP_HANDLED_STOPPED, "a bad message is taken", bytes, left);
        /* The gateway offers whole messages, and bytes that begin none or too large a one. It waits for the rest of a
           header, and with a token above 64 bytes, which the server refuses at its header, for the whole message. */
        if (took.handled == DACHREUP_HANDLED_STOPPED && left >= HEADER && !has_long_token(bytes, left))
            expect((size > 0 && size <= left) || size > MAX_MESSAGE, "refused at its start", bytes, left);
        if (took.bytes == 0 && took.handled != DACHREUP_HANDLED_STOPPED) {
            expect(0, "no byte is taken", bytes, left);
            break;
        }
        /* A full queue would make the server take nothing. */
        dachreup_ignore(dachreup_server_parts(server, id, &parts));
        dachreup_ignore(dachreup_server_written(server, id, parts.first.count + parts.second.count));
    }
    dachreup_ignore(dachreup_server_drop(server, id));
}

int main(int count, char **words) {
    struct dachreup_settings settings = DACHREUP_SETTINGS(1);
    struct dachreup_server server = {0};
    unsigned long streams = count > 2 ? strtoul(words[2], NULL, 10) : 1;
    state = count > 1 ? strtoull(words[1], NULL, 10) | 1 : 1;
    settings.max_message = MAX_MESSAGE;
    if (dachreup_server_new(&server, &settings))
        return 2;
    for (unsigned long at = 0; at < streams; at++)
        check_stream(&server, make_stream());
    dachreup_server_free(&server);
    printf("%lu streams, %lu messages, %lu wrong\n", streams, messages, wrong);
    return wrong ? 1 : 0;
}
