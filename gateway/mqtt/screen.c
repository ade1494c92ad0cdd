#include "screen.h"

#include <dachreup.h>
#include <string.h>

enum { URI_PATH = 11 };

/* Bytes that extend a number of four bits, and the number that they are added to. */
struct extension {
    size_t bytes;
    size_t least;
};

/* The length of a message has extensions of 1, 2 and 4 bytes, that of a token (RFC 8974) of 1 and 2. */
static struct extension extension_of(unsigned nibble) {
    static const struct extension extensions[] = {{1, 13}, {2, 269}, {4, 65805}};
    return nibble < 13 ? (struct extension){0, nibble} : extensions[nibble - 13];
}

static uint64_t read_big_endian(const uint8_t *bytes, size_t count) {
    uint64_t number = 0;
    while (count--)
        number = number << 8 | *bytes++;
    return number;
}

size_t frame_size(const uint8_t *bytes, size_t count) {
    if (count == 0)
        return 0;
    struct extension length = extension_of(bytes[0] >> 4), token = extension_of(bytes[0] & 15u);
    size_t start = 2 + length.bytes + token.bytes;
    if ((bytes[0] & 15u) == 15)
        return FRAME_BAD;
    if (count < start)
        return 0;
    uint64_t size = start + token.least + read_big_endian(bytes + start - token.bytes, token.bytes);
    size += length.least + read_big_endian(bytes + 1, length.bytes);
    return size < FRAME_BAD ? (size_t)size : FRAME_BAD;
}

/* Returns true if the path of a request begins with the prefix, whose segments each follow a byte with their length. */
static bool is_below(const struct dachreup_message *message, const struct path *prefix) {
    struct dachreup_span value = {0};
    size_t at = 0, matched = 0;
    uint32_t number = 0;
    while (matched < prefix->size &&
           !dachreup_option_next(message->options.at, message->options.count, &at, &number, &value)) {
        if (number != URI_PATH)
            continue;
        size_t length = prefix->bytes[matched];
        if (value.count != length || memcmp(value.at, prefix->bytes + matched + 1, length) != 0)
            return false;
        matched += length + 1;
    }
    return matched == prefix->size;
}

void screen(uint8_t *frame, size_t size, const struct path *prefix, bool refuses_reads) {
    size_t code_at = 1 + extension_of(frame[0] >> 4).bytes;
    struct dachreup_message message = {{0}, {0}, {0}, 0};
    uint8_t code = frame[code_at];
    bool is_write = code == METHOD_POST || code == METHOD_PUT || code == METHOD_DELETE;
    bool is_read = code == METHOD_GET && refuses_reads;
    if ((!is_write && !is_read) || dachreup_message_read(frame, size, &message) != DACHREUP_OK)
        return;
    /* Reads are refused below the prefix, and writes elsewhere. */
    if (is_below(&message, prefix) == is_read)
        frame[code_at] = METHOD_REFUSED;
}
