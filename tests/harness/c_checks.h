/* Checks of the programs in C over the library. Each program includes this file once. */
#include <dachreup.h>
#include <stdint.h>
#include <stdio.h>
#include <string.h>

static int failed;

/* Prints a result that is not the wanted one, and keeps that a check failed. */
static void check(const char *what, uint32_t number, uint32_t wanted) {
    if (number != wanted) {
        printf("%s: %u, not %u\n", what, (unsigned)number, (unsigned)wanted);
        failed = 1;
    }
}

/* Checks that the bytes of a queue, which are at most 1,024, end with these. */
static inline void check_end(const char *what, const struct dachreup_parts *parts, const char *bytes, size_t length) {
    static uint8_t all[1024];
    size_t count = parts->first.count + parts->second.count;
    if (count < length || count > sizeof all) {
        check(what, (uint32_t)count, (uint32_t)length);
        return;
    }
    memcpy(all, parts->first.at, parts->first.count);
    memcpy(all + parts->first.count, parts->second.at, parts->second.count);
    check(what, (uint32_t)memcmp(all + count - length, bytes, length), 0);
}
