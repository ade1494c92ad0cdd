/* Preloaded library that counts the bytes that a program copies by memcpy and memmove. At the end of the program it
   writes the count to descriptor 2. */
#include <stddef.h>
#include <stdint.h>
#include <stdio.h>
#include <unistd.h>

static uint64_t copied;

void *memcpy(void *to, const void *from, size_t size) {
    void *start = to;
    copied += size;
    __asm__ volatile("rep movsb" : "+D"(to), "+S"(from), "+c"(size) : : "memory");
    return start;
}

void *memmove(void *to, const void *from, size_t size) {
    if ((uintptr_t)to - (uintptr_t)from >= size)
        return memcpy(to, from, size);
    copied += size;
    unsigned char *end = (unsigned char *)to + size;
    const unsigned char *last = (const unsigned char *)from + size;
    while (size-- > 0)
        *--end = *--last;
    return to;
}

__attribute__((destructor)) static void tell(void) {
    char line[32];
    int length = snprintf(line, sizeof line, "copied %llu\n", (unsigned long long)copied);
    if (length > 0 && write(2, line, (size_t)length) != length)
        _exit(1);
}
