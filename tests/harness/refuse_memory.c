/* Makes one allocation fail, in a program that runs: REFUSE_MEMORY names a file with three numbers of eight bytes. If
   the first one is N above 0, the Nth allocation from now on fails. The second one counts the allocations that failed,
   and the third one all. */
#include <errno.h>
#include <fcntl.h>
#include <stdatomic.h>
#include <stddef.h>
#include <stdint.h>
#include <stdlib.h>
#include <sys/mman.h>
#include <unistd.h>

extern void *__libc_malloc(size_t);
extern void *__libc_calloc(size_t, size_t);
extern void *__libc_realloc(void *, size_t);

struct numbers {
    _Atomic int64_t left, refused, made;
};

static struct numbers none, *numbers = &none;

__attribute__((constructor)) static void begin(void) {
    const char *name = getenv("REFUSE_MEMORY");
    int file = name ? open(name, O_RDWR | O_CLOEXEC) : -1;
    void *mapped = file < 0 ? MAP_FAILED : mmap(NULL, sizeof none, PROT_READ | PROT_WRITE, MAP_SHARED, file, 0);
    if (mapped != MAP_FAILED)
        numbers = mapped;
    if (file >= 0)
        close(file);
}

static int is_refused(void) {
    numbers->made++;
    if (numbers->left <= 0 || --numbers->left != 0)
        return 0;
    numbers->refused++;
    errno = ENOMEM;
    return 1;
}

void *malloc(size_t size) {
    return is_refused() ? NULL : __libc_malloc(size);
}

void *calloc(size_t count, size_t size) {
    return is_refused() ? NULL : __libc_calloc(count, size);
}

void *realloc(void *old, size_t size) {
    return is_refused() ? NULL : __libc_realloc(old, size);
}
