/* The allocator of the C library for programs that define none: see MEMORY in include/dachreup.h. It is a member of the
   archive of its own, which a linker leaves out if the program defines all three functions. It includes no header, so
   that the compiler of Rattle's kit, which has none, can compile it. */
typedef __SIZE_TYPE__ size_t;

void *malloc(size_t size);
void *realloc(void *block, size_t size);
void free(void *block);

__attribute__((weak)) void *dachreup_malloc(size_t size) {
    return malloc(size);
}

__attribute__((weak)) void *dachreup_realloc(void *block, size_t size) {
    return realloc(block, size);
}

__attribute__((weak)) void dachreup_free(void *block) {
    free(block);
}
