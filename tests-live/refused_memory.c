/* An allocator that refuses one call: the one with the number that REFUSED gives, counted from 1. How many calls there were stands
 * in the file that COUNTED names, 8 bytes in the order of the machine, however the program ends. Put before the C library's by
 * LD_PRELOAD. */
#include <errno.h>
#include <fcntl.h>
#include <stddef.h>
#include <stdlib.h>
#include <sys/mman.h>
#include <unistd.h>

extern void *__libc_malloc(size_t);
extern void *__libc_calloc(size_t, size_t);
extern void *__libc_realloc(void *, size_t);
extern void *__libc_memalign(size_t, size_t);

static unsigned long wanted, uncounted, *count = &uncounted;

__attribute__((constructor)) static void begin(void) {
    const char *number = getenv("REFUSED"), *name = getenv("COUNTED");
    int file = name ? open(name, O_RDWR | O_CREAT | O_TRUNC, 0644) : -1;
    wanted = number ? strtoul(number, NULL, 10) : 0;
    if (file < 0 || ftruncate(file, sizeof *count) != 0) return;
    void *place = mmap(NULL, sizeof *count, PROT_READ | PROT_WRITE, MAP_SHARED, file, 0);
    close(file);
    if (place != MAP_FAILED) count = place;
}

static int is_refused(void) {
    if (__sync_add_and_fetch(count, 1) != wanted) return 0;
    errno = ENOMEM;
    return 1;
}

void *malloc(size_t size) { return is_refused() ? NULL : __libc_malloc(size); }
void *calloc(size_t number, size_t size) { return is_refused() ? NULL : __libc_calloc(number, size); }
void *realloc(void *block, size_t size) { return is_refused() ? NULL : __libc_realloc(block, size); }
void *memalign(size_t align, size_t size) { return is_refused() ? NULL : __libc_memalign(align, size); }
void *aligned_alloc(size_t align, size_t size) { return is_refused() ? NULL : __libc_memalign(align, size); }
int posix_memalign(void **block, size_t align, size_t size) {
    return (*block = is_refused() ? NULL : __libc_memalign(align, size)) ? 0 : ENOMEM;
}
