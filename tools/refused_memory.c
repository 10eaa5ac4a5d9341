/* Refuses one allocation of a process: call number REFUSED, counted from 1 on. At the end it writes how many calls there were into the file
   COUNTED. Loaded by LD_PRELOAD; the plain allocator is glibc's. */
#include <errno.h>
#include <fcntl.h>
#include <stddef.h>
#include <stdlib.h>
#include <unistd.h>

extern void *__libc_malloc(size_t);
extern void *__libc_calloc(size_t, size_t);
extern void *__libc_realloc(void *, size_t);
extern void *__libc_memalign(size_t, size_t);

static unsigned long calls, refused;

/* Only what the program asks for counts, and not what was asked for before it began. */
__attribute__((constructor)) static void begin(void) {
    const char *text = getenv("REFUSED");
    refused = text ? strtoul(text, 0, 10) : 0;
    calls = 0;
}

__attribute__((destructor)) static void end(void) {
    const char *name = getenv("COUNTED");
    int file = name ? open(name, O_WRONLY | O_CREAT | O_TRUNC, 0600) : -1;
    if (file >= 0) {
        char digits[24];
        int at = sizeof digits;
        unsigned long left = calls;
        do digits[--at] = '0' + left % 10; while (left /= 10);
        if (write(file, digits + at, sizeof digits - at) < 0) _exit(99);
        close(file);
    }
}

static int is_refused(void) {
    if (++calls != refused) return 0;
    errno = ENOMEM;
    return 1;
}

void *malloc(size_t size) { return is_refused() ? 0 : __libc_malloc(size); }
void *calloc(size_t count, size_t size) { return is_refused() ? 0 : __libc_calloc(count, size); }
void *realloc(void *old, size_t size) { return is_refused() ? 0 : __libc_realloc(old, size); }
void *memalign(size_t align, size_t size) { return is_refused() ? 0 : __libc_memalign(align, size); }
void *aligned_alloc(size_t align, size_t size) { return memalign(align, size); }
int posix_memalign(void **made, size_t align, size_t size) {
    void *it = memalign(align, size);
    if (!it) return ENOMEM;
    *made = it;
    return 0;
}
