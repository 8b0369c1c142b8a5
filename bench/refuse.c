/* Refuses one request for memory: the one whose number, from 1, is in REFUSE. At the end the number of requests goes into the file COUNT.
   Built and loaded before the C library by bench/refused_memory.sh. */
#include <errno.h>
#include <fcntl.h>
#include <stddef.h>
#include <stdio.h>
#include <stdlib.h>
#include <unistd.h>

extern void *__libc_malloc(size_t);
extern void *__libc_calloc(size_t, size_t);
extern void *__libc_realloc(void *, size_t);
extern void *__libc_memalign(size_t, size_t);

static unsigned long requests;

static int refused(void) {
    static long number = -1;
    if (number < 0) {
        const char *text = getenv("REFUSE");
        number = text ? atol(text) : 0;
    }
    if (++requests != (unsigned long)number) return 0;
    errno = ENOMEM;
    return 1;
}

void *malloc(size_t size) { return refused() ? NULL : __libc_malloc(size); }
void *calloc(size_t count, size_t size) { return refused() ? NULL : __libc_calloc(count, size); }
void *realloc(void *old, size_t size) { return refused() ? NULL : __libc_realloc(old, size); }
void *memalign(size_t align, size_t size) { return refused() ? NULL : __libc_memalign(align, size); }
void *aligned_alloc(size_t align, size_t size) { return memalign(align, size); }
int posix_memalign(void **out, size_t align, size_t size) {
    void *got = memalign(align, size);
    if (!got) return ENOMEM;
    *out = got;
    return 0;
}

__attribute__((destructor)) static void tell(void) {
    const char *name = getenv("COUNT");
    char text[32];
    int file = name ? open(name, O_WRONLY | O_CREAT | O_TRUNC, 0600) : -1;
    if (file < 0) return;
    if (write(file, text, snprintf(text, sizeof text, "%lu\n", requests)) < 0) _exit(70);
    close(file);
}
