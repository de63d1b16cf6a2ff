/* Loaded before the C library (LD_PRELOAD): refuses the allocation whose number is in REFUSE, from 1 on, and no other; none where it is 0. Where
   it was asked for, the file stands then that REFUSED names. */
#include <errno.h>
#include <fcntl.h>
#include <stdlib.h>
#include <unistd.h>

extern void *__libc_malloc(size_t), *__libc_calloc(size_t, size_t), *__libc_realloc(void *, size_t), *__libc_memalign(size_t, size_t);

static long asked, wanted = -1;

static int is_refused(void) {
    if (wanted < 0) {
        const char *word = getenv("REFUSE");
        wanted = word ? atol(word) : 0;
    }
    int is_it = __atomic_add_fetch(&asked, 1, __ATOMIC_SEQ_CST) == wanted;
    if (is_it) {
        const char *name = getenv("REFUSED");
        if (name)
            close(open(name, O_CREAT | O_WRONLY, 0600));
        errno = ENOMEM;
    }
    return is_it;
}

void *malloc(size_t size) { return is_refused() ? NULL : __libc_malloc(size); }

void *calloc(size_t count, size_t size) { return is_refused() ? NULL : __libc_calloc(count, size); }

void *realloc(void *old, size_t size) { return is_refused() ? NULL : __libc_realloc(old, size); }

void *aligned_alloc(size_t align, size_t size) { return is_refused() ? NULL : __libc_memalign(align, size); }

int posix_memalign(void **to, size_t align, size_t size) {
    *to = is_refused() ? NULL : __libc_memalign(align, size);
    return *to ? 0 : ENOMEM;
}
