/* Loaded before the C library (LD_PRELOAD): counts what is allocated, into the file that COUNTS names, which whoever reads it sees at once. It holds
   words of eight bytes: how many blocks were asked for (one that grows is asked for anew), how many were given back, the bytes that were asked for,
   the bytes that stand, with what the allocator keeps beside each block, the most of these so far, which a reader may set back, and then how many
   blocks stand of 16 bytes, of 32 and so on to 1,024, and of more, and the bytes of the last. */
#include <errno.h>
#include <fcntl.h>
#include <malloc.h>
#include <stdlib.h>
#include <sys/mman.h>
#include <unistd.h>

enum { ASKED, GIVEN_BACK, BYTES_ASKED, STANDING, MOST, BLOCKS, LARGER = BLOCKS + 64, BYTES_OF_LARGER, WORDS };

extern void *__libc_malloc(size_t), *__libc_calloc(size_t, size_t), *__libc_realloc(void *, size_t), *__libc_memalign(size_t, size_t);
extern void __libc_free(void *);

static long before_the_file[WORDS], *counts = before_the_file;

__attribute__((constructor)) static void begin(void) {
    const char *name = getenv("COUNTS");
    int file = name ? open(name, O_RDWR | O_CREAT, 0600) : -1;
    if (file < 0 || ftruncate(file, sizeof before_the_file))
        return;
    long *mapped = mmap(NULL, sizeof before_the_file, PROT_READ | PROT_WRITE, MAP_SHARED, file, 0);
    close(file);
    if (mapped != MAP_FAILED)
        counts = mapped;
}

static long add(int at, long more) { return __atomic_add_fetch(&counts[at], more, __ATOMIC_RELAXED); }

/* One more block that stands, or one less. */
static void stands(void *block, long sign) {
    long size = malloc_usable_size(block) + sizeof(size_t), now = add(STANDING, sign * size);
    if (size <= 1024) {
        add(BLOCKS + (size - 1) / 16, sign);
    } else {
        add(LARGER, sign);
        add(BYTES_OF_LARGER, sign * size);
    }
    for (long most = counts[MOST]; now > most && !__atomic_compare_exchange_n(&counts[MOST], &most, now, 0, __ATOMIC_RELAXED, __ATOMIC_RELAXED);)
        ;
}

static void *asked(void *block, size_t size) {
    if (block) {
        add(ASKED, 1);
        add(BYTES_ASKED, size);
        stands(block, 1);
    }
    return block;
}

void *malloc(size_t size) { return asked(__libc_malloc(size), size); }

void *calloc(size_t count, size_t size) { return asked(__libc_calloc(count, size), count * size); }

/* Where it moves both stand for a moment, which is not counted. */
void *realloc(void *old, size_t size) {
    if (!old)
        return malloc(size);
    stands(old, -1);
    void *block = __libc_realloc(old, size);
    if (!block)
        stands(old, 1);
    return asked(block, size);
}

void *aligned_alloc(size_t align, size_t size) { return asked(__libc_memalign(align, size), size); }

int posix_memalign(void **to, size_t align, size_t size) {
    *to = asked(__libc_memalign(align, size), size);
    return *to ? 0 : ENOMEM;
}

void free(void *block) {
    if (block) {
        add(GIVEN_BACK, 1);
        stands(block, -1);
    }
    __libc_free(block);
}
