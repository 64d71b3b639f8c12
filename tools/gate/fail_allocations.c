/* Preloaded into a program: refuses the growth of memory whose number is in REFUSE, counted from 1. The file named by COUNT, if
   any, holds at each moment how many growths were asked for, as a long in the machine's form: however the program ends, no code
   of this library need run then. */
#define _GNU_SOURCE
#include <dlfcn.h>
#include <errno.h>
#include <fcntl.h>
#include <stdatomic.h>
#include <stdlib.h>
#include <string.h>
#include <sys/mman.h>
#include <unistd.h>

static long refused;
static _Atomic long unmapped;
static _Atomic long *asked = &unmapped;
static void *(*next_malloc)(size_t), *(*next_realloc)(void *, size_t), *(*next_aligned)(size_t, size_t);

static void map_count(const char *name) {
    int file = open(name, O_RDWR | O_CREAT | O_TRUNC, 0600);
    if (file < 0 || ftruncate(file, sizeof(long))) _exit(127);
    void *at = mmap(NULL, sizeof(long), PROT_READ | PROT_WRITE, MAP_SHARED, file, 0);
    if (at == MAP_FAILED) _exit(127);
    close(file);
    asked = at;
}

/* Growths before this are the loader's own, and not counted. */
__attribute__((constructor)) static void start(void) {
    next_malloc = dlsym(RTLD_NEXT, "malloc");
    next_realloc = dlsym(RTLD_NEXT, "realloc");
    next_aligned = dlsym(RTLD_NEXT, "aligned_alloc");
    const char *number = getenv("REFUSE"), *name = getenv("COUNT");
    if (name) map_count(name);
    *asked = 0;
    refused = number ? atol(number) : 0;
}

static int is_refused(void) {
    if (atomic_fetch_add(asked, 1) + 1 != refused) return 0;
    errno = ENOMEM;
    return 1;
}

void *malloc(size_t size) {
    if (!next_malloc) next_malloc = dlsym(RTLD_NEXT, "malloc");
    return is_refused() ? NULL : next_malloc(size);
}

void *realloc(void *at, size_t size) {
    if (!next_realloc) next_realloc = dlsym(RTLD_NEXT, "realloc");
    return is_refused() ? NULL : next_realloc(at, size);
}

void *calloc(size_t count, size_t size) {
    size_t total;
    if (__builtin_mul_overflow(count, size, &total)) return NULL;
    void *made = malloc(total);
    return made ? memset(made, 0, total) : NULL;
}

void *aligned_alloc(size_t alignment, size_t size) {
    if (!next_aligned) next_aligned = dlsym(RTLD_NEXT, "aligned_alloc");
    return is_refused() ? NULL : next_aligned(alignment, size);
}

void *memalign(size_t alignment, size_t size) {
    return aligned_alloc(alignment, size);
}

int posix_memalign(void **made, size_t alignment, size_t size) {
    void *room = aligned_alloc(alignment, size);
    if (!room) return ENOMEM;
    *made = room;
    return 0;
}
