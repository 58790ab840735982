/* Refuses one allocation of a program: the one whose number is in REFUSED, from 1 on. How many there are stands in the
 * file that COUNTED names: eight bytes, which are mapped into memory and counted there. So the count is told however
 * the program ends, also by a system call of its own. Built and loaded by each_allocation.py. */
#define _GNU_SOURCE
#include <dlfcn.h>
#include <errno.h>
#include <fcntl.h>
#include <stddef.h>
#include <stdlib.h>
#include <sys/mman.h>
#include <unistd.h>

static long *count; /* none before the program's own constructors */
static long refused;

__attribute__((constructor)) static void begin(void) {
    const char *number = getenv("REFUSED"), *name = getenv("COUNTED");
    int file = name ? open(name, O_RDWR | O_CREAT | O_CLOEXEC, 0600) : -1;
    refused = number ? atol(number) : 0;
    if (file < 0 || ftruncate(file, sizeof *count) != 0) return;
    void *room = mmap(NULL, sizeof *count, PROT_READ | PROT_WRITE, MAP_SHARED, file, 0);
    close(file);
    if (room == MAP_FAILED) return;
    count = room;
    *count = 0;
}

/* Counts an allocation, and tells whether it is the one that is refused. Threads may allocate at once. */
static int is_refused(void) {
    if (!count || __atomic_add_fetch(count, 1, __ATOMIC_RELAXED) != refused) return 0;
    errno = ENOMEM;
    return 1;
}

#define NEXT(name, result, ...)                              \
    static result (*next)(__VA_ARGS__);                      \
    if (!next) *(void **)&next = dlsym(RTLD_NEXT, name);

void *malloc(size_t size) {
    NEXT("malloc", void *, size_t)
    return is_refused() ? NULL : next(size);
}

void *calloc(size_t items, size_t size) {
    NEXT("calloc", void *, size_t, size_t)
    return is_refused() ? NULL : next(items, size);
}

void *realloc(void *old, size_t size) {
    NEXT("realloc", void *, void *, size_t)
    return is_refused() ? NULL : next(old, size);
}

void *aligned_alloc(size_t alignment, size_t size) {
    NEXT("aligned_alloc", void *, size_t, size_t)
    return is_refused() ? NULL : next(alignment, size);
}

int posix_memalign(void **made, size_t alignment, size_t size) {
    NEXT("posix_memalign", int, void **, size_t, size_t)
    return is_refused() ? ENOMEM : next(made, alignment, size);
}
