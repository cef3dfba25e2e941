// A library that is put before the C library's allocator (LD_PRELOAD). It counts each call of a program that asks for memory, and refuses
// the one of number REFUSE_AT, the first being 1, and REFUSE_MORE behind it; none for 0. How many were asked for stands in the file
// REFUSE_FILE while the program runs and after it, however it ends.
#define _GNU_SOURCE
#include <dlfcn.h>
#include <errno.h>
#include <fcntl.h>
#include <stdatomic.h>
#include <stdlib.h>
#include <sys/mman.h>
#include <unistd.h>

static atomic_ulong none;
static atomic_ulong *asked = &none;
static unsigned long refused;
static unsigned long more;

static unsigned long number(const char *name) {
    const char *text = getenv(name);
    return text ? strtoul(text, 0, 10) : 0;
}

__attribute__((constructor)) static void begin(void) {
    const char *path = getenv("REFUSE_FILE");
    int file = path ? open(path, O_RDWR | O_CREAT, 0600) : -1;
    refused = number("REFUSE_AT");
    more = number("REFUSE_MORE");
    if (file >= 0 && ftruncate(file, sizeof none) == 0) {
        void *page = mmap(0, sizeof none, PROT_READ | PROT_WRITE, MAP_SHARED, file, 0);
        if (page != MAP_FAILED) asked = page;
    }
    if (file >= 0) close(file);
}

// Whether this call is refused. Calls before `begin` aren't counted.
static int is_refused(void) {
    unsigned long at;
    if (asked == &none) return 0;
    at = atomic_fetch_add(asked, 1) + 1;
    if (refused == 0 || at < refused || at - refused > more) return 0;
    errno = ENOMEM;
    return 1;
}

static void *next(const char *name) {
    void *found = dlsym(RTLD_NEXT, name);
    if (!found) abort();
    return found;
}

void *malloc(size_t size) {
    static void *(*real)(size_t);
    if (!real) real = (void *(*)(size_t))next("malloc");
    return is_refused() ? 0 : real(size);
}

void *realloc(void *block, size_t size) {
    static void *(*real)(void *, size_t);
    if (!real) real = (void *(*)(void *, size_t))next("realloc");
    return is_refused() ? 0 : real(block, size);
}

void *aligned_alloc(size_t alignment, size_t size) {
    static void *(*real)(size_t, size_t);
    if (!real) real = (void *(*)(size_t, size_t))next("aligned_alloc");
    return is_refused() ? 0 : real(alignment, size);
}

int posix_memalign(void **block, size_t alignment, size_t size) {
    static int (*real)(void **, size_t, size_t);
    if (!real) real = (int (*)(void **, size_t, size_t))next("posix_memalign");
    return is_refused() ? ENOMEM : real(block, alignment, size);
}
