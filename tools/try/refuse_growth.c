// Preloaded (LD_PRELOAD), refuses one growth of memory of a program: that of the number in REFUSE, from 1. How many it has asked
// for stands in the first eight bytes of the file in GROWTHS, however it ends. tools/try/growths.py builds and uses it.
#define _GNU_SOURCE
#include <dlfcn.h>
#include <fcntl.h>
#include <stdatomic.h>
#include <stddef.h>
#include <stdlib.h>
#include <sys/mman.h>
#include <unistd.h>

static atomic_long before; // what is asked for until the file is there
static atomic_long *asked = &before;
static long refused;
static void *(*next_malloc)(size_t);
static void *(*next_realloc)(void *, size_t);

__attribute__((constructor)) static void begin(void) {
    next_malloc = dlsym(RTLD_NEXT, "malloc");
    next_realloc = dlsym(RTLD_NEXT, "realloc");
    const char *number = getenv("REFUSE"), *path = getenv("GROWTHS");
    refused = number ? atol(number) : 0;
    int file = path ? open(path, O_RDWR | O_CREAT | O_TRUNC, 0600) : -1;
    if (file < 0 || ftruncate(file, sizeof *asked) != 0) return;
    void *page = mmap(NULL, sizeof *asked, PROT_READ | PROT_WRITE, MAP_SHARED, file, 0);
    if (page != MAP_FAILED) asked = page;
    close(file);
}

void *malloc(size_t size) {
    if (!next_malloc) next_malloc = dlsym(RTLD_NEXT, "malloc");
    return atomic_fetch_add(asked, 1) + 1 == refused ? NULL : next_malloc(size);
}

void *realloc(void *old, size_t size) {
    if (!next_realloc) next_realloc = dlsym(RTLD_NEXT, "realloc");
    return atomic_fetch_add(asked, 1) + 1 == refused ? NULL : next_realloc(old, size);
}
