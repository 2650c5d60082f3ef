// Refuses one call for memory: the one whose number REFUSE gives. Loaded before the C library (LD_PRELOAD). At the end it
// writes the number of calls to the file that COUNT names.

#define _GNU_SOURCE
#include <dlfcn.h>
#include <stdio.h>
#include <stdlib.h>

static void *(*real_malloc)(size_t);
static void *(*real_realloc)(void *, size_t);
static long calls, refused;

static void find(void) {
    real_malloc = dlsym(RTLD_NEXT, "malloc");
    real_realloc = dlsym(RTLD_NEXT, "realloc");
}

__attribute__((constructor)) static void begin(void) {
    const char *number = getenv("REFUSE");
    find();
    refused = number ? atol(number) : 0;
    calls = 0;
}

__attribute__((destructor)) static void end(void) {
    const char *name = getenv("COUNT");
    long seen = calls;
    refused = 0;
    FILE *file = name ? fopen(name, "w") : NULL;
    if (file) {
        fprintf(file, "%ld", seen);
        fclose(file);
    }
}

void *malloc(size_t size) {
    if (!real_malloc) find();
    return ++calls == refused ? NULL : real_malloc(size);
}

void *realloc(void *old, size_t size) {
    if (!real_realloc) find();
    return ++calls == refused ? NULL : real_realloc(old, size);
}
