// Refuses one call that takes memory, the one whose number REFUSED names, to the program that loads
// this library first. How many such calls there were is written to the file that COUNT names.
#define _GNU_SOURCE
#include <dlfcn.h>
#include <errno.h>
#include <stdio.h>
#include <stdlib.h>

static long calls, refused;
static void *(*real_malloc)(size_t);
static void *(*real_calloc)(size_t, size_t);
static void *(*real_realloc)(void *, size_t);
static void *(*real_aligned)(size_t, size_t);
static int (*real_memalign)(void **, size_t, size_t);

// What is asked for while the real calls are looked up: never given back.
static char early[4096];
static size_t early_used;

static void *from_early(size_t size) {
    void *found = early + early_used;
    early_used += (size + 15) / 16 * 16;
    return early_used <= sizeof early ? found : NULL;
}

__attribute__((constructor)) static void begin(void) {
    real_calloc = dlsym(RTLD_NEXT, "calloc");
    real_realloc = dlsym(RTLD_NEXT, "realloc");
    real_aligned = dlsym(RTLD_NEXT, "aligned_alloc");
    real_memalign = dlsym(RTLD_NEXT, "posix_memalign");
    real_malloc = dlsym(RTLD_NEXT, "malloc");
    const char *number = getenv("REFUSED");
    refused = number ? atol(number) : 0;
}

__attribute__((destructor)) static void end(void) {
    const char *name = getenv("COUNT");
    long count = calls;
    refused = 0;
    FILE *file = name ? fopen(name, "w") : NULL;
    if (file) {
        fprintf(file, "%ld\n", count);
        fclose(file);
    }
}

static int is_refused(void) {
    calls += 1;
    return calls == refused;
}

static void *none(void) {
    errno = ENOMEM;
    return NULL;
}

void *malloc(size_t size) {
    if (!real_malloc) return from_early(size);
    return is_refused() ? none() : real_malloc(size);
}

void *calloc(size_t count, size_t size) {
    if (!real_malloc) return from_early(count * size);
    return is_refused() ? none() : real_calloc(count, size);
}

void *realloc(void *old, size_t size) { return is_refused() ? none() : real_realloc(old, size); }

void *aligned_alloc(size_t alignment, size_t size) {
    return is_refused() ? none() : real_aligned(alignment, size);
}

int posix_memalign(void **out, size_t alignment, size_t size) {
    return is_refused() ? ENOMEM : real_memalign(out, alignment, size);
}
