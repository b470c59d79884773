/* Counts the calls for memory, and answers the one whose number stands in FAIL_AT as if there were none. */
#define _GNU_SOURCE
#include <dlfcn.h>
#include <errno.h>
#include <stdio.h>
#include <stdlib.h>

static long calls;
static long failing = -1;
static void *(*real_malloc)(size_t);
static void *(*real_realloc)(void *, size_t);

static void look_up(void)
{
    if (real_malloc != NULL)
        return;
    const char *at = getenv("FAIL_AT");
    failing = at != NULL ? atol(at) : -1;
    real_realloc = (void *(*)(void *, size_t))dlsym(RTLD_NEXT, "realloc");
    real_malloc = (void *(*)(size_t))dlsym(RTLD_NEXT, "malloc");
}

static int is_failing(void)
{
    calls += 1;
    return calls == failing;
}

void *malloc(size_t bytes)
{
    look_up();
    if (is_failing()) {
        errno = ENOMEM;
        return NULL;
    }
    return real_malloc(bytes);
}

void *realloc(void *held, size_t bytes)
{
    look_up();
    if (is_failing()) {
        errno = ENOMEM;
        return NULL;
    }
    return real_realloc(held, bytes);
}

__attribute__((destructor)) static void tell(void)
{
    const char *name = getenv("COUNT_TO");
    long count = calls;
    if (name == NULL)
        return;
    FILE *file = fopen(name, "w");
    if (file != NULL) {
        fprintf(file, "%ld\n", count);
        fclose(file);
    }
}
