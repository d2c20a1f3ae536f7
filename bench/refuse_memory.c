/* Preloaded before a program that asks for memory by malloc and realloc: the request numbered REFUSE (from 1) is
   refused, and where REFUSE ends in '+', each one after it too. Where COUNT_TO names a file, the number of requests
   is written there at the end. */
#define _GNU_SOURCE
#include <dlfcn.h>
#include <errno.h>
#include <stdio.h>
#include <stdlib.h>
#include <string.h>
#include <sys/syscall.h>
#include <unistd.h>

static unsigned long asked, refused_from;
static int refused_after;
static void *(*next_malloc)(size_t);
static void *(*next_realloc)(void *, size_t);

__attribute__((constructor)) static void start(void) {
    const char *refuse = getenv("REFUSE");
    refused_from = refuse ? strtoul(refuse, NULL, 10) : 0;
    refused_after = refuse && strchr(refuse, '+');
    asked = 0;
}

__attribute__((destructor)) static void end(void) {
    const char *path = getenv("COUNT_TO");
    unsigned long count = asked;
    FILE *file = path ? fopen(path, "w") : NULL;
    if (file) {
        fprintf(file, "%lu\n", count);
        fclose(file);
    }
}

static int refuses(void) {
    asked += 1;
    if (!refused_from || asked < refused_from || (asked > refused_from && !refused_after)) return 0;
    errno = ENOMEM;
    return 1;
}

void *malloc(size_t size) {
    if (!next_malloc) next_malloc = dlsym(RTLD_NEXT, "malloc");
    return refuses() ? NULL : next_malloc(size);
}

void *realloc(void *place, size_t size) {
    if (!next_realloc) next_realloc = dlsym(RTLD_NEXT, "realloc");
    return refuses() ? NULL : next_realloc(place, size);
}

/* A program that ends by _exit runs no destructor. */
void _exit(int status) {
    end();
    for (;;) syscall(SYS_exit_group, status);
}
