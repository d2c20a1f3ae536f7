/* Preloaded before a program that asks for memory by malloc, calloc and realloc, and starts threads by pthread_create. It counts the bytes
   that are asked for, the bytes that are held at most at a time, the requests of the first thread and those of the others, the threads
   that are started, those that are joined, and how many at most aren't joined at a time; and of what follows the last read of standard
   input that brought bytes, the threads and the requests from the first pthread_create to the last pthread_join. Where REFUSE is set, each
   request is refused that comes while a thread that was started isn't joined; where it is "others", of these only the requests of other
   threads than the first, and where it is "large", only those of 4,096 bytes and more. The numbers are written to the file that WATCH_TO names. What pthread_create itself asks for is not counted,
   and is not refused. */
#define _GNU_SOURCE
#include <dlfcn.h>
#include <errno.h>
#include <malloc.h>
#include <pthread.h>
#include <stdio.h>
#include <stdlib.h>
#include <string.h>
#include <sys/syscall.h>
#include <unistd.h>

extern void *__libc_malloc(size_t), *__libc_calloc(size_t, size_t), *__libc_realloc(void *, size_t);
extern void __libc_free(void *);

static unsigned long asked, held, most_held, of_first, of_others, started, joined, most_alive, started_before_read, since_first, until_last, refused;
static int refuses, refuses_others, refuses_large;
static __thread int starts, is_first;

#define ADD(count, n) __atomic_add_fetch(&(count), (n), __ATOMIC_SEQ_CST)
#define READ(count) __atomic_load_n(&(count), __ATOMIC_SEQ_CST)

__attribute__((constructor)) static void begin(void) {
    const char *what = getenv("REFUSE");
    refuses = what != NULL;
    refuses_others = what && !strcmp(what, "others");
    refuses_large = what && !strcmp(what, "large");
}

__attribute__((destructor)) static void end(void) {
    const char *path = getenv("WATCH_TO");
    FILE *file = path ? fopen(path, "w") : NULL;
    if (file) {
        fprintf(file, "%lu %lu %lu %lu ", asked, most_held, of_first, of_others);
        fprintf(file, "%lu %lu %lu ", started, joined, most_alive);
        fprintf(file, "%lu %lu %lu\n", started - started_before_read, until_last, refused);
        fclose(file);
    }
}

static void raise_to(unsigned long *most, unsigned long now) {
    unsigned long before = READ(*most);
    while (now > before && !__atomic_compare_exchange_n(most, &before, now, 0, __ATOMIC_SEQ_CST, __ATOMIC_SEQ_CST)) {}
}

/* Notes a request, and answers whether it is to be refused. */
static int is_refused(size_t size) {
    if (starts) return 0;
    /* The first thread asks for memory before it starts another. */
    if (READ(started) == 0) is_first = 1;
    ADD(asked, size);
    ADD(*(is_first ? &of_first : &of_others), 1);
    if (READ(started) != READ(started_before_read)) ADD(since_first, 1);
    if (!refuses || READ(started) == READ(joined)) return 0;
    if ((refuses_others && is_first) || (refuses_large && size < 4096)) return 0;
    ADD(refused, 1);
    errno = ENOMEM;
    return 1;
}

static void *hold(void *place) {
    raise_to(&most_held, ADD(held, malloc_usable_size(place)));
    return place;
}

void *malloc(size_t size) { return is_refused(size) ? NULL : hold(__libc_malloc(size)); }

void *calloc(size_t count, size_t size) { return is_refused(count * size) ? NULL : hold(__libc_calloc(count, size)); }

void *realloc(void *place, size_t size) {
    size_t before = malloc_usable_size(place);
    void *moved;
    if (is_refused(size)) return NULL;
    moved = __libc_realloc(place, size);
    if (moved) {
        ADD(held, -before);
        hold(moved);
    }
    return moved;
}

void free(void *place) {
    ADD(held, -malloc_usable_size(place));
    __libc_free(place);
}

ssize_t read(int from, void *into, size_t size) {
    ssize_t (*next)(int, void *, size_t) = dlsym(RTLD_NEXT, "read");
    ssize_t count = next(from, into, size);
    if (from == 0 && count > 0) {
        started_before_read = started;
        since_first = until_last = 0;
    }
    return count;
}

int pthread_create(pthread_t *thread, const pthread_attr_t *how, void *(*run)(void *), void *with) {
    int (*next)(pthread_t *, const pthread_attr_t *, void *(*)(void *), void *) = dlsym(RTLD_NEXT, "pthread_create");
    int failed;
    /* Before the call, since the new thread may ask for memory before it returns. */
    ADD(started, 1);
    starts = 1;
    failed = next(thread, how, run, with);
    starts = 0;
    if (failed) ADD(started, -1);
    else raise_to(&most_alive, READ(started) - READ(joined));
    return failed;
}

int pthread_join(pthread_t thread, void **result) {
    int (*next)(pthread_t, void **) = dlsym(RTLD_NEXT, "pthread_join");
    int failed = next(thread, result);
    if (!failed) {
        ADD(joined, 1);
        __atomic_store_n(&until_last, READ(since_first), __ATOMIC_SEQ_CST);
    }
    return failed;
}

/* A program that ends by _exit runs no destructor. */
void _exit(int status) {
    end();
    for (;;) syscall(SYS_exit_group, status);
}
