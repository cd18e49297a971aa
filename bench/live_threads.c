/* Tells how long a process had threads beside its first, for `bench/live`: from the first one's start to the last one's end, in
   seconds, in the file that LIVE_THREADS names. It stands before the C library's pthread_create, by LD_PRELOAD, and before its
   _exit, by which a program that had threads may end. */
#define _GNU_SOURCE
#include <dlfcn.h>
#include <pthread.h>
#include <stdatomic.h>
#include <stdio.h>
#include <stdlib.h>
#include <sys/syscall.h>
#include <time.h>
#include <unistd.h>

static _Atomic long long first, last;

static long long now(void) {
    struct timespec time;
    clock_gettime(CLOCK_MONOTONIC, &time);
    return time.tv_sec * 1000000000LL + time.tv_nsec;
}

struct work {
    void *(*run)(void *);
    void *with;
};

static void ended(void *unused) {
    (void)unused;
    long long end = now(), seen = atomic_load(&last);
    while (seen < end && !atomic_compare_exchange_weak(&last, &seen, end)) {
    }
}

static void *timed(void *given) {
    struct work work = *(struct work *)given;
    void *result;
    free(given);
    pthread_cleanup_push(ended, NULL);
    result = work.run(work.with);
    pthread_cleanup_pop(1);
    return result;
}

int pthread_create(pthread_t *thread, const pthread_attr_t *attributes, void *(*run)(void *), void *with) {
    static int (*create)(pthread_t *, const pthread_attr_t *, void *(*)(void *), void *);
    struct work *work = malloc(sizeof *work);
    long long none = 0;
    if (!create) create = dlsym(RTLD_NEXT, "pthread_create");
    if (!work) return 11;
    *work = (struct work){run, with};
    atomic_compare_exchange_strong(&first, &none, now());
    return create(thread, attributes, timed, work);
}

static void tell(void) {
    const char *path = getenv("LIVE_THREADS");
    FILE *file = path && atomic_load(&last) ? fopen(path, "w") : NULL;
    if (!file) return;
    fprintf(file, "%.9f\n", (atomic_load(&last) - atomic_load(&first)) / 1e9);
    fclose(file);
}

__attribute__((destructor)) static void at_end(void) {
    tell();
}

void _exit(int status) {
    tell();
    syscall(SYS_exit_group, status);
    __builtin_unreachable();
}
