/* Preloaded by measure_race.py: tells, on standard error, in nanoseconds, how long a program had threads of its own, from the first that was
   started to the last that was joined; the most processor time that one of them took meanwhile, the starting one among them; and that of all. */
#define _GNU_SOURCE
#include <dlfcn.h>
#include <pthread.h>
#include <stdio.h>
#include <stdlib.h>
#include <sys/syscall.h>
#include <time.h>
#include <unistd.h>

struct work {
    void *(*run)(void *);
    void *with;
};

static long long first, last, own_first, own_last, most, all;
static pthread_mutex_t adding = PTHREAD_MUTEX_INITIALIZER;

static long long now(clockid_t clock) {
    struct timespec t;
    clock_gettime(clock, &t);
    return t.tv_sec * 1000000000LL + t.tv_nsec;
}

static void *timed(void *given) {
    struct work work = *(struct work *)given;
    free(given);
    void *result = work.run(work.with);
    long long took = now(CLOCK_THREAD_CPUTIME_ID);
    pthread_mutex_lock(&adding);
    all += took;
    if (took > most) most = took;
    pthread_mutex_unlock(&adding);
    return result;
}

int pthread_create(pthread_t *thread, const pthread_attr_t *attr, void *(*run)(void *), void *with) {
    int (*real)(pthread_t *, const pthread_attr_t *, void *(*)(void *), void *) = dlsym(RTLD_NEXT, "pthread_create");
    struct work *work = malloc(sizeof *work);
    if (!work) abort();
    *work = (struct work){run, with};
    if (!first) {
        first = now(CLOCK_MONOTONIC);
        own_first = now(CLOCK_THREAD_CPUTIME_ID);
    }
    return real(thread, attr, timed, work);
}

int pthread_join(pthread_t thread, void **result) {
    int (*real)(pthread_t, void **) = dlsym(RTLD_NEXT, "pthread_join");
    int answer = real(thread, result);
    last = now(CLOCK_MONOTONIC);
    own_last = now(CLOCK_THREAD_CPUTIME_ID);
    return answer;
}

/* The program ends by this call. */
__attribute__((noreturn)) void _exit(int status) {
    long long own = own_last - own_first;
    dprintf(2, "%lld %lld %lld\n", last - first, own > most ? own : most, all + own);
    syscall(SYS_exit_group, status);
    __builtin_unreachable();
}
