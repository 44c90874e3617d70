// The builtins of r2 for a program that runs natively: over the C library and POSIX threads. A thread is named by its place in the
// order of starting, a mutex by a small number.
#include <pthread.h>
#include <stdint.h>
#include <stdio.h>
#include <stdlib.h>

static pthread_t threads[32];
static int started = 1;
static pthread_mutex_t mutexes[8];

void *r2_malloc(unsigned long n) { return n == 0 ? NULL : calloc(1, n); }

void r2_free(void *p) { free(p); }

static int (*functions[32])(void *);
static void *arguments[32];

static void *begin(void *place) {
    intptr_t thread = (intptr_t)place;
    return (void *)(intptr_t)functions[thread](arguments[thread]);
}

int r2_spawn(int (*f)(void *), void *arg) {
    if (started == 32) return -1;
    functions[started] = f;
    arguments[started] = arg;
    if (pthread_create(&threads[started], NULL, begin, (void *)(intptr_t)started) != 0) exit(70);
    return started++;
}

int r2_join(int t) {
    void *result;
    if (pthread_join(threads[t], &result) != 0) return -1;
    return (int)(intptr_t)result;
}

int r2_lock(int m) { return pthread_mutex_lock(&mutexes[m]); }

int r2_unlock(int m) { return pthread_mutex_unlock(&mutexes[m]); }

void r2_print(char *p, unsigned long n) { fwrite(p, 1, n, stdout); }
