/* Loaded before the C library: lets threads pause at random, where they ask for
   memory. One request of PAUSE_ONE_IN lets its thread give up the processor, or
   sleep for up to 200 microseconds; PAUSE_SEED begins the random numbers. */
#define _GNU_SOURCE
#include <dlfcn.h>
#include <sched.h>
#include <stdatomic.h>
#include <stdint.h>
#include <stdlib.h>
#include <time.h>

static atomic_uint threads;
static _Thread_local uint64_t state;

static uint64_t number_of(const char *name, uint64_t usual) {
    const char *text = getenv(name);
    return text ? strtoull(text, NULL, 10) : usual;
}

static uint64_t next(void) {
    if (!state)
        state = (number_of("PAUSE_SEED", 1) * 0x9e3779b97f4a7c15u + atomic_fetch_add(&threads, 1) * 0xbf58476d1ce4e5b9u) | 1;
    state ^= state << 13;
    state ^= state >> 7;
    state ^= state << 17;
    return state;
}

static void may_pause(void) {
    uint64_t drawn = next(), one_in = number_of("PAUSE_ONE_IN", 20);
    if (drawn % one_in)
        return;
    struct timespec rest = {0, (drawn >> 32) % 200000};
    if ((drawn >> 24) % 2)
        sched_yield();
    else
        nanosleep(&rest, NULL);
}

void *malloc(size_t size) {
    static void *(*real)(size_t);
    if (!real)
        real = (void *(*)(size_t))dlsym(RTLD_NEXT, "malloc");
    may_pause();
    return real(size);
}

void *realloc(void *old, size_t size) {
    static void *(*real)(void *, size_t);
    if (!real)
        real = (void *(*)(void *, size_t))dlsym(RTLD_NEXT, "realloc");
    may_pause();
    return real(old, size);
}
