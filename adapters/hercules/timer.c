/* timer.c - one thread that makes calls when their time has come: see timer.h. */
#include "timer.h"

#include <pthread.h>
#include <stddef.h>
#include <stdlib.h>
#include <time.h>

/* A call that is to be made. */
struct due {
    struct due *next;
    uint64_t at; /* microseconds of the monotonic clock */
    void (*call)(void *of);
    void *of;
};

static pthread_mutex_t lock = PTHREAD_MUTEX_INITIALIZER;
static pthread_cond_t changed;
static struct due *first; /* those that wait, by their times; of equal times in the order in which they came */
static bool runs;

static uint64_t now(void) {
    struct timespec t;
    clock_gettime(CLOCK_MONOTONIC, &t);
    return (uint64_t)t.tv_sec * 1000000 + (uint64_t)t.tv_nsec / 1000;
}

/* Makes the first call, whose time has come. */
static void make_first(void) {
    struct due *it = first;
    first = it->next;
    pthread_mutex_unlock(&lock);
    it->call(it->of);
    free(it);
    pthread_mutex_lock(&lock);
}

static void *run(void *nothing) {
    (void)nothing;
    pthread_mutex_lock(&lock);
    for (;;) {
        if (!first) {
            pthread_cond_wait(&changed, &lock);
        } else if (first->at > now()) {
            struct timespec until = {(time_t)(first->at / 1000000), (long)(first->at % 1000000) * 1000};
            pthread_cond_timedwait(&changed, &lock, &until);
        } else {
            make_first();
        }
    }
    return NULL;
}

/* Starts the thread, once. */
static bool start(void) {
    pthread_condattr_t clock;
    pthread_t thread;
    if (runs) return true;
    pthread_condattr_init(&clock);
    pthread_condattr_setclock(&clock, CLOCK_MONOTONIC);
    pthread_cond_init(&changed, &clock);
    pthread_condattr_destroy(&clock);
    runs = !pthread_create(&thread, NULL, run, NULL);
    if (runs) pthread_detach(thread);
    return runs;
}

bool timer_after(uint32_t microseconds, void (*call)(void *of), void *of) {
    struct due *it = malloc(sizeof *it);
    struct due **at = &first;
    if (!it) return false;
    pthread_mutex_lock(&lock);
    if (!start()) {
        pthread_mutex_unlock(&lock);
        free(it);
        return false;
    }
    *it = (struct due){NULL, now() + microseconds, call, of};
    while (*at && (*at)->at <= it->at) at = &(*at)->next;
    it->next = *at;
    *at = it;
    pthread_cond_signal(&changed);
    pthread_mutex_unlock(&lock);
    return true;
}

void timer_cancel(void (*call)(void *of), const void *of) {
    pthread_mutex_lock(&lock);
    for (struct due **at = &first; *at;) {
        struct due *it = *at;
        if (it->call == call && it->of == of) {
            *at = it->next;
            free(it);
        } else {
            at = &it->next;
        }
    }
    pthread_mutex_unlock(&lock);
}
