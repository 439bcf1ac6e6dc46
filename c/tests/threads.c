/* threads.c - two threads with a handle each, and a handle that goes from one thread to another. */
#include <pthread.h>
#include <stdint.h>
#include <string.h>

#include "../dasd.h"
#include "tests.h"

enum { ROUNDS = 20000 };

/* Reads record 0 of a drive, again and again, and fails where another thread's bytes or codes come out. */
static void *reads(void *argument) {
    dasd *d = argument;
    dasd_storage s;
    dasd_run ran;
    long bad = 0;
    if (dasd_show_storage(d, &s) != DASD_DONE) return d;
    memcpy(s.at + 0x48, "\0\0\1\0", 4);
    memcpy(s.at + 0x100, "\x16\0\2\0\x20\0\0\x10", 8);
    for (int i = 0; i < ROUNDS; i++) {
        memset(s.at + 0x200, i, 16);
        bad += dasd_sio(d, 0x190) != 0;
        bad += dasd_run_on(d, 1, 1000, &ran) != DASD_DONE || ran.subchannel != DASD_ENDED;
        bad += dasd_tio(d, 0x190) != 1;
        bad += memcmp(s.at + 0x200, "\0\0\0\0\0\0\0\10\0\0\0\0\0\0\0\0", 16) != 0;
    }
    return bad ? d : NULL;
}

/* Makes a channel, and frees it. */
static void *makes(void *argument) {
    (void)argument;
    for (int i = 0; i < 200; i++) {
        dasd d = DASD_NOTHING;
        if (dasd_new(&d, 4096, DASD_CHANNEL(1)) != DASD_DONE || dasd_attach_new(&d, 0x190, 2311, 1) != DASD_DONE || dasd_free(&d) != DASD_DONE)
            return &failures;
    }
    return NULL;
}

int main(void) {
    dasd handles[2] = {DASD_NOTHING, DASD_NOTHING};
    pthread_t threads[3];
    for (int i = 0; i < 2; i++)
        CHECK(dasd_new(&handles[i], 65536, DASD_CHANNEL(1)) == DASD_DONE && dasd_attach_new(&handles[i], 0x190, 2314, 1) == DASD_DONE);
    for (int round = 0; round < 2; round++) { /* in the second each handle is in the other's thread */
        for (int i = 0; i < 2; i++) CHECK(pthread_create(&threads[i], NULL, reads, &handles[i ^ round]) == 0);
        CHECK(pthread_create(&threads[2], NULL, makes, NULL) == 0);
        for (int i = 0; i < 3; i++) {
            void *bad;
            CHECK(pthread_join(threads[i], &bad) == 0 && bad == NULL);
        }
    }
    for (int i = 0; i < 2; i++) CHECK(dasd_free(&handles[i]) == DASD_DONE);
    return failures ? EXIT_FAILURE : EXIT_SUCCESS;
}
