/* two_threads IMAGE [same] - a channel and a processor in threads of their own, over main storage that is lent, for valgrind's drd.
 *
 * The channel's thread runs programs by the library, a few units a call, with the handle under a lock. The processor's goes over all of storage
 * and its keys meanwhile, without a lock, and stores into each byte and key that no program names: so drd sees any access of the library to
 * another byte than those. With `same` the processor stores into the area too that is read, which drd must see. */
#include <pthread.h>
#include <stdbool.h>
#include <stdint.h>
#include <stdio.h>
#include <stdlib.h>
#include <string.h>

#include "dasd.h"

enum { SIZE = 65536, BLOCKS = SIZE / 2048, TIMES = 2000, UNITS = 5, AREA = 0x3000, LENGTH = 80 };

static uint8_t bytes[SIZE], keys[BLOCKS];
static bool named[SIZE];
static dasd d = DASD_NOTHING;
static pthread_mutex_t lock = PTHREAD_MUTEX_INITIALIZER;
static bool done;

static void store(uint32_t at, const char *digits) {
    for (unsigned byte; *digits && sscanf(digits, "%2x", &byte) == 1; digits += 2) {
        named[at] = true;
        bytes[at++] = (uint8_t)byte;
    }
}

/* Seek, a search with its transfer, a read in two areas by data chaining, a search, and a write from another area: with key 3. */
static void put_program(void) {
    store(0x48, "30002000");
    for (uint32_t at = 0x40; at < 0x48; at++) named[at] = true;
    store(0x2000, "0700280040000006");
    store(0x2008, "3100280240000005");
    store(0x2010, "0800200800000000");
    store(0x2018, "06003000C0000011");
    store(0x2020, "000031014000003F");
    store(0x2028, "3100280240000005");
    store(0x2030, "0800202800000000");
    store(0x2038, "0500380020000013");
    store(0x2800, "00000000000001");
    for (uint32_t at = 0; at < LENGTH; at++) named[AREA + (at < 17 ? at : 0x101 + at - 17)] = true;
    for (uint32_t at = 0; at < 0x13; at++) named[0x3800 + at] = true;
    keys[AREA / 2048] = 3;
}

static bool run_program(void) {
    dasd_memory m = {bytes, SIZE, keys, BLOCKS};
    dasd_run ran = {0, DASD_WORKING, 0, 0, 0};
    uint16_t from;
    pthread_mutex_lock(&lock);
    bool good = dasd_lent_sio(&d, &m, 0x190) == 0;
    pthread_mutex_unlock(&lock);
    while (good && ran.subchannel == DASD_WORKING) {
        ran.units = UNITS;
        pthread_mutex_lock(&lock);
        good = dasd_lent_run_on(&d, &m, 1, &ran) == DASD_DONE;
        pthread_mutex_unlock(&lock);
    }
    pthread_mutex_lock(&lock);
    good = good && dasd_lent_interrupt(&d, &m, 0xFE, &from) == 1 && bytes[0x44] == 0x0C && bytes[0x45] == 0;
    pthread_mutex_unlock(&lock);
    return good;
}

static void *channel(void *argument) {
    bool good = true;
    for (int i = 0; i < TIMES && good; i++) good = run_program();
    pthread_mutex_lock(&lock);
    done = true;
    pthread_mutex_unlock(&lock);
    return good ? argument : NULL;
}

static bool goes_on(void) {
    pthread_mutex_lock(&lock);
    bool so = !done;
    pthread_mutex_unlock(&lock);
    return so;
}

/* The bytes that are stored are of no meaning to the channel, and no other thread reads them. */
static void process(bool same) {
    for (uint8_t value = 1; goes_on(); value++) {
        for (uint32_t at = 0; at < SIZE; at++)
            if (!named[at]) bytes[at] = value;
        for (uint32_t block = 0; block < BLOCKS; block++)
            if (block != AREA / 2048) keys[block] = value & 15;
        if (same) bytes[AREA] = value;
    }
}

int main(int argc, char **argv) {
    static uint8_t record[1 << 20];
    pthread_t thread;
    void *good = NULL;
    dasd_bytes file = {record, 0};
    FILE *image = argc > 1 ? fopen(argv[1], "rb") : NULL;
    if (!image) return 2;
    file.len = fread(record, 1, sizeof record, image);
    fclose(image);
    put_program();
    if (dasd_new_lent(&d, SIZE, DASD_CHANNEL(1)) < 0 || dasd_attach(&d, 0x190, &file, 1) < 0) return 2;
    if (pthread_create(&thread, NULL, channel, &done)) return 2;
    process(argc > 2 && !strcmp(argv[2], "same"));
    pthread_join(thread, &good);
    dasd_free(&d);
    if (!good) puts("a program did not end as it must");
    return good ? EXIT_SUCCESS : EXIT_FAILURE;
}
