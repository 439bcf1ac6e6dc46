/* pack.h - the file of a pack, for the modules of Hercules: it is locked while it is open, read once, and written track by track. */
#ifndef PACK_H
#define PACK_H

#include <stdbool.h>
#include <stddef.h>
#include <stdint.h>

/* A pack's file. Zeros, with fd -1, are a file that is not open. */
typedef struct pack {
    int fd;
    bool read_only; /* no byte of the file is written: changed tracks are dropped at close */
    bool failed;    /* the last write failed, and was reported */
    uint64_t saved; /* the number `changes` of its volume, as it was saved last */
    size_t len;
    char name[4096];
} pack;

/* Opens and locks a file as `dasd` does: for one user, or with `read_only` for any number of readers. NULL; or why it can't be had, a text
 * that stays: "image in use" where another program has locked it. Nothing is open then. */
const char *pack_open(pack *file, const char *name, bool read_only);

/* Reads the whole file into `into`, which has `len` bytes: NULL, or why it can't be read. */
const char *pack_read(const pack *file, uint8_t *into);

/* Writes `len` bytes to the place `at` of the file: 0, or the number of the error. Where it is refused in the middle, the bytes before that
 * are written. */
int pack_write(const pack *file, size_t at, const uint8_t *bytes, size_t len);

/* Brings what was written to the disk, closes the file and with it the lock: 0, or the number of the error. A file that is not open stays. */
int pack_close(pack *file);

/* The tracks of a cylinder of a model. */
static inline int heads_of(unsigned model) {
    /* c/interface.toml: begin */
    return model == 2311 ? 10 : 20;
    /* c/interface.toml: end */
}

#endif
