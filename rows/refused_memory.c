// A library that is loaded before a program (LD_PRELOAD), and refuses it one taking of memory. A Rattle program takes it by malloc
// and realloc alone.
//
// REFUSE_AT is the number of the taking that is refused, from 1 on; with 0, or without it, none is. REFUSE_LOG names a file. Each
// write to standard output adds a line to it, with how many takings there were before and how many bytes were to be written; and
// the program's end adds a line with all takings, and 0.

#define _GNU_SOURCE
#include <dlfcn.h>
#include <errno.h>
#include <fcntl.h>
#include <stddef.h>
#include <stdio.h>
#include <stdlib.h>
#include <unistd.h>

static void *(*next_malloc)(size_t);
static void *(*next_realloc)(void *, size_t);
static ssize_t (*next_write)(int, const void *, size_t);

static unsigned long refused_at;
static unsigned long takings;
static int log_file = -1;

static void find_next(void) {
    *(void **)&next_malloc = dlsym(RTLD_NEXT, "malloc");
    *(void **)&next_realloc = dlsym(RTLD_NEXT, "realloc");
    *(void **)&next_write = dlsym(RTLD_NEXT, "write");
}

static void note(size_t bytes) {
    char line[64];
    int length = snprintf(line, sizeof line, "%lu %zu\n", takings, bytes);
    if (log_file >= 0 && next_write(log_file, line, (size_t)length) != length) {
        _exit(3);
    }
}

__attribute__((constructor)) static void begin(void) {
    const char *at = getenv("REFUSE_AT");
    const char *path = getenv("REFUSE_LOG");
    find_next();
    log_file = path == NULL ? -1 : open(path, O_WRONLY | O_CREAT | O_TRUNC, 0600);
    refused_at = at == NULL ? 0 : strtoul(at, NULL, 10);
    takings = 0;
}

__attribute__((destructor)) static void end(void) { note(0); }

// Counts a taking; whether it is the one that is refused.
static int is_refused(void) {
    takings += 1;
    if (takings != refused_at) {
        return 0;
    }
    errno = ENOMEM;
    return 1;
}

void *malloc(size_t size) {
    if (next_malloc == NULL) {
        find_next();
    }
    return is_refused() ? NULL : next_malloc(size);
}

void *realloc(void *block, size_t size) {
    if (next_realloc == NULL) {
        find_next();
    }
    return is_refused() ? NULL : next_realloc(block, size);
}

ssize_t write(int file, const void *bytes, size_t count) {
    if (next_write == NULL) {
        find_next();
    }
    if (file == STDOUT_FILENO) {
        note(count);
    }
    return next_write(file, bytes, count);
}
