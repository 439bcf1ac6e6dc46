// A library that is loaded before a program (LD_PRELOAD), and lets some of its calls fail, as no real file does. The environment says
// which; a number that is not there lets none fail.
//
// FAIL_OUTPUT   behind so many bytes a write to standard output fails
// FAIL_FLUSH    with any value, the first write to standard output is made, and is told as one that failed; each later one fails
// FAIL_NAME     the path of a file, as it is opened
// FAIL_FILE     behind so many bytes a write to that file fails
// FAIL_ONCE     with any value, only the first such write to that file fails, and the others are made
// FAIL_PUT      the name of a file, without folders, in whose place no file can be put
// FAIL_READ     the read with this number, of those at a place in a file, fails, and each later one
// SHORT_READS   a read, at a place in a file or not, gives at most so many bytes
// FAIL_READS    the path of a file to which each such read adds a byte
// PUTS          the path of a file to which each file that is put in a place adds a line: its path

#define _GNU_SOURCE
#include <dlfcn.h>
#include <errno.h>
#include <fcntl.h>
#include <stdarg.h>
#include <stdio.h>
#include <stdlib.h>
#include <string.h>
#include <sys/types.h>
#include <unistd.h>

static ssize_t (*next_write)(int, const void *, size_t);
static ssize_t (*next_read)(int, void *, size_t);
static ssize_t (*next_pread)(int, void *, size_t, off_t);
static int (*next_open)(const char *, int, ...);
static int (*next_close)(int);
static int (*next_rename)(const char *, const char *);
static int (*next_link)(const char *, const char *);

static size_t output_room;
static size_t file_room;
static size_t most_read;
static unsigned long failing_read;
static unsigned long reads;
static int failing_file = -1;
static int log_file = -1;
static int puts_file = -1;

static unsigned long number(const char *name, unsigned long otherwise) {
    const char *text = getenv(name);
    return text == NULL ? otherwise : strtoul(text, NULL, 10);
}

// The file that a word of the environment names, to add to.
static int opened_log(const char *name) {
    const char *path = getenv(name);
    return path == NULL ? -1 : next_open(path, O_WRONLY | O_CREAT | O_APPEND, 0600);
}

__attribute__((constructor)) static void begin(void) {
    *(void **)&next_write = dlsym(RTLD_NEXT, "write");
    *(void **)&next_read = dlsym(RTLD_NEXT, "read");
    *(void **)&next_pread = dlsym(RTLD_NEXT, "pread");
    *(void **)&next_open = dlsym(RTLD_NEXT, "open");
    *(void **)&next_close = dlsym(RTLD_NEXT, "close");
    *(void **)&next_rename = dlsym(RTLD_NEXT, "rename");
    *(void **)&next_link = dlsym(RTLD_NEXT, "link");
    output_room = number("FAIL_OUTPUT", (size_t)-1);
    file_room = number("FAIL_FILE", (size_t)-1);
    failing_read = number("FAIL_READ", 0);
    most_read = number("SHORT_READS", (size_t)-1);
    log_file = opened_log("FAIL_READS");
    puts_file = opened_log("PUTS");
}

static ssize_t failed(void) {
    errno = EIO;
    return -1;
}

// Writes what there is room for.
static ssize_t write_into(size_t *room, int to, const void *bytes, size_t length) {
    size_t count = length < *room ? length : *room;
    if (count == 0 && length > 0) {
        return failed();
    }
    ssize_t written = next_write(to, bytes, count);
    if (written > 0 && *room != (size_t)-1) {
        *room -= (size_t)written;
    }
    return written;
}

ssize_t write(int to, const void *bytes, size_t length) {
    if (to == STDOUT_FILENO && getenv("FAIL_FLUSH") != NULL) {
        if (output_room > 0 && next_write(to, bytes, length) >= 0) {
            output_room = 0;
        }
        return failed();
    }
    if (to == STDOUT_FILENO) {
        return write_into(&output_room, to, bytes, length);
    }
    if (to == failing_file) {
        ssize_t written = write_into(&file_room, to, bytes, length);
        if (written < 0 && getenv("FAIL_ONCE") != NULL) {
            file_room = (size_t)-1;
        }
        return written;
    }
    return next_write(to, bytes, length);
}

// How many bytes a read gives that is asked for so many.
static size_t given(size_t length) { return length < most_read ? length : most_read; }

ssize_t read(int from, void *into, size_t length) { return next_read(from, into, given(length)); }

ssize_t pread(int from, void *into, size_t length, off_t at) {
    reads += 1;
    if (log_file >= 0 && next_write(log_file, "r", 1) != 1) {
        _exit(3);
    }
    return failing_read > 0 && reads >= failing_read ? failed() : next_pread(from, into, given(length), at);
}

int open(const char *path, int flags, ...) {
    mode_t mode = 0;
    if (flags & O_CREAT) {
        va_list words;
        va_start(words, flags);
        mode = va_arg(words, mode_t);
        va_end(words);
    }
    int opened = next_open(path, flags, mode);
    const char *name = getenv("FAIL_NAME");
    if (name != NULL && strcmp(name, path) == 0) {
        failing_file = opened;
    }
    return opened;
}

int close(int opened) {
    if (opened == failing_file) {
        failing_file = -1;
    }
    return next_close(opened);
}

// Whether nothing can be put in the place of this path.
static int is_barred(const char *path) {
    const char *name = getenv("FAIL_PUT");
    const char *folder = strrchr(path, '/');
    return name != NULL && strcmp(name, folder == NULL ? path : folder + 1) == 0;
}

// Tells that a file was put in a place, if it was.
static int told(int result, const char *path) {
    int error = errno;
    if (result == 0 && puts_file >= 0 && dprintf(puts_file, "%s\n", path) < 0) {
        _exit(3);
    }
    errno = error;
    return result;
}

int rename(const char *from, const char *to) { return is_barred(to) ? (int)failed() : told(next_rename(from, to), to); }

int link(const char *from, const char *to) { return is_barred(to) ? (int)failed() : told(next_link(from, to), to); }
