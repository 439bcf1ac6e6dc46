/* pack.c - the file of a pack: see pack.h. */
#define _GNU_SOURCE
#include "pack.h"

#include <errno.h>
#include <fcntl.h>
#include <string.h>
#include <sys/file.h>
#include <sys/stat.h>
#include <unistd.h>

/* How often a file is opened again that was replaced before it was locked. */
enum { TRIES = 16 };

/* Locks a file that was just opened, if its name still leads to it: NULL; "" where it was replaced meanwhile; or why not. */
static const char *lock(pack *file) {
    struct stat opened;
    struct stat named;
    if (flock(file->fd, (file->read_only ? LOCK_SH : LOCK_EX) | LOCK_NB)) return errno == EWOULDBLOCK ? "image in use" : strerror(errno);
    if (fstat(file->fd, &opened)) return strerror(errno);
    if (!S_ISREG(opened.st_mode)) return "not a regular file";
    if (stat(file->name, &named) || named.st_dev != opened.st_dev || named.st_ino != opened.st_ino) return "";
    file->len = (size_t)opened.st_size;
    return NULL;
}

const char *pack_open(pack *file, const char *name, bool read_only) {
    const char *why = "another program replaces it";
    *file = (pack){.fd = -1, .read_only = read_only};
    if (strlen(name) >= sizeof file->name) return "the name is too long";
    memcpy(file->name, name, strlen(name) + 1);
    for (int i = 0; i < TRIES; i++) {
        const char *refused;
        file->fd = open(name, (read_only ? O_RDONLY : O_RDWR) | O_CLOEXEC | O_NOCTTY | O_NONBLOCK);
        if (file->fd < 0) return strerror(errno);
        refused = lock(file);
        if (!refused) return NULL;
        close(file->fd);
        file->fd = -1;
        if (*refused) return refused;
    }
    return why;
}

const char *pack_read(const pack *file, uint8_t *into) {
    size_t done = 0;
    while (done < file->len) {
        ssize_t got = pread(file->fd, into + done, file->len - done, (off_t)done);
        if (got < 0 && errno == EINTR) continue;
        if (got < 0) return strerror(errno);
        if (got == 0) return "the file became shorter while it was read";
        done += (size_t)got;
    }
    return NULL;
}

int pack_write(const pack *file, size_t at, const uint8_t *bytes, size_t len) {
    size_t done = 0;
    while (done < len) {
        ssize_t wrote = pwrite(file->fd, bytes + done, len - done, (off_t)(at + done));
        if (wrote < 0 && errno == EINTR) continue;
        if (wrote < 0) return errno;
        if (wrote == 0) return EIO;
        done += (size_t)wrote;
    }
    return 0;
}

int pack_close(pack *file) {
    int fault = 0;
    if (file->fd < 0) return 0;
    if (!file->read_only && fsync(file->fd)) fault = errno;
    if (close(file->fd) && !fault) fault = errno;
    file->fd = -1;
    return fault;
}
