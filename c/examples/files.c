/* files.c - a volume's file is read whole, and saved by its changed tracks, in place, so that nobody is told of it before they are on the
 * disk; or whole, so that whoever looks finds the old file or the new one, and no half of either. So is a saved machine. */
#define _XOPEN_SOURCE 700
#include <errno.h>
#include <fcntl.h>
#include <stdio.h>
#include <stdlib.h>
#include <string.h>
#include <sys/stat.h>
#include <unistd.h>

#include "s360.h"

/* Room for the bytes of a file: none where it is no file whose length is known, as a folder or a pipe. */
static uint8_t *room_for(int fd, size_t *size) {
    struct stat s;
    if (fstat(fd, &s)) return NULL;
    if (!S_ISREG(s.st_mode)) return errno = S_ISDIR(s.st_mode) ? EISDIR : EINVAL, NULL;
    *size = (size_t)s.st_size;
    return malloc(*size + 1);
}

uint8_t *read_file(const char *path, size_t *len) {
    size_t size = 0;
    ssize_t got = 0;
    int fd = open(path, O_RDONLY | O_CLOEXEC);
    if (fd < 0) return NULL;
    uint8_t *bytes = room_for(fd, &size);
    *len = 0;
    while (bytes && (got = read(fd, bytes + *len, size - *len)) > 0) *len += (size_t)got;
    int why = errno;
    if (got < 0) {
        free(bytes);
        bytes = NULL;
    }
    close(fd);
    errno = why;
    return bytes;
}

int open_to_save(const char *path, size_t len) {
    struct stat s;
    int fd = open(path, O_WRONLY | O_CLOEXEC);
    if (fd < 0 || (!fstat(fd, &s) && S_ISREG(s.st_mode) && (size_t)s.st_size == len)) return fd;
    close(fd);
    return errno = EINVAL, -1;
}

int write_at(int fd, size_t at, const uint8_t *bytes, size_t len) {
    while (len) {
        ssize_t put = pwrite(fd, bytes, len, (off_t)at);
        if (put < 0 && errno != EINTR) return -1;
        if (put > 0) {
            bytes += put;
            at += (size_t)put;
            len -= (size_t)put;
        }
    }
    return 0;
}

int close_saved(int fd, int bad) {
    bad = bad || fsync(fd);
    int why = errno;
    if (close(fd) && !bad) return -1;
    errno = why;
    return bad ? -1 : 0;
}

static int write_all(int fd, const uint8_t *bytes, size_t len) {
    while (len) {
        ssize_t put = write(fd, bytes, len);
        if (put < 0 && errno != EINTR) return -1;
        if (put > 0) {
            bytes += put;
            len -= (size_t)put;
        }
    }
    return 0;
}

/* A name is safe in its folder once the folder itself is. */
static int sync_folder_of(const char *path) {
    char folder[4096];
    const char *end = strrchr(path, '/');
    snprintf(folder, sizeof folder, "%.*s", end ? (int)(end - path + 1) : 1, end ? path : ".");
    int fd = open(folder, O_RDONLY | O_CLOEXEC);
    if (fd < 0) return -1;
    int bad = fsync(fd);
    close(fd);
    return bad;
}

/* The name of the file: a symbolic link is followed, so that it stays one. A file that is not there yet gets the name that is given. */
static char *real_name(const char *path) {
    char *real = realpath(path, NULL);
    return real || errno != ENOENT ? real : strdup(path);
}

/* The permissions of the file, or those of a new one. */
static mode_t mode_of(const char *path) {
    struct stat old;
    if (stat(path, &old) == 0) return old.st_mode & 07777;
    mode_t mask = umask(0);
    umask(mask);
    return 0666 & ~mask;
}

/* The new bytes go into a file of their own in the same folder, with the old one's permissions; once they are on the disk, the name is
 * turned to it. */
int save_file(const char *path, const uint8_t *bytes, size_t len) {
    char beside[4096];
    char *real = real_name(path);
    if (!real) return -1;
    if (snprintf(beside, sizeof beside, "%s.XXXXXX", real) >= (int)sizeof beside) {
        free(real);
        return errno = ENAMETOOLONG, -1;
    }
    int fd = mkstemp(beside), bad = fd < 0;
    if (!bad) {
        bad = write_all(fd, bytes, len) || fchmod(fd, mode_of(real)) || fsync(fd);
        bad = close(fd) || bad;
        bad = bad || rename(beside, real);
        int why = errno;
        if (bad) unlink(beside);
        errno = why;
    }
    bad = bad || sync_folder_of(real);
    free(real);
    return bad ? -1 : 0;
}
