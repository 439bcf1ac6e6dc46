/* system.c - the program's words, its environment, folders, and errno, for the compiled program.
 *
 * The compiled `main` takes no words. So the program is linked with --wrap=main: the system's start calls `__wrap_main`, which keeps the
 * words, and `__real_main` is the compiled one. */
#define _DEFAULT_SOURCE /* NOLINT(bugprone-reserved-identifier): for syscall */

#include "system.h"

#include <errno.h>
#include <fcntl.h>
#include <stdlib.h>
#include <sys/syscall.h>
#include <unistd.h>

extern char **environ;

int __real_main(void);
int __wrap_main(int argc, char **argv);

static size_t count;
static char **words;

int __wrap_main(int argc, char **argv) {
    count = (size_t)argc;
    words = argv;
    return __real_main();
}

static int64_t copy(const char *text, char *into, size_t room) {
    if (!text) return TEXT_MISSING;
    size_t len = 0;
    for (; text[len]; len++) {
        if (len == room) return TEXT_TOO_LONG;
        into[len] = text[len];
    }
    return (int64_t)len;
}

int64_t rattle_arg(size_t index, char *into, size_t room) { return copy(index < count ? words[index] : NULL, into, room); }

int64_t rattle_env(const char *name, char *into, size_t room) { return copy(getenv(name), into, room); }

int64_t rattle_env_at(size_t index, char *into, size_t room) {
    char **entry = environ;
    if (!entry) return TEXT_MISSING;
    while (*entry && index--) entry++;
    return copy(*entry, into, room);
}

int32_t rattle_open_dir_at(int32_t folder, const char *name) { return openat(folder, name, O_RDONLY | O_DIRECTORY | O_NOFOLLOW | O_CLOEXEC); }

int32_t rattle_errno(void) { return errno; }

void rattle_set_errno(int32_t number) { errno = number; }

#ifndef __GLIBC__
/* musl has this call since 1.2.5; it is the same one, and so the declaration is our own. */
int statx(int folder, const char *restrict name, int flags, unsigned mask, void *restrict found);

int statx(int folder, const char *restrict name, int flags, unsigned mask, void *restrict found) {
    return (int)syscall(SYS_statx, folder, name, flags, mask, found);
}
#endif
