/* system_test.c - system.c tried: this `main` stands for the compiled program's, which takes no words. Linked with --wrap=main, and run as
 *
 *     DASD_TEST=value system_test first '' third
 *
 * Prints what differs; status 1 where something does. */
#define _POSIX_C_SOURCE 200809L

#include <errno.h>
#include <fcntl.h>
#include <stdint.h>
#include <stdio.h>
#include <string.h>
#include <unistd.h>

#include "../system.h"

extern char **environ;

static int wrong;

#define CHECK(holds) ((holds) ? (void)0 : (void)(wrong++, printf("system_test.c:%d: %s\n", __LINE__, #holds)))

static int is_text(int64_t len, const char *bytes, const char *text) {
    return len == (int64_t)strlen(text) && memcmp(bytes, text, strlen(text)) == 0;
}

static void check_words(void) {
    char into[64];
    CHECK(rattle_arg(0, into, sizeof into) > 0 || rattle_arg(0, into, sizeof into) == TEXT_TOO_LONG);
    CHECK(is_text(rattle_arg(1, into, sizeof into), into, "first"));
    CHECK(rattle_arg(2, into, sizeof into) == 0);
    CHECK(is_text(rattle_arg(3, into, sizeof into), into, "third"));
    CHECK(rattle_arg(4, into, sizeof into) == TEXT_MISSING);
    CHECK(rattle_arg(SIZE_MAX, into, sizeof into) == TEXT_MISSING);
}

/* A text of five letters fits into five bytes, and no byte behind them is written. */
static void check_room(void) {
    char into[6] = "......";
    CHECK(rattle_arg(1, into, 5) == 5 && memcmp(into, "first.", 6) == 0);
    memset(into, '.', sizeof into);
    CHECK(rattle_arg(1, into, 4) == TEXT_TOO_LONG && memcmp(into + 4, "..", 2) == 0);
    CHECK(rattle_arg(1, into, 0) == TEXT_TOO_LONG);
    CHECK(rattle_arg(2, into, 0) == 0);
}

static void check_environment(void) {
    char into[64];
    CHECK(is_text(rattle_env("DASD_TEST", into, sizeof into), into, "value"));
    CHECK(rattle_env("DASD_TEST", into, 4) == TEXT_TOO_LONG);
    CHECK(rattle_env("DASD_TEST_NOT_THERE", into, sizeof into) == TEXT_MISSING);
    char *entries[] = {"A=1", "BC=", NULL}, **all = environ;
    environ = entries;
    CHECK(is_text(rattle_env_at(0, into, sizeof into), into, "A=1"));
    CHECK(is_text(rattle_env_at(1, into, sizeof into), into, "BC="));
    CHECK(rattle_env_at(2, into, sizeof into) == TEXT_MISSING && rattle_env_at(3, into, sizeof into) == TEXT_MISSING);
    environ = NULL;
    CHECK(rattle_env_at(0, into, sizeof into) == TEXT_MISSING);
    environ = all;
}

static void check_errno(void) {
    rattle_set_errno(ENOENT);
    CHECK(errno == ENOENT && rattle_errno() == ENOENT);
    errno = EINTR;
    CHECK(rattle_errno() == EINTR);
}

static void check_folders(void) {
    int32_t opened = rattle_open_dir_at(AT_FDCWD, ".");
    CHECK(opened >= 0);
    int32_t below = rattle_open_dir_at(opened, "..");
    CHECK(below >= 0 && close(below) == 0 && close(opened) == 0);
    CHECK(rattle_open_dir_at(AT_FDCWD, "no such folder") == -1 && errno == ENOENT);
    CHECK(rattle_open_dir_at(AT_FDCWD, "/dev/null") == -1 && errno == ENOTDIR);
}

int main(void) {
    check_words();
    check_room();
    check_environment();
    check_errno();
    check_folders();
    printf("system_test: %d wrong\n", wrong);
    return wrong != 0;
}
