/* glob.h - as much of POSIX's glob as c/tests/vectors.c takes, for a C library that has none: the files FOLDER/\*.ENDING, by their names. */
#ifndef GLOB_H
#define GLOB_H

#include <dirent.h>
#include <stdio.h>
#include <stdlib.h>
#include <string.h>

enum { GLOB_NOMATCH = 3, GLOB_MOST = 256 };

typedef struct glob_t {
    size_t gl_pathc;
    char **gl_pathv;
} glob_t;

static int glob_compare(const void *one, const void *other) { return strcmp(*(char *const *)one, *(char *const *)other); }

static void globfree(glob_t *found) {
    while (found->gl_pathc) free(found->gl_pathv[--found->gl_pathc]);
    free(found->gl_pathv);
}

static int glob(const char *pattern, int flags, int (*on_error)(const char *, int), glob_t *found) {
    const char *star = strrchr(pattern, '*');
    size_t folder_len = star ? (size_t)(star - pattern) : 0;
    char folder[1024];
    (void)flags;
    (void)on_error;
    *found = (glob_t){0, calloc(GLOB_MOST, sizeof(char *))};
    if (!found->gl_pathv || folder_len == 0 || folder_len >= sizeof folder) return GLOB_NOMATCH;
    memcpy(folder, pattern, folder_len);
    folder[folder_len] = 0;
    DIR *all = opendir(folder);
    for (struct dirent *it; all && (it = readdir(all)) && found->gl_pathc < GLOB_MOST;) {
        size_t len = strlen(it->d_name), ending = strlen(star + 1);
        if (len < ending || strcmp(it->d_name + len - ending, star + 1)) continue;
        char *path = malloc(folder_len + len + 1);
        if (!path) break;
        memcpy(path, folder, folder_len);
        memcpy(path + folder_len, it->d_name, len + 1);
        found->gl_pathv[found->gl_pathc++] = path;
    }
    if (all) closedir(all);
    qsort(found->gl_pathv, found->gl_pathc, sizeof(char *), glob_compare);
    return found->gl_pathc ? 0 : GLOB_NOMATCH;
}

#endif
