/* system.h - what the compiled program asks of its system beyond the C library's own functions: see system.c. */
#ifndef SYSTEM_H
#define SYSTEM_H

#include <stddef.h>
#include <stdint.h>

/* Each copies a text into `room` bytes, without the zero after it, and answers how many there are; or one of these. */
enum { TEXT_MISSING = -1, TEXT_TOO_LONG = -2 };

int64_t rattle_arg(size_t index, char *into, size_t room);     /* the program's word of this number, from 0, its name */
int64_t rattle_env(const char *name, char *into, size_t room); /* the value of a name of the environment */
int64_t rattle_env_at(size_t index, char *into, size_t room);  /* the environment's entry of this number, as NAME=VALUE */

/* Opens the folder that `name` reaches from an open one, or from the working one where that is AT_FDCWD: a descriptor; or -1, also where
 * `name` ends in a link, and errno says why. */
int32_t rattle_open_dir_at(int32_t folder, const char *name);

int32_t rattle_errno(void);
void rattle_set_errno(int32_t number);

#endif
