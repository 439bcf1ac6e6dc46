/* plain.c - a driver for harnesses where the compiler has no libFuzzer: plain SECONDS SEED FILE.. runs each file, and then files that were
 * changed at places drawn by the seed, until the seconds are over. It says how many it ran, and the number of the input under way where one ends
 * it. */
#include "fuzz.h"

#include <signal.h>
#include <string.h>
#include <time.h>
#include <unistd.h>

enum { MOST = 4096, MOST_FILES = 64, MOST_CHANGES = 24 };

static uint64_t state;
static char where[40]; /* a line that says which input is under way */

static uint32_t drawn(uint32_t bound) { /* xorshift64* */
    state ^= state >> 12;
    state ^= state << 25;
    state ^= state >> 27;
    return (uint32_t)(state * 2685821657736338717u >> 32) % bound;
}

static void say_where(int number) {
    if (write(STDERR_FILENO, where, sizeof where) < 0) _exit(2);
    signal(number, SIG_DFL);
    raise(number);
}

/* Changes some bytes, and the length. */
static size_t changed(uint8_t *data, size_t size) {
    if (drawn(4) == 0) size = drawn(MOST);
    for (uint32_t i = drawn(MOST_CHANGES); size && i > 0; i--) data[drawn((uint32_t)size)] = (uint8_t)drawn(256);
    return size;
}

int main(int count, char **words) {
    unsigned long ran = 0;
    static uint8_t files[MOST_FILES][MOST], data[MOST];
    size_t sizes[MOST_FILES], known = 0;
    if (count < 4) return 2;
    state = strtoull(words[2], NULL, 10) + 1;
    for (int i = 3; i < count && known < MOST_FILES; i++, known++) {
        FILE *file = fopen(words[i], "rb");
        if (file == NULL) return 2;
        sizes[known] = fread(files[known], 1, MOST, file);
        fclose(file);
    }
    for (int number = SIGILL; number <= SIGSEGV; number++)
        if (number != SIGKILL) signal(number, say_where);
    for (time_t end = time(NULL) + atol(words[1]); time(NULL) < end || ran < known; ran++) {
        size_t at = ran < known ? ran : drawn((uint32_t)known), size = sizes[at];
        memcpy(data, files[at], MOST);
        if (ran >= known) size = changed(data, size);
        snprintf(where, sizeof where, "ended in input %lu\n", ran);
        LLVMFuzzerTestOneInput(data, size);
    }
    fprintf(stderr, "Done %lu runs\n", ran);
    return 0;
}
