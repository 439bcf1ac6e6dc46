/* s360 [--lend FILE | --keep FILE] [--again TICK | --suspend TICK FILE] [--log FILE] ADDRESS=VOLUME.. [SERIAL=VOLUME..] - loads a program from
 * the first of these volumes, and runs it until the processor waits and takes no more interruptions. A volume is mounted on the drive of an
 * address, or stands on the shelf for the operator, who knows it by its serial number. What the program types comes to standard output.
 * Volumes that were changed are saved.
 *
 * s360 --resume FILE [--lend FILE | --keep FILE] [--again TICK | --suspend TICK FILE] [--log FILE] - goes on with a machine that was saved.
 *
 * Main storage is the library's, and with `--keep` is written to a file at the end. With `--lend` it is a file, which is mapped, and has
 * afterwards what the program left. With `--again` all is copied at that tick of the clock, and the machine goes back there from its end
 * and comes to it once more: what it types from there on stands there twice. With `--log` a file is told what the channel programs did.
 *
 * With `--suspend` the machine is saved to a file at that tick, or as soon after it as no channel program runs, and ends there; its volumes are
 * saved too. `--resume` makes it anew from that file and from its volumes, which stand under the names by which they were given, and are what
 * they were; else it says what is not, and no volume and no main storage is changed. Both may be given, for a run in parts. suspend.c has the
 * form of the file.
 *
 * Status 0: the program ended at address 0, or the machine was saved. 1: it did not, or something could not be saved. 2: it was not loaded. */
#include <errno.h>
#include <stdlib.h>
#include <string.h>

#include "s360.h"

enum { LOADED_AND_ENDED = 0, NOT_ENDED = 1, NOT_LOADED = 2 };
static const uint64_t MOST_TICKS = 1000000000;

typedef struct words {
    const char *lent, *kept, *log, *saved, *resumed;
    uint64_t again, save_at;
    char **volumes;
} words;

static int usage(void) {
    fprintf(stderr, "usage: s360 [--lend FILE | --keep FILE] [--again TICK | --suspend TICK FILE] [--log FILE] "
                    "ADDRESS=VOLUME.. [SERIAL=VOLUME..]\n"
                    "       s360 --resume FILE [--lend FILE | --keep FILE] [--again TICK | --suspend TICK FILE] [--log FILE]\n");
    return -1;
}

static int complain(const char *of, const char *why) {
    fprintf(stderr, "s360: %s: %s\n", of, why);
    return -1;
}

/* A tick, in decimal digits. */
static int read_tick(const char *word, uint64_t *tick) {
    if (!*word || strspn(word, "0123456789") != strlen(word)) return -1;
    *tick = strtoull(word, NULL, 10);
    return 0;
}

/* An option and what belongs to it: how many words that were, or 0. */
static int read_option(char **given, words *w) {
    const char *option = given[0];
    if (!given[1]) return 0;
    if (!strcmp(option, "--suspend") && given[2] && !read_tick(given[1], &w->save_at)) return w->saved = given[2], 3;
    if (!strcmp(option, "--again")) return read_tick(given[1], &w->again) ? 0 : 2;
    const char **of = !strcmp(option, "--lend")     ? &w->lent
                      : !strcmp(option, "--keep")   ? &w->kept
                      : !strcmp(option, "--log")    ? &w->log
                      : !strcmp(option, "--resume") ? &w->resumed
                                                    : NULL;
    return of ? *of = given[1], 2 : 0;
}

static int read_words(char **given, words *w) {
    for (int n; given[0] && !strncmp(given[0], "--", 2); given += n)
        if ((n = read_option(given, w)) == 0) return usage();
    w->volumes = given;
    return !given[0] == !w->resumed || (w->lent && w->kept) || (w->again && w->saved) ? usage() : 0;
}

/* The address that a word of three hexadecimal digits spells; else 0. */
static uint16_t address_of(const char *name) {
    return strlen(name) == 3 && strspn(name, "0123456789ABCDEFabcdef") == 3 ? (uint16_t)strtoul(name, NULL, 16) : 0;
}

/* ADDRESS=VOLUME or SERIAL=VOLUME; the address, or 0 for the shelf. */
static int take_volume(machine *m, const char *word, uint16_t *address) {
    char name[7];
    const char *path = strchr(word, '=');
    if (!path || path - word > 6) return usage();
    snprintf(name, sizeof name, "%.*s", (int)(path - word), word);
    *address = address_of(name);
    volume *v = read_volume(m, path + 1, *address ? "" : name);
    if (!v) return -1;
    return *address ? mount(m, v, *address) : 0;
}

/* All volumes; the address of the first, from which is loaded. */
static int take_volumes(machine *m, char **given, uint16_t *first) {
    uint16_t address = 0;
    *first = 0;
    for (; *given; given++) {
        if (take_volume(m, *given, &address)) return -1;
        if (!*first) *first = address;
    }
    return *first ? 0 : usage();
}

/* The machine stands where it goes on: a program is loaded, or all is as it was saved. */
static int begin(machine *m, const words *w) {
    uint16_t first;
    if (w->resumed) {
        const char *why = resume(m, w->resumed, w->lent);
        return why ? complain(w->resumed, why) : 0;
    }
    if (open_storage(m, w->lent)) return complain(w->lent ? w->lent : "main storage", strerror(errno));
    m->units_a_tick = 3; /* at 312,000 bytes a second */
    if (take_volumes(m, w->volumes, &first)) return -1;
    return load(m, first) ? complain(w->volumes[0], "no program was loaded") : 0;
}

/* Runs to the end; and where a copy is asked for, goes back to it from there, and comes to the end once more. */
static int runs_to_its_end(machine *m, uint64_t again) {
    static machine kept;
    if (again && !run(m, again)) {
        if (keep(m, &kept)) return complain("a copy", strerror(ENOMEM)), 0;
        int went_back = run(m, MOST_TICKS) && go_back(m, &kept) == 0;
        drop(&kept);
        if (!went_back) return 0;
    }
    return run(m, MOST_TICKS) && m->at == 0;
}

static int keep_storage(const machine *m, const char *path) {
    FILE *f = fopen(path, "wb");
    if (!f) return complain(path, strerror(errno));
    int bad = fwrite(m->storage, 1, m->size, f) != m->size;
    return fclose(f) || bad ? complain(path, strerror(errno)) : 0;
}

/* Runs until the machine is to be saved, and saves it. */
static int play_a_part(machine *m, const words *w) {
    const char *why = run(m, w->save_at) ? "the program has ended" : suspend(m, w->saved);
    fflush(m->console.paper);
    if (why) return complain(w->saved, why), NOT_ENDED;
    fprintf(stderr, "s360: %s is saved\n", w->saved);
    return LOADED_AND_ENDED;
}

static int play_to_the_end(machine *m, const words *w) {
    int status = runs_to_its_end(m, w->again) ? LOADED_AND_ENDED : NOT_ENDED;
    fflush(m->console.paper);
    if (status) fprintf(stderr, "s360: stopped at %06X\n", (unsigned)m->at);
    return status;
}

static int play(machine *m, const words *w) {
    if (begin(m, w)) return NOT_LOADED;
    int status = w->saved ? play_a_part(m, w) : play_to_the_end(m, w);
    reset(m); /* cuts what still runs, so that its track is in its volume */
    if (save_volumes(m) || (w->kept && keep_storage(m, w->kept))) status = NOT_ENDED;
    return status;
}

int main(int argc, char **argv) {
    static machine m;
    words w = {.volumes = NULL};
    (void)argc;
    if (read_words(argv + 1, &w)) return NOT_LOADED;
    if (dasd_interface() != DASD_INTERFACE) return complain("the library", "it has another interface"), NOT_LOADED;
    if (w.log && !(m.log = fopen(w.log, "w"))) return complain(w.log, strerror(errno)), NOT_LOADED;
    m.told = stderr;
    m.console.paper = stdout;
    int status = play(&m, &w);
    free_volumes(&m);
    if (m.log && (ferror(m.log) | fclose(m.log))) status = NOT_ENDED;
    if (close_storage(&m)) status = NOT_ENDED;
    return status;
}
