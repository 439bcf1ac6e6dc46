/* again STORAGE RESIDENT SOURCE FIRST SECOND - the emulator of c/examples runs its copier over these volumes, a unit of each channel a tick.
 * At 1,000 of the units of that run, drawn by chance, the whole machine is copied, and the copy runs to its end: what it types from there
 * on, what it leaves in main storage, registers and volumes, and the tick of its end are those of the machine that was never copied. At
 * some of them the machine itself goes on from the copy. Main storage is the library's, and once more a file that is mapped. */
#define _POSIX_C_SOURCE 200809L
#include "runs.h"

enum { COPIES = 1000 };

/* How many units a run has: the ticks at which a program runs. */
static uint32_t units_of(machine *m) {
    uint32_t units = 0;
    do units += m->works != 0;
    while (step(m));
    return units;
}

/* A copy knows which of its volumes are to be saved. */
static void compare_changes(const machine *a, const machine *b) {
    for (int i = 0; i < a->volume_count; i++) CHECK(a->volumes[i].is_changed == b->volumes[i].is_changed);
}

static void copy_at_units(char **words, int lends) {
    static machine plain, now, kept;
    paper whole, again;
    const char *storage = lends ? words[0] : NULL;
    make(&plain, words + 1, storage, &whole);
    uint32_t left = units_of(&plain), wanted = COPIES;
    fflush(whole.file);
    CHECK(left > 2 * COPIES && plain.at == 0 && whole.len > 300);
    /* the file is one: so the second machine keeps the library's storage, or what the first one left in it is kept beside */
    machine ended;
    CHECK(keep(&plain, &ended) == 0);
    unmake(&plain, &(paper){whole.file, NULL, 0});
    make(&now, words + 1, storage, &again);
    do {
        if (!now.works || below(left--) >= wanted) continue;
        fflush(again.file);
        CHECK(keep(&now, &kept) == 0);
        if (wanted-- % 3 == 0) CHECK(go_back(&now, &kept) == 0);
        follow(&kept, &ended, &whole, again.len);
        compare_changes(&kept, &ended);
        drop(&kept);
    } while (!failures && step(&now));
    CHECK(wanted == 0 || failures);
    fflush(again.file);
    CHECK(again.len == whole.len && !memcmp(again.text, whole.text, whole.len));
    compare(&now, &ended);
    compare_changes(&now, &ended);
    unmake(&now, &again);
    drop(&ended);
    free(whole.text);
}

int main(int argc, char **argv) {
    if (argc != 6) return 2;
    copy_at_units(argv + 1, 0);
    copy_at_units(argv + 1, 1);
    if (!failures) printf("again: each of %d copies has come to the same end, and as many whose main storage is lent\n", COPIES);
    return failures ? EXIT_FAILURE : EXIT_SUCCESS;
}
