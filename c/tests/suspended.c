/* suspended STATE OTHER STORAGE LENT RESIDENT SOURCE FIRST SECOND - the emulator of c/examples runs its copier over these volumes. At 1,000 of
 * the instructions of that run, drawn by chance, it is saved in STATE, behind the channel programs that run there, and another machine is made
 * of that file and of the volumes: what the two type, and what the other leaves in main storage, registers and volumes at the tick of its
 * end, are those of the machine that was never saved. One of eight is saved once more, as the same file. Main storage is the library's,
 * and at 500 of another run a file that is mapped, STORAGE for the one and LENT for the other.
 *
 * Files that are no saved machine, are cut short, or were changed in a byte are refused, and nothing changes; with a checksum that fits
 * a changed field is refused, or makes a machine that can run. */
#define _POSIX_C_SOURCE 200809L
#include <unistd.h>

#include "runs.h"

enum { SAVES = 1000, LENT_SAVES = 500, VOLUMES = 4, HEAD = 16, STORAGE_AT = HEAD + DASD_SAVED, FIELDS_AT = STORAGE_AT + STORAGE };

typedef struct files {
    const char *state, *other, *storage, *lent;
    char **volumes;
} files;

/* Nothing of this test is to outlive a loss of power: what is brought to the disk is counted, and not waited for. */
static unsigned long synced;
int __wrap_fsync(int fd);
int __wrap_fsync(int fd) { return synced += fd >= 0, 0; }

/* What there was at a machine that was to be saved, and as it was. */
static int working, moving, pending;

/* The volumes, as each run finds them: kept, or put back. */
static void keep_volumes(const files *f, int puts_back) {
    static dasd_bytes kept[VOLUMES];
    for (int i = 0; i < VOLUMES; i++) {
        size_t len = 0;
        if (puts_back) CHECK(save_file(f->volumes[i], kept[i].at, kept[i].len) == 0);
        if (puts_back == 1) continue;
        free((void *)kept[i].at);
        kept[i].at = puts_back ? NULL : read_file(f->volumes[i], &len);
        kept[i].len = len;
    }
}

static int same_files(const char *one, const char *other) {
    size_t len = 0, other_len = 0;
    uint8_t *a = read_file(one, &len), *b = read_file(other, &other_len);
    int is_same = a && b && len == other_len && !memcmp(a, b, len);
    free(a);
    free(b);
    return is_same;
}

static void count_what_is_met(const machine *m) {
    for (int i = 0; i < m->arm_count; i++) moving += m->arms[i].moves;
    pending += dasd_is_pending(&m->d, 0xFE) == 1;
}

/* A machine that has typed so many characters is saved, and another one goes on from there: it types the rest, and comes to the same end. */
static void save_and_go_on(machine *m, const files *f, machine *ended, const paper *whole, size_t typed) {
    static machine other;
    paper part;
    unsigned long before = synced;
    feed(m, &part);
    working += m->works != 0;
    CHECK(!suspend(m, f->state) && synced > before && m->works == 0);
    fclose(part.file);
    CHECK(!memcmp(part.text, whole->text + typed, part.len));
    count_what_is_met(m);
    memset(&other, 0, sizeof other);
    CHECK(!resume(&other, f->state, m->lends ? f->lent : NULL) && other.clock == m->clock && other.lends == m->lends);
    if (failures) return;
    if (below(8) == 0) CHECK(!suspend(&other, f->other) && same_files(f->state, f->other));
    follow(&other, ended, whole, typed + part.len);
    free(part.text);
    free_volumes(&other);
    CHECK(close_storage(&other) == 0);
}

static uint32_t instructions_of(machine *m) {
    uint32_t instructions = 0;
    do instructions += !is_waiting(m);
    while (step(m));
    return instructions;
}

static void save_at_instructions(const files *f, uint32_t wanted, const char *storage) {
    static machine plain, now, kept, ended;
    paper whole, again;
    make(&plain, f->volumes, storage, &whole);
    uint32_t left = instructions_of(&plain);
    fflush(whole.file);
    CHECK(left > SAVES && plain.at == 0 && whole.len > 300 && keep(&plain, &ended) == 0);
    unmake(&plain, &(paper){whole.file, NULL, 0});
    make(&now, f->volumes, storage, &again);
    do {
        if (is_waiting(&now) || below(left--) >= wanted) continue;
        wanted--;
        fflush(again.file);
        CHECK(keep(&now, &kept) == 0);
        save_and_go_on(&kept, f, &ended, &whole, again.len);
        drop(&kept);
    } while (!failures && step(&now));
    CHECK(wanted == 0 || failures);
    fflush(again.file);
    CHECK(again.len == whole.len && !memcmp(again.text, whole.text, whole.len));
    compare(&now, &ended);
    unmake(&now, &again);
    drop(&ended);
    free(whole.text);
}

/* --- Files that no machine has saved --- */

/* Nothing was made of a machine. */
static int is_nothing(const machine *m) {
    const unsigned char *at = (const unsigned char *)m;
    for (size_t i = 0; i < sizeof *m; i++)
        if (at[i]) return 0;
    return 1;
}

static void write_state(const files *f, const uint8_t *bytes, size_t len) {
    FILE *file = fopen(f->other, "wb");
    if (!file || fwrite(bytes, 1, len, file) != len || fclose(file)) abort();
}

/* The bytes are refused for a reason with this in it, and the machine of which nothing is made is as it was, and its storage too. */
static void is_refused(const files *f, const uint8_t *bytes, size_t len, const char *why) {
    static machine m;
    write_state(f, bytes, len);
    const char *said = resume(&m, f->other, f->lent);
    CHECK(said && strstr(said, why) && is_nothing(&m));
}

/* With a checksum that fits: refused, or a machine that runs for a while, and is given back. Whether it was one. */
static int is_taken(const files *f, uint8_t *bytes, size_t len) {
    static machine m;
    FILE *nowhere = fopen("/dev/null", "w");
    uint32_t low = 1, high = 0;
    for (size_t i = 0; i < len - 4; i++) low = (low + bytes[i]) % 65521, high = (high + low) % 65521;
    put_word(bytes + len - 4, high << 16 | low);
    write_state(f, bytes, len);
    memset(&m, 0, sizeof m);
    m.console.paper = nowhere;
    int taken = nowhere && !resume(&m, f->other, NULL);
    for (int i = 0; taken && i < 300 && step(&m); i++) continue;
    free_volumes(&m);
    CHECK(close_storage(&m) == 0 && nowhere && fclose(nowhere) == 0);
    return taken;
}

static const char *why_changed(size_t at, size_t len) {
    return at < 8 ? "not a saved machine" : at < 12 ? "another version" : at < 16 ? "cut short" : at < len ? "checksum" : "";
}

/* Each byte is changed that is not of main storage, and one of 64 of those. */
static void change_bytes(const files *f, uint8_t *bytes, size_t len) {
    int taken = 0, refused = 0;
    for (size_t cut = 0; cut < len; cut += cut < FIELDS_AT && cut > 600 ? 499 : 1)
        is_refused(f, bytes, cut, cut < HEAD ? "not a saved machine" : "cut short");
    is_refused(f, bytes, len + 1, "cut short");
    for (size_t at = 0; at < len; at += at >= STORAGE_AT && at + 64 < FIELDS_AT ? 64 : 1) {
        const uint8_t was = bytes[at];
        bytes[at] ^= (uint8_t)(1 + below(255));
        is_refused(f, bytes, len, why_changed(at, len));
        if (at >= FIELDS_AT && at < len - 4) taken += is_taken(f, bytes, len), refused++;
        bytes[at] = was;
        put_word(bytes + len - 4, 0);
        memcpy(bytes + len - 4, bytes + len, 4);
    }
    CHECK(taken > 100 && refused - taken > 100);
}

static void refuse_strangers(const files *f) {
    static machine m;
    paper typed;
    size_t len = 0, before_len = 0;
    make(&m, f->volumes, NULL, &typed);
    while (!m.arms[1].moves || m.works) CHECK(step(&m));
    CHECK(!suspend(&m, f->state));
    unmake(&m, &typed);
    uint8_t *state = read_file(f->state, &len), *room = calloc(1, len + 4), *before = read_file(f->lent, &before_len);
    if (!state || !room || !before) abort();
    memcpy(room, state, len);
    memcpy(room + len, state + len - 4, 4);
    change_bytes(f, room, len);
    uint8_t *behind = read_file(f->lent, &before_len);
    CHECK(behind && before_len == STORAGE && !memcmp(before, behind, STORAGE));
    static machine none;
    CHECK(resume(&none, "/nothing/there", NULL) && is_nothing(&none));
    write_state(f, state, len);
    CHECK(truncate(f->volumes[1], 0) == 0);
    CHECK(strstr(resume(&none, f->other, NULL), "was changed") && unlink(f->volumes[1]) == 0);
    CHECK(strstr(resume(&none, f->other, NULL), "was not read") && is_nothing(&none));
    free(state);
    free(room);
    free(before);
    free(behind);
}

int main(int argc, char **argv) {
    if (argc != 9) return 2;
    const files f = {argv[1], argv[2], argv[3], argv[4], argv + 5};
    keep_volumes(&f, 0);
    save_at_instructions(&f, SAVES, NULL);
    keep_volumes(&f, 1);
    save_at_instructions(&f, LENT_SAVES, f.storage);
    keep_volumes(&f, 1);
    CHECK(working > 100 && moving > 10 && pending > 10);
    refuse_strangers(&f);
    keep_volumes(&f, 2);
    if (failures) return EXIT_FAILURE;
    printf("suspended: each of %d saved machines has come to the same end, and of %d whose main storage is lent\n", SAVES, LENT_SAVES);
    return EXIT_SUCCESS;
}
