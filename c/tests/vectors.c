/* vectors FOLDER [copies|restores] - plays all vectors of a folder through dasd.h: each deck over its volumes, and compares the answers, the
 * fault of the deck's text, and the images that are left with what the vector says. For each file it prints how many come out as they must, and
 * for each that does not why. Status 1 where one does not. With `copies` behind each event of a deck the handle is copied, freed, and the
 * copy goes on in its place. With `restores` behind each event behind which no program runs the channel is saved and reset, its volumes are
 * taken off and put on anew, and what was saved is restored.
 *
 * The lines of a vector are described in conformance/FORMAT.md. */
#define _POSIX_C_SOURCE 200809L
#include <glob.h>
#include <stdarg.h>
#include <stdio.h>
#include <stdlib.h>
#include <string.h>

#include "../dasd.h"
#include "deck.h"
#include "digits.h"
#include "sha256.h"

enum { VOLUMES = 8, FILES = 8, SLOTS = 16, MOST_LINES = 4096 };

/* A line of the deck, or of a slot: bytes. */
typedef struct line {
    uint8_t *bytes;
    size_t len;
} line;

typedef struct slot {
    uint8_t unit;
    unsigned cylinder, head;
    line bytes;
} slot;

typedef struct vector {
    char name[128], fault[64];
    uint8_t channel;
    uint32_t storage;
    struct {
        uint8_t unit;
        char source[128]; /* the names of one to eight files, or `new 2314 1` */
        int has_digest;
        uint8_t digest[32];
    } volumes[VOLUMES];
    slot slots[SLOTS];
    line deck[MOST_LINES];
    const char *answers[MOST_LINES];
    size_t volume_count, slot_count, deck_count, answer_count;
} vector;

static const char *folder;
static enum { ALONE, COPIES, RESTORES } between; /* what is done behind each event */
static char why[256];                            /* how the vector that was played last differs */

static int differs(const char *form, ...) {
    va_list arguments;
    va_start(arguments, form);
    vsnprintf(why, sizeof why, form, arguments);
    va_end(arguments);
    return 0;
}

static void stop(const char *what, const char *of) {
    fprintf(stderr, "vectors: %s: %s\n", what, of);
    exit(2);
}

/* --- Reading --- */

/* A whole file, with a zero behind it. */
static uint8_t *read_file(const char *path, size_t *len) {
    FILE *f = fopen(path, "rb");
    if (!f || fseek(f, 0, SEEK_END)) stop("not read", path);
    long size = ftell(f);
    uint8_t *bytes = size < 0 ? NULL : malloc((size_t)size + 1);
    rewind(f);
    if (!bytes || fread(bytes, 1, (size_t)size, f) != (size_t)size) stop("not read", path);
    fclose(f);
    bytes[size] = 0;
    *len = (size_t)size;
    return bytes;
}

static line spelled(const char *digits) {
    size_t room = strlen(digits) / 2;
    line l = {malloc(room + 1), 0};
    if (!l.bytes) stop("no memory", digits);
    l.len = bytes_of(digits, l.bytes, room);
    return l;
}

static line copied(const char *text) {
    line l = {malloc(strlen(text) + 1), strlen(text)};
    if (!l.bytes) stop("no memory", text);
    memcpy(l.bytes, text, l.len);
    return l;
}

static void begin(vector *v, const char *name) {
    for (size_t i = 0; i < v->deck_count; i++) free(v->deck[i].bytes);
    for (size_t i = 0; i < v->slot_count; i++) free(v->slots[i].bytes.bytes);
    memset(v, 0, sizeof *v);
    v->channel = 1;
    v->storage = 65536;
    snprintf(v->name, sizeof v->name, "%s", name);
}

static void read_volume(vector *v, const char *rest) {
    if (v->volume_count == VOLUMES) stop("too many volumes", v->name);
    v->volumes[v->volume_count].unit = (uint8_t)strtoul(rest, NULL, 16);
    snprintf(v->volumes[v->volume_count++].source, sizeof v->volumes->source, "%s", rest + 3);
}

static void read_digest(vector *v, const char *rest) {
    uint8_t unit = (uint8_t)strtoul(rest, NULL, 16);
    for (size_t i = 0; i < v->volume_count; i++)
        if (v->volumes[i].unit == unit) v->volumes[i].has_digest = bytes_of(rest + strlen("90 sha256 "), v->volumes[i].digest, 32) == 32;
}

static void read_slot(vector *v, char *rest) {
    char *next;
    if (v->slot_count == SLOTS) stop("too many slots", v->name);
    slot *s = &v->slots[v->slot_count++];
    s->unit = (uint8_t)strtoul(rest, &next, 16);
    s->cylinder = (unsigned)strtoul(next, &next, 16);
    s->head = (unsigned)strtoul(next, &next, 16);
    s->bytes = spelled(next);
}

/* What a vector shows, and where its answers come from. */
static int is_remark(const char *word) {
    static const char *const remarks[] = {"about", "needs", "rule", "manual", "profile"};
    for (size_t i = 0; i < sizeof remarks / sizeof *remarks; i++)
        if (!strcmp(word, remarks[i])) return 1;
    return 0;
}

/* One line of a vector, without its two spaces. */
static void read_vector_line(vector *v, char *text) {
    char *rest = strchr(text, ' ');
    if (rest) *rest++ = '\0';
    else rest = text + strlen(text);
    if (v->deck_count == MOST_LINES || v->answer_count == MOST_LINES) stop("too many lines", v->name);
    if (!strcmp(text, ">")) v->deck[v->deck_count++] = copied(rest);
    else if (!strcmp(text, ">hex") || !strcmp(text, ">end")) v->deck[v->deck_count++] = spelled(rest);
    else if (!strcmp(text, "<")) v->answers[v->answer_count++] = rest;
    else if (!strcmp(text, "volume")) read_volume(v, rest);
    else if (!strcmp(text, "channel")) v->channel = (uint8_t)atoi(rest);
    else if (!strcmp(text, "storage")) v->storage = (uint32_t)strtoul(rest, NULL, 10);
    else if (!strcmp(text, "fault")) snprintf(v->fault, sizeof v->fault, "%s", rest);
    else if (!strcmp(text, "image")) read_digest(v, rest);
    else if (!strcmp(text, "slot")) read_slot(v, rest);
    else if (!is_remark(text)) stop("what is this?", text);
}

/* --- Playing --- */

static int attach(dasd *d, const vector *v, size_t i) {
    uint16_t address = (uint16_t)(v->channel << 8 | v->volumes[i].unit);
    unsigned model, cylinders;
    char names[sizeof v->volumes->source], path[1024];
    dasd_bytes files[FILES];
    uint8_t *bytes[FILES];
    size_t count = 0;
    if (sscanf(v->volumes[i].source, "new %u %u", &model, &cylinders) == 2)
        return dasd_attach_new(d, address, (uint16_t)model, (uint16_t)cylinders) == DASD_DONE;
    memcpy(names, v->volumes[i].source, sizeof names);
    for (char *name = strtok(names, " "); name && count < FILES; name = strtok(NULL, " "), count++) {
        snprintf(path, sizeof path, "%s/%s", folder, name);
        files[count].at = bytes[count] = read_file(path, &files[count].len);
    }
    int done = dasd_attach(d, address, files, count) == DASD_DONE;
    while (count) free(bytes[--count]);
    return done;
}

/* The text of the fault of a line, if it is faulty. */
static int is_faulty(line_kind kind, size_t number, char *fault, size_t room) {
    static const char *const texts[] = {NULL, NULL, "line too long", "unknown event", "bad operand"};
    if (kind == NO_EVENT || kind == AN_EVENT) return 0;
    snprintf(fault, room, "line %zu: %s", number, texts[kind]);
    return 1;
}

/* A copy of what the handle holds goes on in its place; the first is moved, and freed. */
static int goes_on_as_a_copy(dasd *d) {
    dasd copy = DASD_NOTHING, first = *d;
    if (dasd_copy(&first, &copy) != DASD_DONE) return 0;
    *d = copy;
    return dasd_free(&first) == DASD_DONE;
}

/* A drive's volume is taken off, and put on again as it is. */
static int is_put_on_again(dasd *d, uint16_t address) {
    dasd_file shown;
    dasd_bytes files[FILES];
    uint8_t *bytes[FILES];
    size_t count = 0;
    for (; count < FILES && dasd_show_file(d, address, (uint8_t)count, &shown) == DASD_DONE; count++) {
        if ((bytes[count] = malloc(shown.len)) == NULL) stop("no memory", "a volume");
        memcpy(bytes[count], shown.at, shown.len);
        files[count].at = bytes[count];
        files[count].len = shown.len;
    }
    int done = dasd_detach(d, address) == DASD_DONE && dasd_attach(d, address, files, count) == DASD_DONE;
    while (count) free(bytes[--count]);
    return done;
}

/* What was saved of the channel, where no program runs, is restored to drives that were put on anew. */
static int goes_on_as_saved(dasd *d, const vector *v) {
    uint8_t saved[DASD_SAVED];
    size_t written = 0;
    dasd_track unsaved;
    const int32_t code = dasd_save(d, saved, sizeof saved, &written);
    if (code == DASD_PROGRAM_RUNS) return 1;
    int done = code == DASD_DONE && dasd_reset(d, v->channel, &unsaved) == 0;
    for (size_t i = 0; i < v->volume_count && done; i++) done = is_put_on_again(d, (uint16_t)(v->channel << 8 | v->volumes[i].unit));
    return done && dasd_restore(d, saved, written) == DASD_DONE;
}

/* Plays the deck; where a line is faulty, none of it. */
static int plays_deck(dasd *d, const vector *v) {
    static event events[MOST_LINES];
    char answer[ANSWER_ROOM], fault[64] = "";
    size_t count = 0;
    for (size_t i = 0; i < v->deck_count && !fault[0]; i++) {
        line_kind kind = read_line(v->deck[i].bytes, v->deck[i].len, &events[count]);
        count += kind == AN_EVENT;
        if (is_faulty(kind, i + 1, fault, sizeof fault)) count = 0;
    }
    if (strcmp(fault, v->fault) != 0) return differs("fault: `%s`, not `%s`", fault, v->fault);
    if (count != v->answer_count) return differs("%zu answers, not %zu", count, v->answer_count);
    for (size_t i = 0; i < count; i++) {
        play(d, v->channel, &events[i], answer);
        answer[strcspn(answer, "\n")] = '\0';
        if (strcmp(answer, v->answers[i]) != 0) return differs("answer %zu: %s, not %s", i + 1, answer, v->answers[i]);
        if (between == COPIES && !goes_on_as_a_copy(d)) return differs("answer %zu: there is no copy", i + 1);
        if (between == RESTORES && !goes_on_as_saved(d, v)) return differs("answer %zu: what was saved is not restored", i + 1);
    }
    return 1;
}

/* Whether the slot of a track holds these bytes, and zeros behind them. The tracks go on from file to file. */
static int holds_slot(dasd *d, uint16_t address, const slot *s) {
    dasd_drive drive;
    dasd_file file;
    if (dasd_show_drive(d, address, &drive) != DASD_DONE) return 0;
    size_t track = (size_t)s->cylinder * (drive.model == 2311 ? 10 : 20) + s->head;
    for (uint8_t place = 0; dasd_show_file(d, address, place, &file) == DASD_DONE; place++) {
        size_t size = (size_t)file.at[12] | (size_t)file.at[13] << 8 | (size_t)file.at[14] << 16, tracks = (file.len - 512) / size;
        const uint8_t *at = file.at + 512 + track * size;
        if (track >= tracks) {
            track -= tracks;
            continue;
        }
        if (s->bytes.len > size || memcmp(at, s->bytes.bytes, s->bytes.len) != 0) return 0;
        for (size_t i = s->bytes.len; i < size; i++)
            if (at[i]) return 0;
        return 1;
    }
    return 0;
}

/* The digest of all files of a volume, one behind the other. */
static void digest_of(dasd *d, uint16_t address, uint8_t digest[32]) {
    dasd_file file;
    uint8_t *all = NULL;
    size_t len = 0;
    for (uint8_t place = 0; dasd_show_file(d, address, place, &file) == DASD_DONE; place++) {
        if ((all = realloc(all, len + file.len)) == NULL) stop("no memory", "a volume");
        memcpy(all + len, file.at, file.len);
        len += file.len;
    }
    sha256(all, len, digest);
    free(all);
}

static int leaves_volume(dasd *d, const vector *v, size_t i) {
    uint16_t address = (uint16_t)(v->channel << 8 | v->volumes[i].unit);
    uint8_t digest[32];
    for (size_t s = 0; s < v->slot_count; s++)
        if (v->slots[s].unit == v->volumes[i].unit && !holds_slot(d, address, &v->slots[s]))
            return differs("slot %02X %04X %04X differs", v->slots[s].unit, v->slots[s].cylinder, v->slots[s].head);
    digest_of(d, address, digest);
    return !v->volumes[i].has_digest || !memcmp(digest, v->volumes[i].digest, 32) || differs("image %02X differs", v->volumes[i].unit);
}

static int comes_out(const vector *v) {
    dasd d = DASD_NOTHING;
    dasd_track unsaved;
    if (dasd_new(&d, v->storage, (uint8_t)DASD_CHANNEL(v->channel)) != DASD_DONE) return differs("no channel");
    int right = 1;
    for (size_t i = 0; i < v->volume_count && right; i++) right = attach(&d, v, i) || differs("%s is not attached", v->volumes[i].source);
    right = right && plays_deck(&d, v) && (dasd_reset(&d, v->channel, &unsaved) == 0 || differs("a track was not saved"));
    for (size_t i = 0; i < v->volume_count && right; i++) right = leaves_volume(&d, v, i);
    return dasd_free(&d) == DASD_DONE && right;
}

/* --- Files of vectors --- */

static int all, right_ones;

static void finish(const vector *v, const char *group, int *of_group, int *right) {
    if (!v->name[0]) return;
    ++*of_group;
    if (comes_out(v)) ++*right;
    else printf("%s %s: %s\n", group, v->name, why);
}

static void play_group(const char *path) {
    static vector v;
    const char *group = strrchr(path, '/') + 1;
    size_t len;
    int of_group = 0, right = 0;
    char *text = (char *)read_file(path, &len);
    for (char *at = text, *end; *at; at = end + 1) {
        if ((end = strchr(at, '\n')) == NULL) stop("a last line without its end", path);
        *end = '\0';
        if (!*at || *at == '#') continue;
        if (!strncmp(at, "vector ", 7)) {
            finish(&v, group, &of_group, &right);
            begin(&v, at + 7);
        } else if (!strncmp(at, "  ", 2)) read_vector_line(&v, at + 2);
        else stop("what is this?", at);
    }
    finish(&v, group, &of_group, &right);
    begin(&v, "");
    free(text);
    printf("%s: %d of %d\n", group, right, of_group);
    all += of_group;
    right_ones += right;
}

int main(int argc, char **argv) {
    static const char *const told[] = {"", ", with a copy behind each event", ", saved and restored where no program runs"};
    char pattern[1024];
    glob_t found;
    if (argc == 3 && !strcmp(argv[2], "copies")) between = COPIES;
    else if (argc == 3 && !strcmp(argv[2], "restores")) between = RESTORES;
    else if (argc != 2) stop("usage", "vectors FOLDER [copies|restores]");
    folder = argv[1];
    snprintf(pattern, sizeof pattern, "%s/*.vectors", folder);
    if (glob(pattern, 0, NULL, &found)) stop("no vectors", folder);
    for (size_t i = 0; i < found.gl_pathc; i++) play_group(found.gl_pathv[i]);
    globfree(&found);
    printf("%d of %d vectors come out as they must%s\n", right_ones, all, told[between]);
    return right_ones == all && all > 0 ? EXIT_SUCCESS : EXIT_FAILURE;
}
