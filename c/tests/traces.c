/* traces ROWS - plays the decks of rows/data/traces.rows through dasd.h, with a trace by looks, and compares each line of it with the row's:
 * those of `dasd run --trace`. Beside each deck another handle plays it without a look, and must be left with the same storage and volumes.
 * A round of lines that a row tells once is wanted as often as it says. Rows whose volumes fail are left out: no file in memory does.
 *
 * Then looks that are refused, which must leave the trace as it was. */
#include <stdio.h>
#include <stdlib.h>
#include <string.h>

#include "../dasd.h"
#include "deck.h"
#include "row_volumes.h"
#include "tests.h"

enum { STORAGE = 65536, TEXT = 1 << 20, MOST_LINES = 1024 };

static const uint16_t drives[] = {0x190, 0x191};

enum { DRIVES = sizeof drives / sizeof *drives };

/* A text that grows. */
typedef struct text {
    char at[TEXT];
    size_t len;
} text;

static void stop(const char *what, const char *of) {
    fprintf(stderr, "traces: %s: %s\n", what, of);
    exit(2);
}

static void put(text *t, const char *bytes, size_t len) {
    if (len >= sizeof t->at - t->len) stop("no room", bytes);
    memcpy(t->at + t->len, bytes, len);
    t->len += len;
    t->at[t->len] = '\0';
}

/* --- A trace --- */

/* Two places for lines, of which the trace has one and its copy the other. */
static char rooms[2][DASD_TRACE_ROOM + 64];
static dasd_trace trace;
static text came;

static void begin_trace(void) {
    memset(&trace, 0, sizeof trace);
    trace.lines = rooms[0];
    trace.size = DASD_TRACE_ROOM;
    came.len = 0;
    came.at[0] = '\0';
}

/* A copy of the trace goes on in its place. */
static void goes_on_as_a_copy(void) {
    dasd_trace copy = trace;
    copy.lines = trace.lines == rooms[0] ? rooms[1] : rooms[0];
    memset(&trace, 0xA5, sizeof trace);
    trace = copy;
}

static void look(dasd *d, uint8_t what, uint16_t address, int32_t answer) {
    dasd_moment moment = {what, 1, address, (uint32_t)answer, 0, 0};
    goes_on_as_a_copy();
    memset(trace.lines, 0x5A, sizeof rooms[0]);
    CHECK(dasd_trace_look(d, &trace, &moment) == DASD_DONE && trace.length <= DASD_TRACE_ROOM && trace.size == DASD_TRACE_ROOM);
    for (size_t i = trace.length; i < sizeof rooms[0]; i++)
        if (trace.lines[i] != 0x5A) stop("a byte is written behind the lines", trace.lines);
    put(&came, trace.lines, trace.length);
}

/* Units of channel 1, one by one. */
static void steps(dasd *d, uint8_t what, uint32_t units) {
    uint32_t all = 0, done = 0;
    while (all < units && dasd_step(d, 1, 1, &done) == DASD_DONE && done) {
        look(d, DASD_BEHIND_UNIT, 0x100, 0);
        all++;
    }
    look(d, what, 0x100, (int32_t)all);
}

static void traced(dasd *d, const event *e) {
    uint16_t address = (uint16_t)e->at, from = 0x100;
    char answer[ANSWER_ROOM];
    dasd_track track;
    int32_t code;
    switch (e->kind) {
    case SIO:
        look(d, DASD_BEFORE_SIO, address, 0);
        look(d, DASD_BEHIND_SIO, address, dasd_sio(d, address));
        return;
    case TIO: look(d, DASD_BEHIND_TIO, address, dasd_tio(d, address)); return;
    case HIO: look(d, DASD_BEHIND_HIO, address, dasd_hio(d, address)); return;
    case TCH: look(d, DASD_BEHIND_TCH, 0x100, dasd_tch(d, 0x100)); return;
    case STEP: steps(d, DASD_BEHIND_STEP, e->at); return;
    case RUN: steps(d, DASD_BEHIND_RUN, e->at); return;
    case ARRIVE: look(d, DASD_BEHIND_ARRIVE, address, dasd_arrive(d, address)); return;
    case INTERRUPT:
        code = dasd_interrupt(d, 0xFE, &from);
        look(d, DASD_BEHIND_INTERRUPT, from, code);
        return;
    case RESET: look(d, DASD_BEHIND_RESET, 0x100, dasd_reset(d, 1, &track)); return;
    case STORE:
    case KEY:
    case SHOW: play(d, 1, e, answer);
    }
}

/* --- A row --- */

typedef struct row {
    char name[256];
    row_volume volume;
    event events[MOST_LINES];
    size_t count;
    int fails;
    text wanted;
} row;

static row first, one;

/* The last lines of a text once more, as often as it is said. */
static void repeat(text *t, unsigned lines, unsigned times) {
    static char round[TEXT];
    size_t begin = t->len, len;
    for (unsigned seen = 0; begin > 0 && (seen += t->at[begin - 1] == '\n') <= lines;) begin--;
    memcpy(round, t->at + begin, len = t->len - begin);
    while (times--) put(t, round, len);
}

static void read_row_line(row *r, char *line) {
    unsigned lines, times;
    if (!strncmp(line, "> ", 2)) {
        if (r->count == MOST_LINES || read_line((const uint8_t *)line + 2, strlen(line) - 2, &r->events[r->count++]) != AN_EVENT)
            stop("no event", line);
    } else if (sscanf(line, "|         the same %u lines %u times more", &lines, &times) == 2) {
        repeat(&r->wanted, lines, times);
    } else if (!strncmp(line, "| ", 2)) {
        put(&r->wanted, line + 2, strlen(line) - 2);
        put(&r->wanted, "\n", 1);
    } else if (!strncmp(line, "track ", 6)) put_track(&r->volume, line + 6);
    else if (!strncmp(line, "failing ", 8)) r->fails = 1;
}

static void made(dasd *d, const row *r) {
    dasd_bytes file = {r->volume.bytes, r->volume.len};
    CHECK(dasd_new(d, STORAGE, DASD_CHANNEL(1)) == DASD_DONE);
    for (size_t i = 0; i < DRIVES; i++) CHECK(dasd_attach(d, drives[i], &file, 1) == DASD_DONE);
}

static int hold_the_same(dasd *d, dasd *other) {
    dasd_storage here, there;
    if (dasd_show_storage(d, &here) || dasd_show_storage(other, &there) || memcmp(here.at, there.at, STORAGE) != 0) return 0;
    for (size_t i = 0; i < DRIVES; i++) {
        dasd_file mine, theirs;
        if (dasd_show_file(d, drives[i], 0, &mine) || dasd_show_file(other, drives[i], 0, &theirs)) return 0;
        if (mine.len != theirs.len || mine.changes != theirs.changes || memcmp(mine.at, theirs.at, mine.len) != 0) return 0;
    }
    return 1;
}

/* Each line as it is wanted; the first that is not is printed. */
static int is_as_wanted(const row *r) {
    size_t at = 0, line = 0;
    if (!strcmp(came.at, r->wanted.at)) return 1;
    for (; came.at[at] && came.at[at] == r->wanted.at[at]; at++)
        if (came.at[at] == '\n') line = at + 1;
    printf("%s:\n  wanted: %.*s\n  came:   %.*s\n", r->name, (int)strcspn(r->wanted.at + line, "\n"), r->wanted.at + line,
           (int)strcspn(came.at + line, "\n"), came.at + line);
    return 0;
}

static int plays(const row *r) {
    static dasd handles[2];
    dasd *d = &handles[0], *plain = &handles[1];
    char answer[ANSWER_ROOM];
    dasd_track track;
    made(d, r);
    made(plain, r);
    begin_trace();
    for (size_t i = 0; i < r->count; i++) {
        traced(d, &r->events[i]);
        play(plain, 1, &r->events[i], answer);
    }
    look(d, DASD_AT_END, 0x100, 0);
    CHECK(dasd_reset(d, 1, &track) == 0 && dasd_reset(plain, 1, &track) == 0);
    int right = is_as_wanted(r) && hold_the_same(d, plain);
    CHECK(dasd_free(d) == DASD_DONE && dasd_free(plain) == DASD_DONE);
    return right;
}

/* --- Rows --- */

static size_t played, left_out;

static void finish(row *r) {
    if (!r->count) return;
    if (r->fails) left_out++;
    else {
        CHECK(plays(r));
        played++;
    }
}

static void play_rows(FILE *rows) {
    char line[1024];
    int is_first = 1;
    row *r = &first;
    while (fgets(line, sizeof line, rows)) {
        line[strcspn(line, "\n")] = '\0';
        if (is_first && !strncmp(line, "volume ", 7)) make_volume(&r->volume, line + 7);
        else if (line[0] && !one.name[0] && !is_first) snprintf(one.name, sizeof one.name, "%.255s", line);
        else if (line[0]) read_row_line(r, line);
        else {
            if (!is_first) finish(r);
            is_first = 0;
            r = &one;
            one = first;
        }
    }
    finish(r);
}

/* --- Looks that are refused --- */

static void is_refused(dasd *d, uint8_t what, uint8_t channel, uint32_t answer, int32_t fault) {
    dasd_moment moment = {what, channel, 1, answer, 0, 0};
    dasd_trace before = trace;
    memset(trace.lines, 0x5A, sizeof rooms[0]);
    CHECK(dasd_trace_look(d, &trace, &moment) == fault && memcmp(&trace, &before, sizeof trace) == 0);
    for (size_t i = 0; i < sizeof rooms[0]; i++) CHECK(trace.lines[i] == 0x5A);
}

static void refused(void) {
    static dasd d;
    begin_trace();
    is_refused(&d, DASD_BEHIND_UNIT, 1, 0, DASD_NOTHING_HELD);
    made(&d, &first);
    CHECK(dasd_sio(&d, 0x190) == 1);
    look(&d, DASD_BEFORE_SIO, 0x190, 0);
    is_refused(&d, DASD_BEHIND_UNIT, 2, 0, DASD_NO_CHANNEL);
    is_refused(&d, DASD_BEHIND_UNIT, 255, 0, DASD_NO_CHANNEL);
    is_refused(&d, DASD_AT_END + 1, 1, 0, DASD_BAD_MOMENT);
    for (int what = DASD_BEHIND_SIO; what <= DASD_BEHIND_TCH; what++) is_refused(&d, (uint8_t)what, 1, 4, DASD_BAD_MOMENT);
    is_refused(&d, DASD_BEHIND_SIO, 1, (uint32_t)DASD_NOTHING_HELD, DASD_BAD_MOMENT);
    is_refused(&d, DASD_BEHIND_STEP, 1, 65536, DASD_BAD_MOMENT);
    for (int what = DASD_BEHIND_ARRIVE; what <= DASD_BEHIND_RESET; what++) is_refused(&d, (uint8_t)what, 1, 2, DASD_BAD_MOMENT);
    trace.size--;
    is_refused(&d, DASD_BEHIND_UNIT, 1, 0, DASD_NO_ROOM);
    is_refused(&d, DASD_BEHIND_SIO, 1, 4, DASD_BAD_MOMENT);
    CHECK(dasd_free(&d) == DASD_DONE);
}

/* A reset that could not save a track names it. No file in memory does so. */
static void lost(void) {
    static dasd d;
    const dasd_moment moment = {DASD_BEHIND_RESET, 1, 0x191, 1, 12, 3};
    begin_trace();
    made(&d, &first);
    CHECK(dasd_trace_look(&d, &trace, &moment) == DASD_DONE);
    put(&came, trace.lines, trace.length);
    CHECK(!strcmp(came.at, "RESET; 191 has lost the track of cylinder 12 head 3\n") && dasd_free(&d) == DASD_DONE);
}

int main(int argc, char **argv) {
    FILE *rows = argc == 2 ? fopen(argv[1], "r") : NULL;
    if (!rows) stop("usage", "traces ROWS");
    play_rows(rows);
    fclose(rows);
    lost();
    refused();
    printf("traces.c: %zu traces played, %zu left out\n", played, left_out);
    if (failures == 0 && played > 0) puts("traces.c: all checks passed");
    return failures != 0 || played == 0;
}
