/* rows FILE.. - plays rows of channel programs and of channels (rows/data/programs.rows, channel.rows; rows/player/programs.py and channels.py
 * say what a line means) through dasd.h. Programs are played in steps of several sizes. Rows are left out whose stores fail, or that have a line
 * for a call of a lower crate. */
#include <stdio.h>
#include <stdlib.h>
#include <string.h>

#include "../dasd.h"
#include "deck.h"
#include "row_volumes.h"
#include "tests.h"

enum { STORAGE = 65536, LINE = 1024, MOST_LINES = 1024, MOST_VOLUMES = 8, MOST_SAID = 64, CSW = 64, CAW = 72, OVER = 65535 };

typedef struct row {
    char name[LINE], lines[MOST_LINES][LINE];
    size_t count;
} row;

static row one, *const played_row = &one;
static struct {
    char name[8];
    row_volume volume;
} volumes[MOST_VOLUMES];
static size_t volume_count, played, left_out;

/* What a row plays at: the handle with its channel, the drives with what their volumes are to hold in the end, and what storage is to. */
static dasd d;
static uint8_t channel;
static uint32_t step;
static int32_t told;
static struct {
    uint16_t address;
    row_volume wanted;
} attached[MOST_VOLUMES];
static size_t attached_count;
static uint8_t wanted[STORAGE], is_held[STORAGE];

/* What deck lines and looks answered, and no line has wanted yet. */
static char said[MOST_SAID][LINE];
static size_t said_first, said_count;

static void differs(const char *line, const char *came) {
    printf("%s (in steps of %u): %s: %s\n", played_row->name, (unsigned)step, line, came);
    failures++;
}

static uint32_t hexadecimal(const char *digits) { return (uint32_t)strtoul(digits, NULL, 16); }

/* --- Storage --- */

static size_t spelled_behind(char *rest, uint32_t *at, uint8_t *bytes) {
    char *blank = strchr(rest, ' ');
    *at = hexadecimal(rest);
    return !blank || !strcmp(blank, " -") ? 0 : put_spelled(blank, bytes, STORAGE);
}

static void at(char *rest) {
    static uint8_t bytes[STORAGE];
    uint32_t first;
    size_t len = spelled_behind(rest, &first, bytes);
    if (dasd_poke(&d, first, bytes, len) != DASD_DONE) differs(rest, "is outside");
    else memcpy(wanted + first, bytes, len);
}

static void holds(char *rest) {
    uint32_t first = hexadecimal(rest);
    size_t len = spelled_behind(rest, &first, wanted + first);
    memset(is_held + first, 1, len);
}

static void key(char *rest) {
    char *blank = strchr(rest, ' ');
    if (dasd_set_key(&d, hexadecimal(rest), (uint8_t)(hexadecimal(blank) % 16)) != DASD_DONE) differs(rest, "is outside");
}

static void outside(char *rest) {
    uint8_t bytes[16] = {0};
    uint32_t first = hexadecimal(rest);
    size_t len = strtoul(strchr(rest, ' '), NULL, 10);
    if (dasd_peek(&d, first, bytes, len) != DASD_OUTSIDE_STORAGE || dasd_poke(&d, first, bytes, len) != DASD_OUTSIDE_STORAGE)
        differs(rest, "is in storage");
}

/* --- A channel program --- */

/* The channel status word is stored, and is this. */
static int has_stored(uint32_t high, uint32_t low) {
    uint8_t csw[8];
    CHECK(dasd_peek(&d, CSW, csw, sizeof csw) == DASD_DONE);
    for (size_t i = 0; i < 4; i++)
        if (csw[i] != (uint8_t)(high >> (24 - 8 * i)) || csw[4 + i] != (uint8_t)(low >> (24 - 8 * i))) return 0;
    return 1;
}

static int interrupts(uint32_t high, uint32_t low) {
    uint16_t from = 0;
    return dasd_is_pending(&d, 0xFE) == 1 && dasd_interrupt(&d, 0xFE, &from) == 1 && from == FIRST_DRIVE && has_stored(high, low);
}

static void start(char *rest) {
    char caw[9], how[16] = "", asks[16] = "";
    unsigned unit = 0;
    uint8_t word[4], status[2];
    sscanf(rest, "%8s %15s %x %15s", caw, how, &unit, asks);
    for (size_t i = 0; i < 4; i++) word[i] = (uint8_t)(hexadecimal(caw) >> (24 - 8 * i));
    CHECK(dasd_poke(&d, CAW, word, sizeof word) == DASD_DONE);
    int32_t code = dasd_sio(&d, FIRST_DRIVE);
    CHECK(dasd_peek(&d, CSW + 4, status, sizeof status) == DASD_DONE);
    if (!strcmp(how, "rejected")) unit = 0x02;
    if (code != !!*how || (code && (status[0] != unit || status[1] != (*how == 'b' ? 0x20 : *asks ? 0x80 : 0))))
        differs(rest, "is answered otherwise");
}

static uint32_t does(uint32_t units) {
    uint32_t all = 0, done = 1;
    while (all < units && done) {
        CHECK(dasd_step(&d, 1, step < units - all ? step : units - all, &done) == DASD_DONE);
        all += done;
    }
    return all;
}

static int runs(void) {
    dasd_program shown;
    return dasd_show_program(&d, 1, &shown) == DASD_DONE;
}

static void goes(char *rest) {
    uint32_t units = (uint32_t)strtoul(rest, NULL, 10);
    if (does(units) != units || !runs()) differs(rest, "it is over");
}

/* The end is stored; where it is channel end alone the arm moves, and arrives. */
static void ends_with(const char *rest, uint32_t high, uint32_t low) {
    if (!interrupts(high, low)) differs(rest, "is another ending");
    if (low >> 24 == 0x08 && (dasd_arrive(&d, FIRST_DRIVE) != 1 || !interrupts(0, 0x04000000))) differs(rest, "the arm does not arrive");
}

static void ends(char *rest) {
    unsigned units, high, low;
    sscanf(rest, "%u %x %x", &units, &high, &low);
    if (does(OVER) != units || runs()) differs(rest, "is another number of units");
    ends_with(rest, high, low);
}

static void cut(char *rest) {
    unsigned high, low;
    sscanf(rest, "%x %x", &high, &low);
    if (dasd_hio(&d, FIRST_DRIVE) != 2) differs(rest, "nothing is cut");
    ends_with(rest, high, low);
}

static void interruption(char *rest) {
    unsigned high, low;
    uint16_t from = 0;
    if (sscanf(rest, "%x %x", &high, &low) == 2 ? !interrupts(high, low) : dasd_is_pending(&d, 0xFE) || dasd_interrupt(&d, 0xFE, &from))
        differs(rest, "is another interruption");
}

static void seen(char *rest) {
    unsigned last, next, left;
    dasd_program shown;
    sscanf(rest, "%x %x %u", &last, &next, &left);
    if (dasd_show_program(&d, 1, &shown) != DASD_DONE || shown.last != last || shown.next != next || shown.left != left)
        differs(rest, "is seen otherwise");
}

/* --- A channel --- */

/* Another channel in the place of the one that is there, if there may be such a one. */
static void new_channel(char *rest) {
    dasd tried = DASD_NOTHING;
    unsigned number, size;
    sscanf(rest, "%u %u", &number, &size);
    uint8_t set = (uint8_t)(number < 8 ? DASD_CHANNEL(number) : 0);
    told = dasd_new(&tried, size, set);
    if (told != DASD_DONE) return;
    CHECK(dasd_free(&tried) == DASD_DONE && dasd_free(&d) == DASD_DONE && dasd_new(&d, size, set) == DASD_DONE);
    channel = (uint8_t)number;
    attached_count = 0;
}

static void attach_volume(uint16_t address, const row_volume *v) {
    dasd_bytes file = {v->bytes, v->len};
    told = dasd_attach(&d, address, &file, 1);
    if (told != DASD_DONE) return;
    attached[attached_count].address = address;
    attached[attached_count++].wanted = *v;
}

static void attach(char *rest) {
    char name[8];
    sscanf(rest, "%*s %7s", name);
    for (size_t i = 0; i < volume_count; i++)
        if (!strcmp(volumes[i].name, name)) attach_volume((uint16_t)((uint32_t)channel << 8 | hexadecimal(rest)), &volumes[i].volume);
}

static void is_refused(char *rest) {
    if (told == DASD_DONE) differs(rest, "it was done");
    told = DASD_DONE;
}

static void says(const char *answer) {
    if (said_count == MOST_SAID) said_first = said_count = 0;
    snprintf(said[said_count++], LINE, "%.*s", (int)strcspn(answer, "\n"), answer);
}

static void deck_line(char *rest) {
    char answer[ANSWER_ROOM];
    event e;
    if (read_line((const uint8_t *)rest, strlen(rest), &e) != AN_EVENT) abort();
    play(&d, channel, &e, answer);
    says(answer);
}

/* An instruction with an address of 16 bits. */
static void call(const char *rest) {
    char line[LINE], answer[ANSWER_ROOM];
    event e;
    snprintf(line, sizeof line, "%.*s 000", (int)strcspn(rest, " "), rest);
    if (read_line((const uint8_t *)line, strlen(line), &e) != AN_EVENT) abort();
    e.at = hexadecimal(strchr(rest, ' '));
    play(&d, channel, &e, answer);
    says(answer);
}

static void state(void) {
    static const char *const arms[] = {"AtRest", "InMotion", "Arrived"};
    char line[LINE];
    dasd_state shown;
    int len;
    CHECK(dasd_show_channel(&d, channel, &shown) == DASD_DONE);
    if (shown.subchannel == DASD_AVAILABLE) len = snprintf(line, LINE, "STATE idle");
    else len = snprintf(line, LINE, "STATE %s %02X", shown.subchannel == DASD_ENDED ? "pending" : "working", shown.device);
    if (shown.subchannel == DASD_WORKING && shown.asked) len += snprintf(line + len, 10, " and asks");
    for (size_t i = 0; i < shown.drives; i++) len += snprintf(line + len, LINE - (size_t)len, ", %02X %s", shown.units[i], arms[shown.arms[i]]);
    says(line);
}

static void view(void) {
    char line[LINE] = "VIEW NONE";
    dasd_program p;
    if (dasd_show_program(&d, channel, &p) == DASD_DONE)
        snprintf(line, sizeof line, "VIEW %02X KEY %X LAST %X NEXT %X LEFT %u ASKS %s", p.device, p.key, (unsigned)p.last, (unsigned)p.next,
                 p.left, p.asked ? "YES" : "NO");
    says(line);
}

static void peek(char *rest) {
    static uint8_t bytes[LINE / 4];
    char line[LINE] = "PEEK ";
    size_t len = strtoul(strchr(rest, ' '), NULL, 10);
    if (len > sizeof bytes || dasd_peek(&d, hexadecimal(rest), bytes, len) != DASD_DONE) {
        says("OUTSIDE");
        return;
    }
    for (size_t i = 0; i < len; i++) sprintf(line + 5 + 2 * i, "%02X", bytes[i]);
    says(line);
}

static void poke(char *rest) {
    static uint8_t bytes[STORAGE];
    uint32_t first;
    size_t len = spelled_behind(rest, &first, bytes);
    says(dasd_poke(&d, first, bytes, len) == DASD_DONE ? "STORE OK" : "STORE OUTSIDE");
}

static void key_of(const char *rest) {
    char line[LINE];
    int32_t found = dasd_key(&d, hexadecimal(rest));
    snprintf(line, sizeof line, found < 0 ? "OUTSIDE" : "KEYOF %X", (unsigned)found);
    says(line);
}

static void stage_line(char *rest) {
    char *behind = rest + strcspn(rest, " ");
    behind += *behind == ' ';
    if (!strcmp(rest, "STATE")) state();
    else if (!strcmp(rest, "VIEW")) view();
    else if (!strncmp(rest, "CALL ", 5)) call(behind);
    else if (!strncmp(rest, "PEEK ", 5)) peek(behind);
    else if (!strncmp(rest, "POKE ", 5)) poke(behind);
    else if (!strncmp(rest, "KEYOF ", 6)) key_of(behind);
    else deck_line(rest);
}

/* The bytes of a PEEK are wanted as they are spelled. The channel status word of a STATE, which dasd.h does not show, is passed over. */
static void is_said(char *rest) {
    static uint8_t bytes[STORAGE];
    char line[LINE] = "PEEK ";
    const char *came = said_first < said_count ? said[said_first++] : "nothing";
    size_t len = strlen(rest);
    if (!strncmp(rest, line, 5)) {
        len = put_spelled(rest + 5, bytes, sizeof bytes);
        for (size_t i = 0; i < len; i++) sprintf(line + 5 + 2 * i, "%02X", bytes[i]);
        rest = line;
        len = strlen(line);
    }
    if (!strncmp(rest, "STATE pending", 13)) memmove(rest + 16, rest + 33, strlen(rest + 33) + 1);
    int is_begun = len > 3 && !strcmp(rest + len - 3, "...");
    if ((is_begun ? strncmp(came, rest, len - 4) : strcmp(came, rest)) != 0) differs(rest, came);
}

static void sense(char *rest) {
    static const uint8_t word[] = {0x04, 0, 0x07, 0x10, 0, 0, 0, 6}, caw[] = {0, 0, 0x07, 0};
    uint8_t want[6] = {0}, came[6];
    uint16_t address = (uint16_t)hexadecimal(rest), from = 0;
    dasd_drive shown;
    uint32_t done = 0;
    if (rest[2] == ' ') { /* of the programs' drive, as it is */
        bytes_of(rest, want, sizeof want);
        if (dasd_show_drive(&d, FIRST_DRIVE, &shown) != DASD_DONE || memcmp(shown.sense, want, 6) != 0) differs(rest, "are other sense bytes");
        return;
    }
    bytes_of(strchr(rest, ' '), want, sizeof want);
    CHECK(dasd_poke(&d, 0x700, word, 8) == DASD_DONE && dasd_poke(&d, CAW, caw, 4) == DASD_DONE);
    CHECK(dasd_sio(&d, address) == 0 && dasd_step(&d, channel, OVER, &done) == DASD_DONE && done == 7);
    CHECK(dasd_interrupt(&d, 0xFE, &from) == 1 && from == address && has_stored(0x708, 0x0C000000));
    CHECK(dasd_peek(&d, 0x710, came, 6) == DASD_DONE);
    if (memcmp(came, want, 6) != 0) differs(rest, "are other sense bytes");
}

/* A track that a volume is to have in the end: of the drive that is named, where rows attach drives. */
static void left(char *rest) {
    uint16_t address = (uint16_t)((uint32_t)channel << 8 | hexadecimal(rest));
    for (size_t i = 0; i < attached_count; i++)
        if (volumes[0].name[0] == '\0') put_track(&attached[i].wanted, rest);
        else if (attached[i].address == address) put_track(&attached[i].wanted, strchr(rest, ' '));
}

/* --- Rows --- */

static void nothing(char *rest) { (void)rest; }

static const struct {
    const char *name;
    void (*does)(char *rest);
} verbs[] = {
    {"at", at},          {"holds", holds},    {"key", key},        {"outside", outside},
    {"start", start},    {"goes", goes},      {"ends", ends},      {"cut", cut},
    {"seen", seen},      {"stored", nothing}, {"sense", sense},    {"interruption", interruption},
    {"left", left},      {"attach", attach},  {"!", is_refused},   {">", deck_line},
    {":", stage_line},   {"<", is_said},      {"track", nothing},  {"channel", new_channel},
    {"calls", nothing},  {"reads", nothing},  {"writes", nothing}, {"sweep", nothing},
    {"limits", nothing}, {"serial", nothing}, {"cuts", nothing},   {"=", nothing},
    {"~", nothing},
};

enum { VERBS = sizeof verbs / sizeof *verbs };

/* What a line of a row does, or VERBS. */
static size_t verb_of(const char *line) {
    size_t verb = 0;
    while (verb < VERBS && (strlen(verbs[verb].name) != strcspn(line, " ") || strncmp(line, verbs[verb].name, strcspn(line, " ")) != 0)) verb++;
    return verb;
}

/* Whether this program can not play a row: a store fails, a deck has no event, or a line of the stage is for a call that dasd.h has not. */
static int is_left_out(const row *r) {
    static const char *const others[] = {"DETACH", "IMAGE", "STORAGE", "SWAP"};
    event e;
    for (size_t i = 0; i < r->count; i++) {
        const char *line = r->lines[i];
        if (verb_of(line) == VERBS || strstr(line, "failing")) return 1;
        if (*line == '>' && read_line((const uint8_t *)line + 2, strlen(line) - 2, &e) != AN_EVENT) return 1;
        for (size_t other = 0; *line == ':' && other < sizeof others / sizeof *others; other++)
            if (!strncmp(line + 2, others[other], strlen(others[other]))) return 1;
    }
    return 0;
}

static void compare(void) {
    dasd_storage storage = {0};
    dasd_file file = {0};
    dasd_track track;
    CHECK(dasd_reset(&d, channel, &track) == 0 && dasd_show_storage(&d, &storage) == DASD_DONE);
    for (size_t i = 0; i < storage.len; i++)
        if (is_held[i] && storage.at[i] != wanted[i]) {
            printf("%s: storage at %zX has %02X\n", played_row->name, i, storage.at[i]);
            failures++;
            break;
        }
    for (size_t i = 0; i < attached_count; i++) {
        CHECK(dasd_show_file(&d, attached[i].address, 0, &file) == DASD_DONE && file.len == attached[i].wanted.len);
        if (memcmp(file.at, attached[i].wanted.bytes, file.len) != 0) differs("a volume", "has other bytes");
    }
}

static void play_row(const row *r) {
    static row_volume own;
    char line[LINE];
    int has_one_drive = !volumes[0].name[0];
    CHECK(dasd_new(&d, STORAGE, DASD_CHANNEL(1)) == DASD_DONE);
    channel = 1;
    attached_count = said_first = said_count = 0;
    told = DASD_DONE;
    memset(wanted, 0, sizeof wanted);
    memset(is_held, has_one_drive, sizeof is_held);
    memset(is_held + CSW, 0, 16);
    if (has_one_drive) {
        own = volumes[0].volume;
        for (size_t i = 0; i < r->count; i++)
            if (!strncmp(r->lines[i], "track ", 6)) put_track(&own, (char *)memcpy(line, r->lines[i], LINE) + 6);
        attach_volume(FIRST_DRIVE, &own);
    }
    for (size_t i = 0; i < r->count; i++) {
        memcpy(line, r->lines[i], LINE);
        if (*line != '!' && told != DASD_DONE) differs(line, "what is above was refused");
        char *rest = line + strcspn(line, " ");
        verbs[verb_of(line)].does(rest + (*rest == ' '));
    }
    compare();
    CHECK(dasd_free(&d) == DASD_DONE);
}

static void finish(row *r) {
    static const uint32_t steps[] = {OVER, 7, 2, 1};
    size_t sizes = volumes[0].name[0] ? 1 : sizeof steps / sizeof *steps;
    if (!r->name[0]) return;
    if (is_left_out(r)) left_out++;
    else {
        played++;
        for (size_t i = 0; i < sizes; i++) {
            step = steps[i];
            play_row(r);
        }
    }
    r->name[0] = '\0';
    r->count = 0;
}

/* `volume 2311 2` is that of the rows after it, `volume X 2311 2` one that they name. */
static void begin_volume(const char *rest) {
    char name[8] = "";
    if (rest[0] < '0' || rest[0] > '9') sscanf(rest, "%7s", name);
    if (!name[0]) volume_count = 0;
    if (volume_count == MOST_VOLUMES) abort();
    memcpy(volumes[volume_count].name, name, sizeof name);
    make_volume(&volumes[volume_count++].volume, rest + strlen(name));
}

static void play_rows(FILE *file) {
    char line[LINE];
    int in_volume = 0;
    volume_count = 0;
    while (fgets(line, sizeof line, file)) {
        line[strcspn(line, "\n")] = '\0';
        if (!line[0]) {
            finish(&one);
            in_volume = 0;
        } else if (!one.name[0] && !in_volume && !strncmp(line, "volume ", 7)) {
            begin_volume(line + 7);
            in_volume = 1;
        } else if (in_volume) put_track(&volumes[volume_count - 1].volume, line + 6);
        else if (!one.name[0]) memcpy(one.name, line, LINE);
        else if (one.count < MOST_LINES) memcpy(one.lines[one.count++], line, LINE);
        else abort();
    }
    finish(&one);
}

int main(int argc, char **argv) {
    for (int i = 1; i < argc; i++) {
        FILE *file = fopen(argv[i], "r");
        if (!file) {
            perror(argv[i]);
            return 2;
        }
        play_rows(file);
        fclose(file);
    }
    printf("rows.c: %zu rows played, %zu left out\n", played, left_out);
    if (failures == 0 && played > 0) puts("rows.c: all checks passed");
    return failures != 0 || played == 0;
}
