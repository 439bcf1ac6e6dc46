/* drive_stage.c - a stage over dasd_drive.h: it reads a line, does one call, and prints a line, in the words of the drive alone of
 * crates/test_stage. So the rows of a drive are played at both (rows/play.py c/out/drive_stage drives_in_memory). It decides nothing but
 * whether a line is one of its own. */
#define _POSIX_C_SOURCE 200809L
#include <inttypes.h>
#include <stdio.h>
#include <stdlib.h>
#include <string.h>

#include "../dasd_drive.h"

static dasd_drive_alone drive = DASD_DRIVE_NOTHING;
/* the file of the volume, as it was handed in, and as it came back */
static uint8_t *file;
static size_t file_len;

static const char *const hex = "0123456789ABCDEF";

/* --- Bytes as `0000+C1*80`; `-` is none --- */

static int digit(char c) {
    const char *at = c ? strchr(hex, c) : NULL;
    return at ? (int)(at - hex) : -1;
}

/* Reads the bytes of a word into memory that it takes, and how many they are. */
static uint8_t *bytes_of(const char *word, size_t *len) {
    uint8_t *bytes = malloc(strlen(word) + 1);
    *len = 0;
    if (!bytes || *word == '-') return bytes;
    while (*word) {
        size_t begins = *len, times = 1;
        for (int high, low; (high = digit(word[0])) >= 0 && (low = digit(word[1])) >= 0; word += 2) bytes[(*len)++] = (uint8_t)(high * 16 + low);
        if (*word == '*') {
            char *end;
            times = (size_t)strtoul(word + 1, &end, 10);
            word = end;
        }
        if (times > 1 && *len > 0) {
            uint8_t *more = realloc(bytes, *len + times + strlen(word) + 1);
            if (!more) return bytes;
            bytes = more;
            memset(bytes + *len, bytes[*len - 1], times - 1);
            *len += times - 1;
        }
        if (*len == begins && times == 1) return bytes;
        if (*word == '+') word++;
    }
    return bytes;
}

static void say_bytes(const char *verb, const uint8_t *bytes, size_t len) {
    printf("%s ", verb);
    for (size_t at = 0, times; at < len; at += times) {
        for (times = 1; at + times < len && bytes[at + times] == bytes[at];) times++;
        printf(times > 1 ? "%s%02X*%zu" : "%s%02X", at ? "+" : "", bytes[at], times);
    }
    printf(len ? "\n" : "-\n");
}

/* --- The drive's calls. What is refused is said by its number --- */

static void say(int32_t code, const char *done) {
    if (code < 0) printf("NO %" PRId32 "\n", code);
    else printf("%s\n", done);
}

static void say_one_of(int32_t code, const char *const *names) { say(code, code < 0 ? "" : names[code]); }

static void show_phase(void) {
    static const char *const names[] = {"idle", "over", "looking", "gives", "takes"};
    dasd_drive_next_bytes next = {0, 0};
    int32_t phase = dasd_drive_next(&drive, &next);
    if (phase >= DASD_DRIVE_GIVES) printf("PHASE %s %zu %zu\n", names[phase], next.passed, next.left);
    else say(phase, phase < 0 ? "" : (const char *[]){"PHASE idle", "PHASE over", "PHASE looking"}[phase]);
}

static void show_state(void) {
    dasd_drive_seen seen;
    int32_t code = dasd_drive_show(&drive, &seen);
    if (code < 0) {
        say(code, "");
        return;
    }
    printf("DRIVE AT %u %u SENSE ", seen.cylinder, seen.head);
    for (int i = 0; i < 6; i++) printf("%02X", seen.sense[i]);
    printf(" WRITTEN %s UNSAVED NONE\n", seen.written ? "YES" : "NO");
}

static void look(void) {
    dasd_drive_next_bytes next = {0, 0};
    int32_t code = dasd_drive_look(&drive);
    if (code == DASD_DRIVE_READY && dasd_drive_next(&drive, &next) >= DASD_DRIVE_GIVES) printf("READY %zu\n", next.left);
    else say_one_of(code, (const char *[]){"FAILED", "PASSED", "READY"});
}

static void give(size_t len) {
    uint8_t *into = calloc(len + 1, 1);
    int32_t code = into ? dasd_drive_give(&drive, into, len) : DASD_NO_MEMORY;
    if (code < 0) say(code, "");
    else say_bytes("GIVEN", into, len);
    free(into);
}

/* As many of these bytes as the drive takes now. */
static void take(const char *word) {
    dasd_drive_next_bytes next = {0, 0};
    size_t len;
    uint8_t *bytes = bytes_of(word, &len);
    if (dasd_drive_next(&drive, &next) == DASD_DRIVE_TAKES && len > next.left) len = next.left;
    int32_t code = bytes ? dasd_drive_take(&drive, bytes, len) : DASD_NO_MEMORY;
    if (code < 0) say(code, "");
    else printf("TAKEN %zu\n", len);
    free(bytes);
}

static void end(void) {
    int32_t unit = dasd_drive_end(&drive);
    if (unit < 0) say(unit, "");
    else printf("ENDED %02" PRIX32 " %s\n", unit, (unit & 0x0C) == 0x08 ? "moves" : "still");
}

static void release(void) {
    dasd_file shown;
    int32_t code = dasd_drive_show_file(&drive, &shown);
    say(code < 0 ? code : shown.len == file_len ? dasd_drive_give_back(&drive, file, file_len) : DASD_OTHER_LENGTH, "OK");
}

/* --- Lines --- */

static void call_drive(const char *verb, const char *operand) {
    static const char *const begun[] = {"REJECTED", "IMMEDIATE", "STARTED"};
    if (!strcmp(verb, "MOUNT")) {
        dasd_drive_free(&drive);
        say(dasd_drive_attach(&drive, file, file_len), "OK");
    } else if (!strcmp(verb, "PROGRAM")) say(dasd_drive_begin_program(&drive), "OK");
    else if (!strcmp(verb, "CLEAR")) say(dasd_drive_clear_sense(&drive), "OK");
    else if (!strcmp(verb, "BEGIN")) say_one_of(dasd_drive_begin(&drive, (uint8_t)strtoul(operand, NULL, 16)), begun);
    else if (!strcmp(verb, "LOOK")) look();
    else if (!strcmp(verb, "GIVE") || !strcmp(verb, "NEXT")) give((size_t)strtoul(operand, NULL, 10));
    else if (!strcmp(verb, "TAKE")) take(operand);
    else if (!strcmp(verb, "END")) end();
    else if (!strcmp(verb, "SETTLE")) say(dasd_drive_settle(&drive), "OK");
    else if (!strcmp(verb, "PHASE")) show_phase();
    else if (!strcmp(verb, "STATE")) show_state();
    else if (!strcmp(verb, "RELEASE")) release();
    else printf("NO such verb\n");
}

static void answer(char *line) {
    const char *first = strtok(line, " \n"), *second = strtok(NULL, " \n"), *third = strtok(NULL, " \n");
    if (!first) return;
    if (!strcmp(first, "FILE") && third) {
        free(file);
        file = bytes_of(third, &file_len);
        puts("OK");
    } else if (!strcmp(first, "FAIL") && third && !strcmp(third, "0")) puts("OK"); /* no call of a file in memory fails */
    else if (!strcmp(first, "CONTENT")) say_bytes("CONTENT", file, file_len);
    else if (!strcmp(first, "DRIVE") && second) call_drive(second, third ? third : "");
    else puts("NO such line");
    fflush(stdout);
}

int main(void) {
    char *line = NULL;
    size_t room = 0;
    while (getline(&line, &room, stdin) > 0) answer(line);
    free(line);
    free(file);
    dasd_drive_free(&drive);
    return 0;
}
