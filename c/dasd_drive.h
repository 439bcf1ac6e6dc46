/* dasd_drive.h - one IBM 2311 or 2314 drive without a channel, for emulators that have channels of their own.
 *
 * A `dasd_drive_alone` is a handle of 16 bytes that the caller owns. It holds one drive and its volume, an uncompressed CKD_P370 image in
 * memory. The caller's channel fetches command words and moves bytes; the drive is given a command code, and says what it wants next:
 *
 *     dasd_drive_alone d = DASD_DRIVE_NOTHING;
 *     dasd_drive_next_bytes n;
 *     if (dasd_drive_attach_new(&d, 2314, 203) < 0) ...
 *     dasd_drive_begin_program(&d);                           a chain of commands begins
 *     if (dasd_drive_begin(&d, 0x06) == DASD_DRIVE_STARTED)   Read Data
 *         while (dasd_drive_next(&d, &n) == DASD_DRIVE_LOOKING) dasd_drive_look(&d);
 *     ...
 *     dasd_drive_free(&d);
 *
 * A COMMAND goes by its phase, which dasd_drive_next answers: it is begun where the drive is idle; it is looked for while it looks for its
 * area, each answer being an index that passed, an area that was found, or a failure; bytes are given or taken, in pieces of any length;
 * and it is ended, whenever the channel's count is exhausted or no more bytes are left. A look is allowed while bytes pass, too: it says
 * again how many more may pass. Write Count, Key and Data asks for eight bytes of count first, and for key and data once these came.
 * What is not allowed now is refused by its name, and nothing has changed.
 *
 * WHAT A CALL ANSWERS, WHAT NO CALL DOES and WHAT THE CALLER OWES are as in dasd.h: zero or above, it was done; below zero, one of
 * `enum dasd_fault` or of `enum dasd_drive_fault`, and nothing has changed, nor has what a pointer leads to. On a handle that holds nothing
 * every call but the two that attach answers DASD_NOTHING_HELD, before anything else. Only these two and dasd_drive_copy take memory. Its
 * calls are in libdasd_drive.a; a program that has a subsystem of dasd.h too links both libraries.
 *
 * Rules that come from a manual name it: 'CD' are the IBM component descriptions of the 2841 (A26-5988) and of the 2314 (A26-3599).
 *
 * Made by tools/run make/interface of c/interface.toml. */
#ifndef DASD_DRIVE_H
#define DASD_DRIVE_H

#include "dasd.h" /* dasd_file, and the names of faults that are the same */

#ifdef __cplusplus
extern "C" {
#endif

/* The handle. Its fields are the library's. */
typedef struct dasd_drive_alone {
    uint64_t stamp;
    void *place;
} dasd_drive_alone;

/* A handle that holds nothing. */
#define DASD_DRIVE_NOTHING \
    { 0, NULL }

enum dasd_drive_fault {
    DASD_COMMAND_OPEN = -48, /* a command is open: it wants its end, or to be cut by dasd_drive_settle */
    DASD_NO_COMMAND = -49,   /* no command works: there is nothing to look for */
    DASD_NO_END = -50,       /* no command is open, or it still looks for its area */
    DASD_GIVES_NONE = -51,   /* the drive gives no bytes now */
    DASD_TAKES_NONE = -52,   /* the drive takes no bytes now */
    DASD_TOO_MANY = -53,     /* so many bytes may not pass now: dasd_drive_next says how many may */
    DASD_BYTES_PASSED = -54, /* bytes of the command have passed: it wants its end */
    DASD_NOT_SAVED = -55,    /* the track under the arm was written, and is not in the volume's file yet: dasd_drive_settle */
    DASD_OTHER_LENGTH = -56  /* the volume's file has another length: dasd_drive_show_file says which */
};

/* --- Attached and given back --- */

/* Makes the handle hold a drive over the volume of this file, `len` bytes, which is a whole image in one file. They are copied: the
 * caller's bytes are free afterwards. The arm is at cylinder 0 and head 0, and the sense bytes are zero. DASD_IN_USE; why the file is no
 * image, DASD_NOT_CKD_P370 to DASD_LENGTH; DASD_NO_MEMORY. */
int32_t dasd_drive_attach(dasd_drive_alone *d, const uint8_t *file, size_t len);

/* The same with a new volume: so many cylinders of this model, 2311 or 2314, whose tracks have a home address and record 0.
 * DASD_IN_USE, DASD_BAD_MODEL, DASD_NO_CYLINDERS, DASD_NO_MEMORY. */
int32_t dasd_drive_attach_new(dasd_drive_alone *d, uint16_t model, uint16_t cylinders);

/* Shows the file of the volume (`dasd_file` of dasd.h), to be saved, where no command is open and no track waits to be saved: so call
 * dasd_drive_settle before. The bytes are there until the next call of the drive that is none of dasd_drive_next,
 * dasd_drive_next_changed and the two that show. `changes` is another number after each write to the file. DASD_COMMAND_OPEN, DASD_NOT_SAVED. */
int32_t dasd_drive_show_file(dasd_drive_alone *d, dasd_file *shown);

/* Shows the first track of the volume's file, from number `next` of it on, that was written since the file's `changes` was `since`, as
 * dasd_next_changed of dasd.h does: 1, or 0 where there is none, and `track` stays. It keeps no list that the caller would have to clear.
 * DASD_COMMAND_OPEN, DASD_NOT_SAVED. */
int32_t dasd_drive_next_changed(dasd_drive_alone *d, uint64_t since, dasd_changed *track);

/* Gives the volume back: copies its file, with all that was written, to `into`, which has just its length, and frees the drive. The handle
 * holds nothing then. DASD_COMMAND_OPEN, DASD_NOT_SAVED, DASD_OTHER_LENGTH. */
int32_t dasd_drive_give_back(dasd_drive_alone *d, uint8_t *into, size_t len);

/* Makes `copy`, a handle that holds nothing, hold a second drive that is as this one is, also in the middle of a command, with its volume.
 * Whatever is called of both from then on is answered alike, and no call of one changes the other. It costs what copying the volume does.
 * DASD_IN_USE, `copy` holds something; DASD_NO_MEMORY. Where it is refused both are as they were. */
int32_t dasd_drive_copy(dasd_drive_alone *d, dasd_drive_alone *copy);

/* How many bytes a saved drive has. */
#define DASD_DRIVE_SAVED 15u

/* Saves what the drive is between two programs, for a file: the cylinder, the head and the sense bytes. The volume's file is not in it: save
 * it beside it. The first DASD_DRIVE_SAVED of `len` bytes are written, and `written` is DASD_DRIVE_SAVED. DASD_COMMAND_OPEN; DASD_NOT_SAVED;
 * DASD_PROGRAM_RUNS, the drive remembers a file mask, a place on the track or what a search found: call dasd_drive_begin_program where the
 * program is over; DASD_NO_ROOM, `len` is less than DASD_DRIVE_SAVED. docs/DRIVE.md has the format. */
int32_t dasd_drive_save(dasd_drive_alone *d, uint8_t *into, size_t len, size_t *written);

/* Makes the drive what was saved, with what it remembers of a program lost. Its volume stays, and has the track where the arm was. The bytes may
 * come from a stranger: whatever they are, the drive is sound afterwards. DASD_COMMAND_OPEN, DASD_NOT_SAVED; DASD_NO_SAVED_STATE,
 * DASD_OTHER_VERSION, DASD_SAVED_LENGTH, DASD_NO_TRACK. */
int32_t dasd_drive_restore(dasd_drive_alone *d, const uint8_t *from, size_t len);

/* Frees the drive and its volume, whether it was saved or not. The handle holds nothing then. */
int32_t dasd_drive_free(dasd_drive_alone *d);

/* --- A command --- */

/* A channel program begins, that is a Start I/O was accepted: the track is at its index, the file mask is 00 and none was set, and no
 * command went before. Cylinder, head and sense stay, and a track that was written stays to be saved. DASD_COMMAND_OPEN. */
int32_t dasd_drive_begin_program(dasd_drive_alone *d);

/* What a command code led to. */
enum dasd_drive_begun {
    DASD_DRIVE_REJECTED = 0,  /* it is not begun: the sense bytes say why, and the channel ends with unit check */
    DASD_DRIVE_IMMEDIATE = 1, /* it is over, and wants its end: no byte passes */
    DASD_DRIVE_STARTED = 2    /* it works */
};

/* Begins the command of this code: enum dasd_drive_begun. It is rejected where there is no such command, where the file mask or the
 * sequence of commands does not allow it, and where a written track could not be saved as the arm leaves it (CD, the sections of the
 * commands). Test I/O and Transfer in Channel are the channel's own, and no commands of a drive. DASD_COMMAND_OPEN. */
int32_t dasd_drive_begin(dasd_drive_alone *d, uint8_t code);

/* How far the command is. */
enum dasd_drive_phase {
    DASD_DRIVE_IDLE = 0,    /* no command is open: begin */
    DASD_DRIVE_OVER = 1,    /* a command is over: end */
    DASD_DRIVE_LOOKING = 2, /* it looks for its area: look */
    DASD_DRIVE_GIVES = 3,   /* it gives bytes: give, or end */
    DASD_DRIVE_TAKES = 4    /* it takes bytes: take, and look where none is left; or end */
};

/* Where bytes pass: how many have, and how many more may by what the last look allowed. Else zeros. */
typedef struct dasd_drive_next_bytes {
    size_t passed, left;
} dasd_drive_next_bytes;

/* Says what the drive wants next: enum dasd_drive_phase. */
int32_t dasd_drive_next(dasd_drive_alone *d, dasd_drive_next_bytes *next);

/* What a look led to. */
enum dasd_drive_look {
    DASD_DRIVE_FAILED = 0, /* the command is over: the sense bytes say why */
    DASD_DRIVE_PASSED = 1, /* the index passed: look again */
    DASD_DRIVE_READY = 2   /* the area is found: bytes may pass */
};

/* Looks at the track under the arm for the area of the command: enum dasd_drive_look. In time it is at most what is left of a turn. A
 * search or a read with the multi-track bit goes on at the next head (CD, 'Multiple-Track Operation'). DASD_NO_COMMAND. */
int32_t dasd_drive_look(dasd_drive_alone *d);

/* Gives the next `len` bytes of a read or of Sense, none too. DASD_GIVES_NONE, DASD_TOO_MANY. */
int32_t dasd_drive_give(dasd_drive_alone *d, uint8_t *into, size_t len);

/* Takes the next `len` bytes of any other command, none too: those of a write, a search, a seek address, a file mask. DASD_TAKES_NONE,
 * DASD_TOO_MANY. */
int32_t dasd_drive_take(dasd_drive_alone *d, const uint8_t *bytes, size_t len);

/* Ends the command by the bytes that have passed, however few they are, and answers its unit status, 0 to 255: the low byte of what the
 * channel stores. Channel end without device end, 08, says that the arm still moves: it is at its new cylinder already (dasd_drive_show),
 * and the caller's clock says when device end comes. Status modifier, 40, says that a search is satisfied: the channel skips the next
 * word. A search that was given fewer bytes than its area has compares these; a write that was given fewer fills up with zeros; a
 * seek address, a file mask, a home address or a count that is cut short is a command reject. DASD_NO_END. */
int32_t dasd_drive_end(dasd_drive_alone *d);

/* Saves the track under the arm, if it was written; a command of which no byte has passed is open no more. For the end of a channel
 * program, a halt, a reset, and before the file is shown or given back; a track is saved by itself when the arm leaves it. 0; or 1, where
 * it could not be saved, which no file in memory does. DASD_BYTES_PASSED. */
int32_t dasd_drive_settle(dasd_drive_alone *d);

/* What a word answers whose command is not ended. */
enum dasd_drive_done {
    DASD_DRIVE_STAYS_OPEN = 256 /* more of its bytes may pass: the next word goes on; or it still looks, which 255 looks did not end */
};

/* A command word for dasd_drive_do. */
typedef struct dasd_drive_word {
    size_t moved;        /* answered: how many of the bytes passed */
    size_t left;         /* answered: how many more of the command's bytes may, by the last look */
    uint8_t code;        /* the command's code */
    uint8_t begun;       /* 0: begin the command; else go on with it. Answered: enum dasd_drive_begun; it stays where the word goes on */
    uint8_t chains;      /* 1: the next word goes on with the command, if more of its bytes may pass then: data is chained */
    uint8_t reserved[5]; /* kept */
} dasd_drive_word;

/* Does a whole word in one call, and exactly what these calls do one after another: dasd_drive_begin; dasd_drive_look until the area is
 * found, or the command is over; dasd_drive_give or dasd_drive_take of as many of the `len` bytes as may pass, and where a command has taken
 * all that it may, a look and once more the bytes that are left: the key and data of a formatting write; and dasd_drive_end, unless more
 * bytes may pass and `chains` says that the next word has them. Answers the unit status, 0 to 255, as dasd_drive_end does, and 0E of a
 * command that is rejected; or DASD_DRIVE_STAYS_OPEN. Bytes that the drive takes stay as they are. A word that chains data, and the next:
 *
 *     dasd_drive_word w = {0, 0, 0x06, 0, 1, {0}};
 *     int32_t status = dasd_drive_do(&d, &w, first, 100);    Read Data
 *     w.chains = 0;
 *     if (status == DASD_DRIVE_STAYS_OPEN) status = dasd_drive_do(&d, &w, second, 200);
 *
 * DASD_COMMAND_OPEN, where it begins a command; DASD_NO_COMMAND, where it goes on and none is open. */
int32_t dasd_drive_do(dasd_drive_alone *d, dasd_drive_word *word, uint8_t *bytes, size_t len);

/* --- Sense, and the arm --- */

/* What is known of a drive beside the command at hand. */
typedef struct dasd_drive_seen {
    uint16_t model;     /* 2311 or 2314 */
    uint16_t cylinders; /* how many its volume has */
    uint16_t cylinder;  /* where its arm is or, in motion, goes */
    uint16_t head;
    uint8_t written;  /* 1: the track there was written, and is not in the volume's file yet */
    uint8_t sense[6]; /* the sense bytes; they stay. Sense, 04, gives them too, as a command */
    uint8_t reserved; /* 0 */
} dasd_drive_seen;

/* Shows the drive. */
int32_t dasd_drive_show(dasd_drive_alone *d, dasd_drive_seen *shown);

/* Makes the sense bytes zero, as a reset does. DASD_COMMAND_OPEN. */
int32_t dasd_drive_clear_sense(dasd_drive_alone *d);

#ifdef __cplusplus
}
#endif
#endif
