/* dasd.h - selector channels with IBM 2311 and 2314 drives, for emulators of the System/360.
 *
 * A `dasd` is a handle of 16 bytes that the caller owns. It holds main storage, with its keys, and one to seven selector channels over
 * it, each with up to eight drives, whose volumes are uncompressed CKD_P370 images in memory:
 *
 *     dasd d = DASD_NOTHING;
 *     if (dasd_new(&d, 65536, DASD_CHANNEL(1)) < 0) ...
 *     if (dasd_attach_new(&d, 0x190, 2314, 203) < 0) ...
 *     ...
 *     dasd_free(&d);
 *
 * WHAT A CALL ANSWERS. Zero or above: it was done. Below zero, one of `enum dasd_fault`: it was refused, and nothing has changed, nor
 * has what a pointer leads to. An instruction answers its condition code, 0 to 3, or that it was refused. Where the handle holds nothing
 * every call answers DASD_NOTHING_HELD before anything else, but those that make one; a call whose text names no fault answers no other.
 *
 * WHAT NO CALL DOES. None blocks, starts a thread, opens a file, prints, or calls back. Only dasd_new, dasd_new_lent, dasd_copy,
 * dasd_attach, dasd_attach_new, dasd_check, dasd_files_new, dasd_attach_files and dasd_detach_files take memory, by malloc, and want of
 * it is an ordinary fault.
 *
 * WHAT THE CALLER OWES, and nothing checks:
 *   1. A pointer leads to a value of its type, and a pointer and a length to so many bytes. No two arguments of a call overlap, and
 *      none lies in the main storage or in a volume's file that a call has shown. A pointer to bytes may be null where there are
 *      none, and then counts as none ('No bytes', below); no other pointer is null.
 *   2. A handle is DASD_NOTHING before its first use, and its fields are left alone. While it holds something it may be moved: its bytes
 *      are copied, and the old ones no longer used, or made DASD_NOTHING. A second one of the same is made by dasd_copy alone.
 *   3. A handle is in one call at a time, also where the call takes it as `const`. Between two calls it may go to another thread, by
 *      whatever orders the two: a lock, the start of a thread, a join. Two handles have nothing in common.
 *   4. malloc, realloc and free are one allocator. No call is made in a signal handler.
 *   5. What a call shows is used no longer than that call's text says.
 *
 * A CALL THAT ASKS takes its handle as `const dasd *`: whatever it answers, the handle holds after it what it held before. While it
 * runs it writes the handle's own bytes, and puts them back: so a handle is never defined `const`, and rule 3 is for these calls too.
 *
 * AN ADDRESS is that of the System/360: the channel's number is the high byte, and the low byte is the drive's (190 is drive 90 of
 * channel 1). A SET OF CHANNELS is the first byte of a program status word, the system mask: bit 0, the highest, is channel 0, and
 * bit 6 channel 6; DASD_CHANNEL makes a bit of a number. A UNIT is a step of a channel program: a channel command word that is
 * fetched, an index that passes, a byte that moves, an end.
 *
 * SEVERAL CHANNELS share main storage, and nothing else. A call for an address or a number is made at that channel, which finds
 * storage as it is and leaves in it what it stored; every other channel stays. So to the program of one channel, what the others
 * store is a change from outside between two of its units, as what the processor stores is.
 *
 * Rules that come from a manual name it: 'PoO' is IBM System/360 Principles of Operation, A22-6821.
 *
 * Made by tools/run make/interface of c/interface.toml. */
#ifndef DASD_H
#define DASD_H

#include <stddef.h>
#include <stdint.h>

#ifdef __cplusplus
extern "C" {
#endif

/* The version of this header: major, minor, patch; and in a number, 16 bits, 8 and 8. dasd_version answers the library's. */
#define DASD_VERSION "1.2.0"
#define DASD_VERSION_NUMBER 0x010200u

/* The number of the binary interface. dasd_interface answers the library's; a program and a library of one number fit together. */
#define DASD_INTERFACE 1u

/* The handle. Its fields are the library's. */
typedef struct dasd {
    uint64_t stamp;
    void *place;
} dasd;

/* A handle that holds nothing. */
#define DASD_NOTHING \
    { 0, NULL }

/* The bit of a channel in a set of channels. */
#define DASD_CHANNEL(number) (0x80 >> (number))

enum dasd_fault {
    DASD_DONE = 0,
    DASD_NOTHING_HELD = -1,     /* the handle holds nothing: it was not made, or was freed */
    DASD_IN_USE = -2,           /* the handle holds something already */
    DASD_NO_MEMORY = -3,        /* memory was refused */
    DASD_OUTSIDE_STORAGE = -4,  /* a byte lies outside main storage */
    DASD_BAD_SIZE = -5,         /* storage has a multiple of 2,048 bytes, from 4,096 to 16,777,216 */
    DASD_BAD_CHANNELS = -6,     /* the set is not one of the channels 0 to 6 */
    DASD_BAD_KEY = -7,          /* a storage key is 0 to 15 */
    DASD_BAD_MODEL = -8,        /* a drive's model is 2311 or 2314 */
    DASD_NO_CYLINDERS = -9,     /* a volume has 1 to 65,535 cylinders */
    DASD_NO_CHANNEL = -10,      /* there is no channel of this number */
    DASD_NO_DRIVE = -11,        /* no drive with this address is attached */
    DASD_ADDRESS_TAKEN = -12,   /* a drive with this address is attached */
    DASD_FULL = -13,            /* eight drives are attached to this channel */
    DASD_NO_FILES = -14,        /* an image has at least one file */
    DASD_TOO_MANY_FILES = -15,  /* an image has at most eight files */
    DASD_NO_FILE = -16,         /* the drive's image has no such file */
    DASD_PROGRAM_RUNS = -17,    /* a channel program runs */
    DASD_ENDING_PENDS = -18,    /* the channel status word of this drive's program is not yet stored */
    DASD_DEVICE_END_OWED = -19, /* this drive's arm moves, or has arrived and has not interrupted */
    DASD_NO_STORAGE = -20,      /* the handle owns no main storage: each call is lent it */
    DASD_BAD_BLOCKS = -21,      /* main storage has one key for each block of 2,048 bytes */
    DASD_OTHER_SIZE = -22,      /* the channels are for main storage of another size */
    DASD_NO_PROGRAM = -23,      /* no channel program runs on this channel */
    DASD_NO_ROOM = -24,         /* what is to be written may have more bytes than there is room for */
    DASD_BAD_MOMENT = -25,      /* there is no such moment, or its call answers no such thing */
    DASD_BAD_UNTIL = -26,       /* nothing is waited for by such a bit */
    DASD_NOT_OWED = -27,        /* a saved channel status word is no ending that its channel owes */
    /* Why files are no image, in the order in which they are looked at: */
    DASD_NOT_CKD_P370 = -32, /* not a CKD_P370 image */
    DASD_COMPRESSED = -33,   /* a compressed image, or a shadow file */
    DASD_DEVICE_TYPE = -34,  /* neither a 2311 nor a 2314 */
    DASD_HEADS = -35,        /* the number of heads is not the drive's */
    DASD_TRACK_SIZE = -36,   /* a track of the drive may not fit the track size */
    DASD_SPLIT = -37,        /* the files are not those of one image, in order */
    DASD_LENGTH = -38,       /* a file's length is not that of an image */
    DASD_STORE = -39,        /* a file could not be read or written; no file in memory does so */
    /* Why a saved state is not restored, in the order in which it is looked at, DASD_PROGRAM_RUNS before DASD_OTHER_DRIVES, and DASD_NOT_OWED
     * last: */
    DASD_NO_SAVED_STATE = -40, /* not a saved state */
    DASD_OTHER_VERSION = -41,  /* a saved state of another version */
    DASD_SAVED_LENGTH = -42,   /* a saved state that is cut short, or too long */
    DASD_SAVED_SUM = -43,      /* a saved state that was changed: its checksum does not fit */
    DASD_NOT_SOUND = -44,      /* a field of a saved state has a value that none has */
    DASD_OTHER_CHANNELS = -45, /* a saved state of other channels */
    DASD_OTHER_DRIVES = -46,   /* a saved state of a channel with other drives */
    DASD_NO_TRACK = -47        /* a drive was saved at a track that its volume does not have */
};

/* The sentence of a number of enum dasd_fault, as it is there; of DASD_DONE that it was done, and of a number that is none of them that it
 * is no fault. The text stays. It is the header's own: the library exports no such name. */
static inline const char *dasd_fault_text(int32_t code) {
    switch (code) {
    case DASD_DONE: return "it was done";
    case DASD_NOTHING_HELD: return "the handle holds nothing: it was not made, or was freed";
    case DASD_IN_USE: return "the handle holds something already";
    case DASD_NO_MEMORY: return "memory was refused";
    case DASD_OUTSIDE_STORAGE: return "a byte lies outside main storage";
    case DASD_BAD_SIZE: return "storage has a multiple of 2,048 bytes, from 4,096 to 16,777,216";
    case DASD_BAD_CHANNELS: return "the set is not one of the channels 0 to 6";
    case DASD_BAD_KEY: return "a storage key is 0 to 15";
    case DASD_BAD_MODEL: return "a drive's model is 2311 or 2314";
    case DASD_NO_CYLINDERS: return "a volume has 1 to 65,535 cylinders";
    case DASD_NO_CHANNEL: return "there is no channel of this number";
    case DASD_NO_DRIVE: return "no drive with this address is attached";
    case DASD_ADDRESS_TAKEN: return "a drive with this address is attached";
    case DASD_FULL: return "eight drives are attached to this channel";
    case DASD_NO_FILES: return "an image has at least one file";
    case DASD_TOO_MANY_FILES: return "an image has at most eight files";
    case DASD_NO_FILE: return "the drive's image has no such file";
    case DASD_PROGRAM_RUNS: return "a channel program runs";
    case DASD_ENDING_PENDS: return "the channel status word of this drive's program is not yet stored";
    case DASD_DEVICE_END_OWED: return "this drive's arm moves, or has arrived and has not interrupted";
    case DASD_NO_STORAGE: return "the handle owns no main storage: each call is lent it";
    case DASD_BAD_BLOCKS: return "main storage has one key for each block of 2,048 bytes";
    case DASD_OTHER_SIZE: return "the channels are for main storage of another size";
    case DASD_NO_PROGRAM: return "no channel program runs on this channel";
    case DASD_NO_ROOM: return "what is to be written may have more bytes than there is room for";
    case DASD_BAD_MOMENT: return "there is no such moment, or its call answers no such thing";
    case DASD_BAD_UNTIL: return "nothing is waited for by such a bit";
    case DASD_NOT_OWED: return "a saved channel status word is no ending that its channel owes";
    case DASD_NOT_CKD_P370: return "not a CKD_P370 image";
    case DASD_COMPRESSED: return "a compressed image, or a shadow file";
    case DASD_DEVICE_TYPE: return "neither a 2311 nor a 2314";
    case DASD_HEADS: return "the number of heads is not the drive's";
    case DASD_TRACK_SIZE: return "a track of the drive may not fit the track size";
    case DASD_SPLIT: return "the files are not those of one image, in order";
    case DASD_LENGTH: return "a file's length is not that of an image";
    case DASD_STORE: return "a file could not be read or written; no file in memory does so";
    case DASD_NO_SAVED_STATE: return "not a saved state";
    case DASD_OTHER_VERSION: return "a saved state of another version";
    case DASD_SAVED_LENGTH: return "a saved state that is cut short, or too long";
    case DASD_SAVED_SUM: return "a saved state that was changed: its checksum does not fit";
    case DASD_NOT_SOUND: return "a field of a saved state has a value that none has";
    case DASD_OTHER_CHANNELS: return "a saved state of other channels";
    case DASD_OTHER_DRIVES: return "a saved state of a channel with other drives";
    case DASD_NO_TRACK: return "a drive was saved at a track that its volume does not have";
    default: return "no fault of this library";
    }
}

/* --- Structs with a size ---
 *
 * A dasd_program, a dasd_registers and a dasd_progress may get fields after those of today. So the library is told how many bytes such a
 * struct has, by the calls of the header that answer one: it writes the fields that it knows, as far as they have room, and zeros after
 * them. A program goes on with a newer library, which leaves out what the program's struct has not; and with an older one of this
 * interface, from which newer fields are zero. These are the library's own calls, for those who bind it without the header: `shown` and
 * `ran` lead to `size` bytes, a struct's, whose numbers have the lowest byte first, and no bytes lie between its fields. */

/* What dasd_run_until is asked for. */
typedef struct dasd_wanted {
    uint32_t units;      /* how many at most */
    uint8_t channel;     /* the channel's number */
    uint8_t until;       /* bits of enum dasd_until */
    uint8_t reserved[2]; /* not looked at */
} dasd_wanted;

int32_t dasd_show_program_sized(const dasd *d, uint8_t channel, uint8_t *shown, size_t size);
int32_t dasd_show_registers_sized(const dasd *d, uint8_t channel, uint8_t *shown, size_t size);
int32_t dasd_run_until_sized(dasd *d, const dasd_wanted *wanted, uint8_t *ran, size_t size);

/* The version of the library, as DASD_VERSION_NUMBER; and the number of its binary interface. */
uint32_t dasd_version(void);
uint32_t dasd_interface(void);

/* --- Making and freeing --- */

/* Makes main storage of so many bytes, all zero and with keys 0, and the channels of this set over it, without drives. The set has one
 * to seven of the channels 0 to 6, and not bit 7, which is no channel's. Main storage is there once, for all of them.
 * DASD_IN_USE, DASD_BAD_CHANNELS, DASD_BAD_SIZE, DASD_NO_MEMORY. It does not answer DASD_NOTHING_HELD. */
int32_t dasd_new(dasd *d, uint32_t storage_bytes, uint8_t channels);

/* Makes `copy`, a handle that holds nothing, hold a second of all that this one holds, as it is between two calls, also in the middle of
 * channel programs: main storage and its keys, where they are the handle's; what each channel runs, what pends, and what arms do; the
 * drives with their sense bytes; and their volumes. Whatever is called of both from then on is answered alike, over memory with the same
 * bytes and keys where it is lent, and no call of one changes the other. So a program is stepped backwards, or tried and gone back to. It
 * costs what copying all volumes does. DASD_IN_USE, `copy` holds something; DASD_NO_MEMORY. Where it is refused both are as they were. */
int32_t dasd_copy(const dasd *d, dasd *copy);

/* How many bytes a saved state has. */
#define DASD_SAVED 538u

/* Saves what the channels are between two programs, for a file: of each channel the channel status word that pends, if one does, and of
 * each drive what its arm does, the cylinder, the head and the sense bytes. Main storage, keys and the volumes' files are not in it: save
 * them beside it. The first DASD_SAVED of `len` bytes are written, and `written` is DASD_SAVED. DASD_PROGRAM_RUNS, a channel's program
 * runs: run it on to its end, or halt it, and then save; DASD_NO_ROOM, `len` is less than DASD_SAVED. docs/EMBEDDING.md has the format. */
int32_t dasd_save(const dasd *d, uint8_t *into, size_t len, size_t *written);

/* Restores what was saved, where no program runs: the handle has channels of the same numbers, each with drives of the same addresses, in
 * any order, whose volumes have the tracks where the arms were. What pends and what arms do now is lost. All is restored or nothing, and the
 * bytes may come from a stranger: whatever they are, the channels are sound afterwards. DASD_NO_SAVED_STATE, DASD_OTHER_VERSION,
 * DASD_SAVED_LENGTH, DASD_SAVED_SUM, DASD_NOT_SOUND; then, channel by channel, DASD_OTHER_CHANNELS, DASD_PROGRAM_RUNS, DASD_OTHER_DRIVES,
 * DASD_NO_TRACK, DASD_NOT_OWED. */
int32_t dasd_restore(dasd *d, const uint8_t *from, size_t len);

/* Frees all that the handle holds, its volumes too, whether they were saved or not. The handle holds nothing then. */
int32_t dasd_free(dasd *d);

/* --- Volumes and drives --- */

/* The bytes of a file, to be read. */
typedef struct dasd_bytes {
    const uint8_t *at;
    size_t len;
} dasd_bytes;

/* Whether these files, one to eight in their order, are an image: what dasd_attach would find. It needs no handle, and memory for a
 * copy while it looks. DASD_NO_FILES, DASD_TOO_MANY_FILES, DASD_NO_MEMORY, and why they are none, DASD_NOT_CKD_P370 to DASD_LENGTH. */
int32_t dasd_check(const dasd_bytes *files, size_t count);

/* Attaches a drive under an address, with the volume that these files, one to eight in their order, hold. They are copied: the
 * caller's bytes are free afterwards (dasd_attach_files copies none). The arm is at rest at cylinder 0 and head 0, and the sense bytes are zero.
 * Also while a program runs. DASD_NO_CHANNEL, DASD_NO_FILES, DASD_TOO_MANY_FILES, DASD_NO_MEMORY, DASD_NOT_CKD_P370 to DASD_LENGTH,
 * DASD_ADDRESS_TAKEN, DASD_FULL. */
int32_t dasd_attach(dasd *d, uint16_t address, const dasd_bytes *files, size_t count);

/* The same with a new volume in one file: so many cylinders of this model, 2311 or 2314, whose tracks have a home address and record 0.
 * DASD_BAD_MODEL, DASD_NO_CHANNEL, DASD_NO_CYLINDERS, DASD_NO_MEMORY, DASD_ADDRESS_TAKEN, DASD_FULL. */
int32_t dasd_attach_new(dasd *d, uint16_t address, uint16_t model, uint16_t cylinders);

/* Takes a drive off its channel. Its volume is freed, so save it first, or keep it by dasd_detach_files. The other drives and the channel
 * stay.
 * DASD_NO_CHANNEL, DASD_NO_DRIVE, DASD_PROGRAM_RUNS, DASD_ENDING_PENDS, DASD_DEVICE_END_OWED. */
int32_t dasd_detach(dasd *d, uint16_t address);

/* A file of a volume, to be saved: `len` bytes at `at`. `changes` is another number after each write to it, also of bytes that stood
 * there already. */
typedef struct dasd_file {
    const uint8_t *at;
    size_t len;
    uint64_t changes;
} dasd_file;

/* Shows a file of a drive's volume, 0 for its first, where the drive's program does not run: that of another drive may. All that the
 * drive's programs wrote is in it. The bytes are there, and are the volume's, until the next dasd_step, dasd_run_on, dasd_run_until,
 * dasd_hio or dasd_reset of that channel, dasd_detach, dasd_detach_files or dasd_free. DASD_NO_CHANNEL, DASD_PROGRAM_RUNS, DASD_NO_DRIVE,
 * DASD_NO_FILE. */
int32_t dasd_show_file(const dasd *d, uint16_t address, uint8_t file, dasd_file *shown);

/* A track of a file that was written, and where its slot lies there. */
typedef struct dasd_changed {
    size_t at;    /* where the slot begins in the file */
    size_t len;   /* how many bytes it has */
    size_t track; /* the track's number among those of the file, from 0 on: cylinder by cylinder, and head by head */
    size_t next;  /* the number of the track at which the next look begins: 0 before the first call */
} dasd_changed;

/* Shows the first track of a file, from number `next` of it on, that was written since the file's `changes` was `since`: 1, and `track`
 * names it, with `next` after it; or 0, there is none, and `track` stays. Each byte of a track that is passed over is what it was when
 * the number was `since`, and so is the header, which no drive writes. So a copy of the file, made when the number was `since`, is the
 * file once each track that is shown was copied:
 *
 *     dasd_changed it = {0, 0, 0, 0};
 *     dasd_show_file(&d, 0x190, 0, &file);
 *     while (dasd_next_changed(&d, 0x190, 0, since, &it) == 1) pwrite(fd, file.at + it.at, it.len, (off_t)it.at);
 *     if (fsync(fd) == 0) since = file.changes;
 *
 * The number is the caller's to keep, and no call forgets what was written: where a write fails it stays, and the next time the same
 * tracks are shown, and those since. `since` is a number that dasd_show_file has shown of this file. A number above the file's own shows
 * all tracks. A new volume's file is copied whole before all that: dasd_attach_new wrote it. Where dasd_show_file would be refused:
 * DASD_NO_CHANNEL, DASD_PROGRAM_RUNS, DASD_NO_DRIVE, DASD_NO_FILE. */
int32_t dasd_next_changed(const dasd *d, uint16_t address, uint8_t file, uint64_t since, dasd_changed *track);

/* Files of a volume that no drive has: a handle too, of 16 bytes, for which all that is said of a `dasd` holds. The library takes the
 * memory for their bytes, the caller fills them where they lie, and a drive takes them over and gives them back: a volume is never there
 * twice, as it is for a while where dasd_attach copies it.
 *
 *     dasd_files f = DASD_NO_FILES_HELD;
 *     dasd_space space;
 *     size_t len = the file's length;
 *     if (dasd_files_new(&f, &len, 1) < 0 || dasd_files_show(&f, 0, &space) < 0) ...
 *     if (fread(space.at, 1, space.len, file) != space.len) ...
 *     if (dasd_attach_files(&d, 0x190, &f) < 0) dasd_files_free(&f); */
typedef struct dasd_files {
    uint64_t stamp;
    void *place;
} dasd_files;

/* A handle that holds no files. */
#define DASD_NO_FILES_HELD \
    { 0, NULL }

/* The bytes of a file that no drive has: `len` bytes at `at`. */
typedef struct dasd_space {
    uint8_t *at;
    size_t len;
} dasd_space;

/* Takes the memory for files of so many bytes each, one to eight of them, and fills it with zeros. `f` holds them then.
 * DASD_IN_USE, `f` holds files; DASD_NO_FILES, DASD_TOO_MANY_FILES, DASD_NO_MEMORY. It does not answer DASD_NOTHING_HELD. */
int32_t dasd_files_new(dasd_files *f, const size_t *lengths, size_t count);

/* Shows where a file lies, 0 for the first. Its bytes are the caller's to read and to write until dasd_attach_files takes them over,
 * or dasd_files_free. DASD_NO_FILE. */
int32_t dasd_files_show(const dasd_files *f, uint8_t file, dasd_space *shown);

/* Attaches a drive under an address, as dasd_attach does, with the volume that these files hold as their bytes are now. They are the
 * drive's from then on, and `f` holds nothing: none is copied, and memory is taken for the drive, and to keep which tracks are written,
 * alone. `changes` is counted from 0 again, also where the files were a drive's before: a number that was shown then says nothing now.
 * DASD_NOTHING_HELD, `d` or `f` does; then as dasd_attach: DASD_NO_CHANNEL, DASD_NO_MEMORY, DASD_NOT_CKD_P370 to DASD_LENGTH,
 * DASD_ADDRESS_TAKEN, DASD_FULL. Where it is refused `f` holds the files as they were. */
int32_t dasd_attach_files(dasd *d, uint16_t address, dasd_files *f);

/* Takes a drive off its channel, as dasd_detach does, and gives the files of its volume, with all that was written, to `f`, which held
 * nothing. They lie where they lay, and none is copied. DASD_IN_USE, `f` holds files; DASD_NO_MEMORY, a little is taken for `f`, before
 * the drive is looked for; DASD_NO_CHANNEL, DASD_NO_DRIVE, DASD_PROGRAM_RUNS, DASD_ENDING_PENDS, DASD_DEVICE_END_OWED. */
int32_t dasd_detach_files(dasd *d, uint16_t address, dasd_files *f);

/* Frees the files. The handle holds none then. */
int32_t dasd_files_free(dasd_files *f);

enum dasd_arm { DASD_AT_REST = 0, DASD_IN_MOTION = 1, DASD_ARRIVED = 2 };

/* What is known of a drive without a channel program. */
typedef struct dasd_drive {
    uint16_t model;     /* 2311 or 2314 */
    uint16_t cylinders; /* how many its volume has */
    uint16_t cylinder;  /* where its arm is or, in motion, goes */
    uint16_t head;
    uint8_t arm;      /* enum dasd_arm */
    uint8_t sense[6]; /* the sense bytes; they stay */
    uint8_t reserved; /* 0 */
} dasd_drive;

/* DASD_NO_CHANNEL, DASD_NO_DRIVE. */
int32_t dasd_show_drive(const dasd *d, uint16_t address, dasd_drive *shown);

/* --- The processor's instructions (PoO, 'Input/Output Instructions') ---
 *
 * Each answers the condition code. What an instruction stores, it stores in main storage: the channel status word at 64, or its status
 * bytes at 68. Where there is no channel of that number the code is 3. */

/* Start I/O: 0, the program that the channel address word at 72 leads to was accepted, and runs by dasd_step; 1, status was stored;
 * 2, the channel is busy; 3, no drive has this address. */
int32_t dasd_sio(dasd *d, uint16_t address);

/* Test I/O: 0, the drive is available; 1, a channel status word was stored; 2, the channel is busy; 3, no drive. */
int32_t dasd_tio(dasd *d, uint16_t address);

/* Halt I/O: 0, a channel status word pends, and stays; 1, nothing ran, and a status of zeros was stored; 2, the program that ran is
 * cut, and its channel status word pends; 3, no drive. */
int32_t dasd_hio(dasd *d, uint16_t address);

/* Test Channel, of the channel of an address: 0, it is available; 1, a channel status word pends; 2, a program runs; 3, no channel. */
int32_t dasd_tch(const dasd *d, uint16_t address);

/* --- What happens beside the processor --- */

enum dasd_subchannel { DASD_AVAILABLE = 0, DASD_WORKING = 1, DASD_ENDED = 2 };

/* Lets the program that runs on a channel do units until it ends, but so many at most, and says how many it did: fewer where it ended,
 * and none where none runs. DASD_NO_CHANNEL. */
int32_t dasd_step(dasd *d, uint8_t channel, uint32_t units, uint32_t *done);

/* What came of dasd_run_on. */
typedef struct dasd_run {
    uint32_t units;     /* how many were done */
    uint8_t subchannel; /* enum dasd_subchannel after them: DASD_WORKING, the program goes on; DASD_ENDED, it has ended */
    uint8_t device;     /* the low byte of the address whose program that is; 0 for DASD_AVAILABLE */
    uint8_t asked;      /* 1: a word of the program asked for an interruption that is not yet taken */
    uint8_t reserved;   /* 0 */
} dasd_run;

/* The same, with what the channel does after it. DASD_NO_CHANNEL. */
int32_t dasd_run_on(dasd *d, uint8_t channel, uint32_t units, dasd_run *ran);

/* What dasd_run_until waits for: bits. */
enum dasd_until {
    DASD_UNTIL_ASKED = 1,    /* a word asks for an interruption (PCI), where none was asked for that is not yet taken */
    DASD_UNTIL_CYLINDER = 2, /* the arm is at another cylinder */
    DASD_UNTIL_TRACK = 4     /* the arm is at another cylinder, or another head is selected */
};

/* What came of dasd_run_until. */
typedef struct dasd_progress {
    uint64_t cylinders;  /* how many cylinders the arm crossed, in all its moves */
    uint32_t units;      /* how many units were done */
    uint32_t bytes;      /* how many bytes moved between drive and channel; a byte that is read and skipped is one */
    uint32_t indexes;    /* how often the index passed a command that looked for its area, also one that found none */
    uint32_t stored;     /* how many bytes were stored into main storage */
    uint32_t low;        /* the lowest address that was stored into; where none was, 0 */
    uint32_t high;       /* the highest */
    uint8_t subchannel;  /* enum dasd_subchannel after them, as dasd_run_on tells it */
    uint8_t device;      /* the low byte of the address whose program that is; 0 for DASD_AVAILABLE */
    uint8_t asked;       /* 1: a word of the program asked for an interruption that is not yet taken */
    uint8_t stopped;     /* what happened in the last unit of what was waited for: bits of enum dasd_until; 0, nothing did */
    uint8_t reserved[4]; /* 0 */
} dasd_progress;

/* Lets the program that runs on a channel do units as dasd_run_on, and ends also after the first that brings what is waited for, a set of
 * bits of enum dasd_until: so an emulator that goes by events has each in its time. With no bits it is dasd_run_on with counts. It looks at
 * the channel after each unit: where nothing is waited for or counted, dasd_run_on costs less. The first word of a program is fetched by
 * Start I/O: what that asks for pends before any of these units. DASD_BAD_UNTIL, DASD_NO_CHANNEL. */
static inline int32_t dasd_run_until(dasd *d, uint8_t channel, uint32_t units, uint8_t until, dasd_progress *ran) {
    dasd_wanted wanted = {units, channel, until, {0, 0}};
    return dasd_run_until_sized(d, &wanted, (uint8_t *)ran, sizeof *ran);
}

/* The arm of the drive at an address has arrived: 1, if it moved, and its device end is to be stored; 0, if it did not, or there is no
 * such drive. The caller's clock says when. */
int32_t dasd_arrive(dasd *d, uint16_t address);

/* Whether dasd_interrupt would take an interruption from one of these channels now: 1 or 0. */
int32_t dasd_is_pending(const dasd *d, uint8_t channels);

/* The processor takes an interruption from a channel of this set: 1, its address is answered, and its channel status word is stored; 0,
 * there is none, and `address` stays. Of several channels that have one it is the channel with the lowest number; the others keep
 * theirs. For the set, give the system mask of the program status word (PoO, 'Input/Output Interruption'). */
int32_t dasd_interrupt(dasd *d, uint8_t channels, uint16_t *address);

/* A track that was written and could not be saved. */
typedef struct dasd_track {
    uint16_t address, cylinder, head;
} dasd_track;

/* Resets a channel and its drives, and no other channel: a program that runs is cut, what pends is lost, arms are at rest, sense bytes
 * are zero. 1, where a track that the program had written could not be saved, which `unsaved` names; else 0, and `unsaved` stays. No
 * file in memory refuses to be written. DASD_NO_CHANNEL. */
int32_t dasd_reset(dasd *d, uint8_t channel, dasd_track *unsaved);

/* A channel, as it is shown. */
typedef struct dasd_state {
    uint8_t subchannel; /* enum dasd_subchannel: available; a program runs; it ended, and its channel status word pends */
    uint8_t device;     /* the low byte of the address whose program runs or ended; else 0 */
    uint8_t asked;      /* 1: a word of the program asked for an interruption that is not yet taken */
    uint8_t drives;     /* how many drives are attached */
    uint8_t units[8];   /* the low bytes of their addresses, in the order of attachment; after them 0 */
    uint8_t arms[8];    /* enum dasd_arm of each */
} dasd_state;

/* DASD_NO_CHANNEL. */
int32_t dasd_show_channel(const dasd *d, uint8_t channel, dasd_state *shown);

/* What the next unit of a channel program does. */
enum dasd_phase {
    DASD_FETCHES = 0, /* it fetches a word that begins a command */
    DASD_LOOKS = 1,   /* it looks for the area of the command at work */
    DASD_MOVES = 2    /* it moves bytes */
};

/* A channel program that runs, as it is between two units. The word at work is the channel command word whose command has begun and has
 * not ended, or that its data are chained to; where a word is to be fetched that begins a command, its four fields are 0. */
typedef struct dasd_program {
    uint32_t last;    /* where the last word was whose fetch was tried */
    uint32_t next;    /* where the next word is */
    uint32_t address; /* the data address of the word at work */
    uint32_t place;   /* where its next byte goes or comes from; before the first that is its data address */
    uint16_t count;   /* its count */
    uint16_t left;    /* the count left in the last good word: the residual count of a channel status word */
    uint8_t device;   /* the low byte of the drive's address */
    uint8_t key;      /* the protection key of its stores, 0 to 15 */
    uint8_t phase;    /* enum dasd_phase */
    uint8_t asked;    /* 1: a word asked for an interruption that is not yet taken */
    uint8_t code;     /* the command code of the word at work */
    uint8_t flags;    /* its flags, the high five bits */
    uint8_t reserved[2];
} dasd_program;

/* Shows the program that runs on a channel. DASD_NO_CHANNEL; DASD_NO_PROGRAM, none runs, and `shown` stays. */
static inline int32_t dasd_show_program(const dasd *d, uint8_t channel, dasd_program *shown) {
    return dasd_show_program_sized(d, channel, (uint8_t *)shown, sizeof *shown);
}

/* An area of a track. */
enum dasd_area {
    DASD_INDEX = 0, /* none: none has passed since the index */
    DASD_HOME_ADDRESS = 1,
    DASD_COUNT = 2,
    DASD_KEY = 3,
    DASD_DATA = 4
};

/* What a command leaves for the very next one, between which Transfer In Channel may come. */
enum dasd_credit {
    DASD_NO_CREDIT = 0,
    DASD_EQUAL_HOME_ADDRESS = 1, /* a search found the whole of it equal */
    DASD_EQUAL_ID = 2,
    DASD_EQUAL_KEY = 3,
    DASD_WROTE_HOME_ADDRESS = 4, /* it was written */
    DASD_WROTE_RECORD = 5
};

/* What a drive remembers in a program, beside its volume. A record is named by its place on the track, where record 0 is 0. */
typedef struct dasd_registers {
    uint64_t passed;   /* the record whose area passed last */
    uint64_t credited; /* the record that the credit is for */
    uint16_t cylinder; /* where its arm is */
    uint16_t head;     /* the head that is selected */
    uint8_t sense[6];  /* the sense bytes, of this program so far */
    uint8_t area;      /* enum dasd_area: what passed last on this turn of the track; an area passes as the command ends that found it */
    uint8_t lap;       /* 1: the index has passed once since the commands began to look on this track */
    uint8_t mask;      /* the file mask, in the bits C0 and 18 of the byte that Set File Mask takes */
    uint8_t mask_set;  /* 1: a Set File Mask of this program has set it */
    uint8_t credit;    /* enum dasd_credit */
    uint8_t reserved[9];
} dasd_registers;

/* Shows what the drive of the program remembers that runs on a channel. DASD_NO_CHANNEL; DASD_NO_PROGRAM, none runs, and `shown` stays. */
static inline int32_t dasd_show_registers(const dasd *d, uint8_t channel, dasd_registers *shown) {
    return dasd_show_registers_sized(d, channel, (uint8_t *)shown, sizeof *shown);
}

/* --- A trace ---
 *
 * The lines of `dasd run --trace` for an emulator's own log (docs/TRACING.md): for each channel command word what it asked for, met and came
 * to; why a program failed; what a call answered. A trace is of one channel, and the library keeps nothing of it. What it has seen is in
 * a `dasd_trace` of the caller's, by which it looks before a start, after each unit, and after a call:
 *
 *     static char lines[DASD_TRACE_ROOM];
 *     static dasd_trace trace = {lines, sizeof lines, 0, {0}};
 *
 *     static void look(uint8_t what, uint16_t address, int32_t answer) {
 *         dasd_moment moment = {what, 1, address, (uint32_t)answer, 0, 0};
 *         if (dasd_trace_look(&d, &trace, &moment) == DASD_DONE) fwrite(lines, 1, trace.length, stderr);
 *     }
 *     ...
 *     look(DASD_BEFORE_SIO, 0x190, 0);
 *     look(DASD_BEHIND_SIO, 0x190, dasd_sio(&d, 0x190));
 *     while (dasd_step(&d, 1, 1, &done) == DASD_DONE && done) look(DASD_BEHIND_UNIT, 0, 0);
 *     if (dasd_interrupt(&d, mask, &from) == 1) look(DASD_BEHIND_INTERRUPT, from, 1);
 *
 * So a program that is traced does one unit a call. Where a start or a unit is passed over, lines are wanting or untrue until the next start
 * that is looked at, and nothing else comes of it. */

/* When a trace looks. After a call `answer` is what that answered; one that was refused is not reported, DASD_BAD_MOMENT. */
enum dasd_when {
    DASD_BEFORE_SIO = 0,  /* dasd_sio is about to be called for this address */
    DASD_BEHIND_UNIT = 1, /* the channel's program has done a unit */
    DASD_BEHIND_SIO = 2,  /* after dasd_sio, dasd_tio, dasd_hio, dasd_tch: the condition code */
    DASD_BEHIND_TIO = 3,
    DASD_BEHIND_HIO = 4,
    DASD_BEHIND_TCH = 5,
    DASD_BEHIND_STEP = 6,      /* so many units were done, 65,535 at most, after the last of which it has looked */
    DASD_BEHIND_RUN = 7,       /* the same, with another word and any number */
    DASD_BEHIND_ARRIVE = 8,    /* after dasd_arrive: 1 or 0 */
    DASD_BEHIND_INTERRUPT = 9, /* after dasd_interrupt: 1, from this address, or 0 */
    DASD_BEHIND_RESET = 10,    /* after dasd_reset: 0; or 1, with the track that is lost */
    DASD_AT_END = 11           /* the trace ends: a word that is still at work is reported */
};

/* A moment. */
typedef struct dasd_moment {
    uint8_t what;            /* enum dasd_when */
    uint8_t channel;         /* the number of the channel that is looked at */
    uint16_t address;        /* of a call that has one; of a track that a reset has lost */
    uint32_t answer;         /* of a call */
    uint16_t cylinder, head; /* of a track that a reset has lost */
} dasd_moment;

/* Room for the lines of any look. */
#define DASD_TRACE_ROOM 2048

/* A trace of one channel. It is copied by `=`, with lines of its own, as a handle is by dasd_copy; and begins again with zeros in `kept`. */
typedef struct dasd_trace {
    char *lines;       /* where the lines of a look go */
    size_t size;       /* how many bytes there may be, DASD_TRACE_ROOM or more */
    size_t length;     /* how many the lines of the last look have; each ends in a line feed, and no zero comes after them */
    uint64_t kept[32]; /* what it has seen: the library's. All zero it is nothing */
} dasd_trace;

/* Looks at a channel at a moment, and puts the lines that tell of it at `lines`; often there are none. The bytes after
 * them stay. What does not fit is not cut: DASD_NO_ROOM comes for a size below DASD_TRACE_ROOM, whatever the lines are.
 * DASD_NO_CHANNEL, DASD_BAD_MOMENT, DASD_NO_ROOM, in this order. */
int32_t dasd_trace_look(const dasd *d, dasd_trace *trace, const dasd_moment *moment);

/* --- Main storage --- */

/* Main storage: `len` bytes at `at`. */
typedef struct dasd_storage {
    uint8_t *at;
    size_t len;
} dasd_storage;

/* Shows where main storage lies. Between two calls its bytes are the caller's to read and to write, also while programs run: each
 * change is one that the processor makes. They stay where they are until dasd_free. */
int32_t dasd_show_storage(dasd *d, dasd_storage *shown);

/* Copies `len` bytes of storage from an address on, or stores them, with the bounds looked at. DASD_OUTSIDE_STORAGE. */
int32_t dasd_peek(const dasd *d, uint32_t at, uint8_t *into, size_t len);
int32_t dasd_poke(dasd *d, uint32_t at, const uint8_t *bytes, size_t len);

/* The storage key, 0 to 15, of the block of 2,048 bytes that has this address (PoO, 'Storage Protection'). DASD_OUTSIDE_STORAGE. */
int32_t dasd_key(const dasd *d, uint32_t at);

/* Sets it. DASD_BAD_KEY, DASD_OUTSIDE_STORAGE. */
int32_t dasd_set_key(dasd *d, uint32_t at, uint8_t key);

/* --- Main storage that is lent ---
 *
 * An emulator that keeps main storage itself makes a handle that owns none, and lends its own for each call that needs it:
 *
 *     dasd_memory memory = {bytes, size, keys, size / 2048};
 *     if (dasd_new_lent(&d, size, DASD_CHANNEL(1)) < 0) ...
 *     if (dasd_lent_sio(&d, &memory, 0x190) == 0) ...
 *
 * No byte of it is copied, and no address of it is kept: between two calls the caller may read and write the bytes and the keys, map,
 * share and move them. Whatever differs from what the call before left is what the processor stored, also while programs run.
 *
 * All calls above that need no storage take such a handle as any other. Those that do answer DASD_NO_STORAGE: dasd_sio, dasd_tio,
 * dasd_hio, dasd_step, dasd_run_on, dasd_run_until, dasd_interrupt, dasd_trace_look, and all below 'Main storage'. The calls here take also
 * a handle that owns storage, which then stays as it is.
 *
 * WHAT THE CALLER OWES beside the rules above, and nothing checks: neither pointer is null; `bytes` leads to `size` bytes that may be
 * written, and `keys` to `blocks` bytes; the two do not overlap; and while a call runs nobody else reads or writes the bytes, or writes
 * the keys: processors that run in other threads wait meanwhile, by a lock. */

/* Main storage: `size` bytes, and the storage key of each of its `blocks` blocks of 2,048 bytes. A key is the number 0 to 15. A key above
 * 15 is not refused: its block admits the key 0 alone, and no channel program with another key stores there. So an emulator that keeps a
 * key in the high four bits of a byte, beside reference and change, gives a list of the keys alone. */
typedef struct dasd_memory {
    uint8_t *bytes;
    size_t size;
    const uint8_t *keys;
    size_t blocks;
} dasd_memory;

/* Makes the channels of a set, as dasd_new, for main storage of so many bytes, which each call is lent.
 * DASD_IN_USE, DASD_BAD_CHANNELS, DASD_BAD_SIZE, DASD_NO_MEMORY. It does not answer DASD_NOTHING_HELD. */
int32_t dasd_new_lent(dasd *d, uint32_t storage_bytes, uint8_t channels);

/* The calls above of these names, over this memory. DASD_BAD_SIZE, no main storage has so many bytes; DASD_BAD_BLOCKS; DASD_OTHER_SIZE;
 * in this order, after DASD_NOTHING_HELD and before all others. `ran->units` says before dasd_lent_run_on and dasd_lent_run_until how many
 * units are done at most, and after it how many were; and so does `*units` of dasd_lent_step. Of a call that is refused it stays. */
int32_t dasd_lent_sio(dasd *d, dasd_memory *memory, uint16_t address);
int32_t dasd_lent_tio(dasd *d, dasd_memory *memory, uint16_t address);
int32_t dasd_lent_hio(dasd *d, dasd_memory *memory, uint16_t address);
int32_t dasd_lent_step(dasd *d, dasd_memory *memory, uint8_t channel, uint32_t *units);
int32_t dasd_lent_run_on(dasd *d, dasd_memory *memory, uint8_t channel, dasd_run *ran);
int32_t dasd_lent_interrupt(dasd *d, dasd_memory *memory, uint8_t channels, uint16_t *address);
int32_t dasd_lent_trace_look(const dasd *d, dasd_memory *memory, dasd_trace *trace, const dasd_moment *moment);
int32_t dasd_lent_run_until_sized(dasd *d, dasd_memory *memory, const dasd_wanted *wanted, uint8_t *ran, size_t size);
static inline int32_t dasd_lent_run_until(dasd *d, dasd_memory *memory, uint8_t channel, uint8_t until, dasd_progress *ran) {
    dasd_wanted wanted = {ran->units, channel, until, {0, 0}};
    return dasd_lent_run_until_sized(d, memory, &wanted, (uint8_t *)ran, sizeof *ran);
}

/* --- No bytes ---
 *
 * The library's own calls take no null pointer. Those that are given bytes, files or lengths are made through these, by the same names: a null
 * pointer counts as no bytes, and leads to one that nobody looks at. They are the header's own, and the library exports none of them. */

/* The bytes, or where there are none a byte that nobody looks at. */
static inline const uint8_t *dasd_some(const uint8_t *bytes) {
    static const uint8_t none = 0;
    return bytes ? bytes : &none;
}

/* The files, with a place for each that has no bytes; more than eight are refused before one is looked at. */
static inline const dasd_bytes *dasd_some_files(dasd_bytes *some, const dasd_bytes *files, size_t count) {
    size_t i;
    for (i = 0; i < 8; i++) {
        const uint8_t *at = files && i < count ? files[i].at : NULL;
        some[i].at = dasd_some(at);
        some[i].len = at ? files[i].len : 0;
    }
    return count > 8 ? files : some;
}

static inline int32_t dasd_check_some(const dasd_bytes *files, size_t count) {
    dasd_bytes some[8];
    return dasd_check(dasd_some_files(some, files, count), count);
}

static inline int32_t dasd_attach_some(dasd *d, uint16_t address, const dasd_bytes *files, size_t count) {
    dasd_bytes some[8];
    return dasd_attach(d, address, dasd_some_files(some, files, count), count);
}

static inline int32_t dasd_files_new_some(dasd_files *f, const size_t *lengths, size_t count) {
    size_t none = 0;
    return dasd_files_new(f, lengths ? lengths : &none, lengths ? count : 0);
}

static inline int32_t dasd_save_some(const dasd *d, uint8_t *into, size_t len, size_t *written) {
    uint8_t none = 0;
    return dasd_save(d, into ? into : &none, into ? len : 0, written);
}

static inline int32_t dasd_restore_some(dasd *d, const uint8_t *from, size_t len) { return dasd_restore(d, dasd_some(from), from ? len : 0); }

static inline int32_t dasd_peek_some(const dasd *d, uint32_t at, uint8_t *into, size_t len) {
    uint8_t none = 0;
    return dasd_peek(d, at, into ? into : &none, into ? len : 0);
}

static inline int32_t dasd_poke_some(dasd *d, uint32_t at, const uint8_t *bytes, size_t len) {
    return dasd_poke(d, at, dasd_some(bytes), bytes ? len : 0);
}

#define dasd_check dasd_check_some
#define dasd_attach dasd_attach_some
#define dasd_files_new dasd_files_new_some
#define dasd_save dasd_save_some
#define dasd_restore dasd_restore_some
#define dasd_peek dasd_peek_some
#define dasd_poke dasd_poke_some

#ifdef __cplusplus
}
#endif
#endif
