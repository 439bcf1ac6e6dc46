/* s360.h - a small System/360: a processor, a console, and two selector channels with drives, which are the library's.
 *
 * What an author of an emulator looks for here:
 *   main storage is the library's, or a file that is mapped and lent to each call; either
 *   way the processor reads and writes it without a copy                                  storage.c
 *   instructions that address a channel, and interruptions that come from one               cpu.c, channels.c
 *   programs of two channels that run at once, and ask for interruptions while they run     channels.c
 *   the clock: what happens between two instructions, and what next while nothing runs      machine.c
 *   arms that move, and arrive by their distance                                            arms.c
 *   another device beside the library's, on a channel of its own                            console.c
 *   packs that an operator changes while the machine runs                                   operator.c, volumes.c
 *   what channel programs did, and why one failed, in a log                                 log.c
 *   the whole machine is copied in the middle of its run, and gone back to                  again.c
 *   the whole machine is saved in a file, and made anew from that another day               suspend.c
 *   a volume's file is read, and saved: by its changed tracks alone, or whole               files.c, volumes.c
 *
 * 'PoO' is IBM System/360 Principles of Operation, A22-6821. */
#ifndef S360_H
#define S360_H

#include <stdint.h>
#include <stdio.h>

#include "dasd.h"

/* Where storage has what the machine and a program tell each other (PoO, 'Permanent Storage Assignment'). */
enum { EXTERNAL_OLD = 24, SVC_OLD = 32, PROGRAM_OLD = 40, IO_OLD = 56, CSW = 64, CAW = 72, SVC_NEW = 96, PROGRAM_NEW = 104, IO_NEW = 120 };

enum { CONSOLE = 0x009, CHANNELS = DASD_CHANNEL(1) | DASD_CHANNEL(2) };

enum { STORAGE = 65536, BLOCK = 2048, BLOCKS = STORAGE / BLOCK };

/* When something happens that never does. */
#define NEVER UINT64_MAX

/* The console: a printer that types what a channel program of its own gives it. */
typedef struct console {
    FILE *paper;
    char line[133]; /* what stands in the line that it types */
    int is_busy;    /* it types, until `ready` */
    int pends;      /* it has ended, and its channel status word is not yet stored */
    uint64_t ready;
    uint8_t csw[8];
} console;

/* A drive's arm, as the clock sees it. */
typedef struct arm {
    uint16_t address, cylinder; /* where it was at rest last */
    int moves;
    uint64_t arrives;
} arm;

/* A volume: its file, and where it is. A mounted one's bytes are the library's; another stands on the shelf. */
enum { MOST_PATH = 1024 };

typedef struct volume {
    char path[MOST_PATH];
    char serial[7];   /* by which the operator knows a pack of the shelf */
    uint16_t address; /* of the drive on which it is mounted; 0: it is on the shelf */
    uint8_t *bytes;   /* on the shelf: its file */
    size_t len;       /* of that file */
    uint64_t changes; /* the number of its changes as it was mounted, or saved */
    int is_changed;   /* it was changed before that, and not saved */
    uint32_t sum;     /* of its file, in a machine that is saved: a checksum */
} volume;

enum { MOST_VOLUMES = 16, MOST_DRIVES = 8 };

typedef struct machine {
    dasd d;
    uint8_t *storage;   /* the library's, or the machine's own */
    int lends;          /* it is the machine's own, which each call that needs it is lent */
    dasd_memory memory; /* so it is lent, with these keys */
    uint8_t keys[BLOCKS];
    uint32_t size;
    uint32_t r[16];
    /* the program status word (PoO, 'Program Status Word') */
    uint8_t mask;   /* the system mask: bit 0 is channel 0 */
    uint8_t key;    /* 0 to 15 */
    uint8_t amwp;   /* bit 2: the processor waits */
    uint16_t code;  /* of the interruption */
    uint8_t length; /* of the last instruction, in bytes */
    uint8_t cc, program_mask;
    uint32_t at;          /* the instruction address */
    uint64_t clock;       /* in ticks of 10 microseconds: an instruction, or a tick of waiting */
    uint8_t works;        /* the channels on which a program runs */
    uint8_t units_a_tick; /* that such a program does */
    uint16_t ready;       /* a drive whose pack was changed, and whose device end has not interrupted; 0: none */
    arm arms[MOST_DRIVES];
    int arm_count;
    console console;
    FILE *log;  /* where it is told what channel programs did, or NULL */
    FILE *told; /* where it is told which volumes are saved, and why one is refused, or NULL */
    dasd_trace traces[7];
    volume volumes[MOST_VOLUMES];
    int volume_count;
    /* what the operator was asked for last, and when it is done */
    uint16_t wanted_at;
    char wanted[7];
    uint64_t done;
} machine;

uint32_t word_at(const uint8_t *p);
void put_word(uint8_t *p, uint32_t word);

/* machine.c: lets the machine go on until the clock has come so far: 1 where the processor waits and takes no more interruptions, at
 * 0 where its program says so; else 0. One step of it, an instruction or a tick of waiting: 0, where it waits so. When something happens
 * next of itself. */
int run(machine *m, uint64_t until);
int step(machine *m);
uint64_t next_event(const machine *m);

/* cpu.c: an instruction; whether the processor waits; an interruption: the old program status word is stored, and a new one loaded. */
void instruction(machine *m);
int is_waiting(const machine *m);
void interrupt(machine *m, uint16_t code, uint32_t old_psw, uint32_t new_psw);
void load_psw(machine *m, uint32_t at);

/* channels.c: the four instructions, for every channel; what a tick does; an interruption, if one pends and is not masked: 1 or 0; the
 * load function, which answers 0 where the program was loaded; and the reset that it begins with, which cuts every program that runs. */
int start_io(machine *m, uint16_t address);
int test_io(machine *m, uint16_t address);
int halt_io(machine *m, uint16_t address);
int test_channel(machine *m, uint16_t address);
void channels_tick(machine *m);
int take_interruption(machine *m);
int load(machine *m, uint16_t address);
void reset(machine *m);

/* arms.c: a drive has an arm, at rest at cylinder 0; a look at all arms, behind whatever may have moved one; those that arrive at this
 * tick; all of them stop; and when the next one arrives. */
void arm_of_drive(machine *m, uint16_t address);
void look_at_arms(machine *m);
void arms_tick(machine *m);
void stop_arms(machine *m);
uint64_t next_arrival(const machine *m);

/* storage.c: main storage and the channels over it, in the library or, with a path, in this file, which has that many bytes or none yet;
 * -1 where the system refused, as errno says; and all of it given back. The calls that need main storage, wherever it is. */
int open_storage(machine *m, const char *path);
int close_storage(machine *m);
int32_t lent_or_own_sio(machine *m, uint16_t address);
int32_t lent_or_own_tio(machine *m, uint16_t address);
int32_t lent_or_own_hio(machine *m, uint16_t address);
int32_t lent_or_own_run_on(machine *m, uint8_t channel, uint32_t units, dasd_run *ran);
int32_t lent_or_own_interrupt(machine *m, uint16_t *address);
int32_t lent_or_own_trace_look(machine *m, dasd_trace *trace, const dasd_moment *moment);
int32_t storage_key_of(machine *m, uint32_t at);
int32_t set_storage_key(machine *m, uint32_t at, uint8_t key);

/* log.c: tells the log, if there is one, of a call for an address and what that answered, which is handed on; a start with what is told before
 * it; units of a channel's program, which are done one by one where there is a log. */
int32_t tell_log(machine *m, enum dasd_when what, uint16_t address, int32_t answer);
int32_t logged_sio(machine *m, uint16_t address);
int32_t logged_run_on(machine *m, uint8_t channel, uint32_t units, dasd_run *ran);

/* console.c: the same for the console. */
int console_start(machine *m);
int console_test(machine *m);
void console_tick(machine *m);

/* operator.c: the operator reads a line that was typed, and does what it asks for once he has got to it. */
void operator_reads(machine *m, const char *line);
void operator_tick(machine *m);

/* volumes.c: a volume is read from its file, to the shelf; is mounted on a drive, and taken off it again; -1 where that was refused, and it
 * is told why. The one that is mounted on a drive, or has a serial number, or NULL. All that were changed are saved; and all
 * on the shelf are given back. */
volume *read_volume(machine *m, const char *path, const char *serial);
int mount(machine *m, volume *v, uint16_t address);
int dismount(machine *m, volume *v);
volume *volume_at(machine *m, uint16_t address);
volume *volume_called(machine *m, const char *serial);
int save_volumes(machine *m);
void free_volumes(machine *m);

/* again.c: makes `kept` a second machine that is what this one is, between two instructions, with main storage of its own; makes a
 * machine again what `kept` is, with main storage where it was; -1 where memory was refused. A kept one is given back. */
int keep(machine *m, machine *kept);
int go_back(machine *m, machine *kept);
void drop(machine *kept);

/* suspend.c: the machine goes on until no channel program runs, saves its volumes, and then itself in a file. A machine of which nothing is
 * made yet but where it types and tells becomes what was saved there, with main storage as open_storage makes it. NULL, or why not: then
 * that machine is as it was, and so is the file that main storage was to be lent from. */
const char *suspend(machine *m, const char *path);
const char *resume(machine *m, const char *path, const char *lent);

/* files.c: a whole file in memory, which is freed by free; a file of so many bytes, opened to be written in place, bytes of it written, and
 * all of that brought to the disk, unless it went bad, and closed; a file written beside an old one, if there is one, and put in its place.
 * NULL and -1 where the system refused, as errno says. */
uint8_t *read_file(const char *path, size_t *len);
int open_to_save(const char *path, size_t len);
int write_at(int fd, size_t at, const uint8_t *bytes, size_t len);
int close_saved(int fd, int bad);
int save_file(const char *path, const uint8_t *bytes, size_t len);

#endif
