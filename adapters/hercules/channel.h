/* channel.h - libdasd's selector channels in Hercules: what a unit is, how programs run, and how their interruptions pend at Hercules.
 *
 * All of it is done while Hercules' interruption lock is held: so is each call here, unless its text says something else. No lock of a
 * device is taken, since Hercules takes these before and behind that lock. */
#ifndef CHANNEL_H
#define CHANNEL_H

#include "herc.h"

#include "dasd.h"
#include "pack.h"

enum { CHANNELS = 7, UNITS = 8 };

/* A drive: what dev->dev_data leads to. */
struct unit {
    pack file;
    dasd_files files; /* the volume, until the channels are made: Hercules attaches devices before it has main storage */
    int cylinder;     /* where the arm was last seen at rest */
    bool arms;        /* whether arms take time */
    U64 due;          /* when its arm arrives, by the channels' own clock; 0: it does not move */
    bool owes_end;    /* its device end pends, and waits until no program runs on the channel */
    bool checked;     /* a track could not be saved: the sense bytes have equipment check beside their own bits */
};

/* What an instruction is for: an address of one of our channels, and its device, if there is one. */
struct target {
    uint16_t address;
    uint8_t channel;
    DEVBLK *dev;
};

/* The handler of our devices, by which they are known. */
extern DEVHND channel_handler;

static inline struct unit *unit_of(DEVBLK *dev) { return dev->dev_data; }

/* Whether a channel has one of our drives: all its addresses are ours then. It needs no lock. */
bool channel_is_ours(uint16_t address);

/* Attaches a unit's volume, at once or as the channels are made: NULL, or why not. */
const char *channel_attach(DEVBLK *dev);

/* Halts what runs at a device, drops what pends there, saves its tracks and takes it off: whether all was saved. */
bool channel_detach(DEVBLK *dev);

/* Makes the channels once there is main storage, and sees whether Hercules has reset its devices. False: the channel can't be used. */
bool channel_ready(const struct target *t);

/* The condition codes of Start I/O, Test I/O, Halt I/O and Test Channel; what is stored goes to the prefixed page of the processor. */
int channel_start(REGS *regs, const struct target *t);
int channel_test(REGS *regs, const struct target *t);
int channel_halt(REGS *regs, const struct target *t);
int channel_ask(const struct target *t);

/* Whether a program runs on a channel, and at which low byte of an address. */
bool channel_works(uint8_t channel, uint8_t *unit);

/* Resets a channel and its drives: no interruption of it pends then. */
void channel_reset(uint8_t channel);

/* Runs the program at location 0 to its end, with key 0, as the LOAD key does; the lock is let go now and then. Its channel status word is
 * put into `csw`. */
void channel_load(DEVBLK *dev, uint8_t csw[8]);

/* Whether all written tracks of a unit are in its file; if not, the console was told. */
bool channel_save(DEVBLK *dev);

#endif
