/* channel.c - libdasd's selector channels in Hercules: see channel.h.
 *
 * The library owes interruptions, and Hercules' processors take them from a queue. So what the library owes is taken from it at once, and
 * pends at its device: an ending as dev->csw, a program-controlled interruption as dev->pcicsw, a device end as dev->attncsw. What Start
 * I/O, Test I/O, Halt I/O and Test Channel find pending there they treat as the library would have. */
#include "channel.h"

#include "processors.h"
#include "recording.h"
#include "saving.h"
#include "timer.h"

/* Locations of the channel status word, its status bytes, and the channel address word. */
enum { CSW = 64, STATUS = 68, CAW = 72 };
enum { SENSE = 0x04, EQUIPMENT_CHECK = 0x10, PCI = 0x80, BUSY = 0x10 };
/* So many units of a program are a slice. Within Start I/O a program does as many as AT_START: at once where no word asks for an interruption;
 * else in slices, each of twice the units of the one before, until one has asked. */
enum { SLICE = 64, AT_START = 32768 };
/* What an arm takes to move, and how often it is looked whether the processors are as far, in microseconds. */
enum { ARM_BEGINS = 25000, ARM_CYLINDER = 550, ARM_WAITS = 1000 };
/* The word of a device that says that it was not reset. */
#define STANDS 0x48445443U

struct channel {
    int drives;
    bool works, has_thread;
    bool asks;          /* the program may ask for an interruption */
    bool records_again; /* what it refers to is to be recorded in each slice: its words may change */
    uint8_t key, unit;
    uint32_t sense_at; /* where the first byte of a Sense goes that begins the program; else 0 */
    COND go;
};

static struct channel channels[CHANNELS];
static dasd disks = DASD_NOTHING;
static size_t size;    /* of main storage, as far as channels reach */
static uint8_t *aside; /* storage of that size, into which the library stores what is Hercules' to store */
static const uint8_t no_keys[8192];

/* --- Storage --- */

/* Main storage, or what stands aside. Hercules keeps a key in the high four bits of a byte. */
static dasd_memory lent(uint8_t *bytes, uint8_t key) {
    static uint8_t keys[8192];
    if (key)
        for (size_t i = 0; i < size >> 11; i++) keys[i] = sysblk.storkeys[i] >> 4;
    return (dasd_memory){bytes, size, key ? keys : no_keys, size >> 11};
}

/* The page of a processor that has its channel status word, which is about to be stored into or not. */
static uint8_t *page_of(REGS *regs, bool stores) {
    sysblk.storkeys[regs->PX >> 11] |= stores ? STORKEY_REF | STORKEY_CHANGE : STORKEY_REF;
    return regs->mainstor + regs->PX;
}

static DEVBLK *device_at(uint16_t address) {
    DEVBLK *dev = find_device_by_devnum(0, address);
    return dev && dev->hnd == &channel_handler && dev->dev_data ? dev : NULL;
}

/* The next of our devices of a channel behind `dev`, from NULL on. */
static DEVBLK *next_device(unsigned channel, const DEVBLK *dev) {
    DEVBLK *it = dev ? dev->nextdev : sysblk.firstdev;
    while (it && !(it->allocated && it->hnd == &channel_handler && it->dev_data && it->devnum >> 8 == channel)) it = it->nextdev;
    return it;
}

bool channel_is_ours(uint16_t address) { return address >> 8 < CHANNELS && channels[address >> 8].drives > 0; }

bool channel_works(uint8_t channel, uint8_t *unit) {
    *unit = channels[channel].unit;
    return channels[channel].works;
}

/* --- Saving --- */

static int32_t next_changed_of(DEVBLK *dev, uint64_t since, dasd_changed *track) {
    return dasd_next_changed(&disks, dev->devnum, 0, since, track);
}

bool channel_save(DEVBLK *dev) {
    dasd_file shown;
    dasd_drive seen;
    if (dasd_show_file(&disks, dev->devnum, 0, &shown) < 0 || dasd_show_drive(&disks, dev->devnum, &seen) < 0) return true;
    return save_tracks(dev, &unit_of(dev)->file, &shown, (size_t)seen.cylinder * heads_of(seen.model), next_changed_of);
}

/* --- What pends at Hercules --- */

/* Puts an interruption into Hercules' queue, which has them by priority: by channels, and of a channel device ends last, by units. */
static void queue(DEVBLK *dev, IOINT *it) {
    dev->priority = (dev->devnum & 0xFF00) << 1 | (it == &dev->attnioint ? 0x100 | (dev->devnum & 0xFF) : 0);
    QUEUE_IO_INTERRUPT(it);
}

/* Puts a device end into Hercules' queue, or keeps it while a program runs on the channel. */
static void pend_device_end(DEVBLK *dev) {
    struct unit *u = unit_of(dev);
    u->owes_end = channels[dev->devnum >> 8].works;
    if (u->owes_end) return;
    memset(dev->attncsw, 0, sizeof dev->attncsw);
    dev->attncsw[4] = CSW_DE;
    queue(dev, &dev->attnioint);
}

/* No device end is taken while a program runs: they wait. */
static void hold_device_ends(uint8_t channel) {
    for (DEVBLK *dev = next_device(channel, NULL); dev; dev = next_device(channel, dev)) {
        if (!dev->attnpending) continue;
        DEQUEUE_IO_INTERRUPT(&dev->attnioint);
        unit_of(dev)->owes_end = true;
    }
}

/* An ending pends, with what was asked for and not taken; then the device ends that waited. */
static void pend_ending(DEVBLK *dev, const uint8_t *csw) {
    bool asked = dev->pcipending;
    if (asked) DEQUEUE_IO_INTERRUPT(&dev->pciioint);
    memcpy(dev->csw, csw, 8);
    if (asked) dev->csw[5] |= PCI;
    if (!channel_save(dev)) {
        unit_of(dev)->checked = true;
        dev->csw[4] |= CSW_UC;
    }
    queue(dev, &dev->ioint);
    for (DEVBLK *it = next_device(dev->devnum >> 8, NULL); it; it = next_device(dev->devnum >> 8, it))
        if (unit_of(it)->owes_end) pend_device_end(it);
}

/* Takes from the library what its channel owes: whether a program that goes on asked. */
static bool offer(uint8_t channel) {
    dasd_memory m = lent(aside, 0);
    dasd_state state;
    uint16_t from;
    bool asked = false;
    while (dasd_show_channel(&disks, channel, &state) == DASD_DONE && dasd_lent_interrupt(&disks, &m, DASD_CHANNEL(channel), &from) == 1) {
        DEVBLK *dev = device_at(from);
        if (!dev) continue;
        if (state.subchannel == DASD_WORKING) {
            memcpy(dev->pcicsw, aside + CSW, 8);
            queue(dev, &dev->pciioint);
            asked = true;
        } else if (state.subchannel == DASD_ENDED) pend_ending(dev, aside + CSW);
        else pend_device_end(dev);
    }
    return asked;
}

/* The device whose ending pends, and holds its channel. */
static DEVBLK *held_by(uint8_t channel) {
    DEVBLK *dev = next_device(channel, NULL);
    while (dev && !dev->pending) dev = next_device(channel, dev);
    return dev;
}

/* --- Arms --- */

/* The channels' own clock, by which arms arrive: a microsecond for each instruction, and where the processors wait it goes on to the next
 * arrival. The host's clock says when some arm arrives, and this one says which: so their order does not hang on how the host divides its
 * time. */
static U64 skipped;

/* The device whose arm is to arrive next. */
static DEVBLK *next_arm(void) {
    DEVBLK *first = NULL;
    for (unsigned channel = 0; channel < CHANNELS; channel++)
        for (DEVBLK *dev = next_device(channel, NULL); dev; dev = next_device(channel, dev))
            if (unit_of(dev)->due && (!first || unit_of(dev)->due < unit_of(first)->due)) first = dev;
    return first;
}

/* An arm arrives: called when the time of one has come. */
static void arrive(void *of_device) {
    DEVBLK *dev;
    U64 now;
    OBTAIN_INTLOCK(NULL);
    dev = next_arm();
    now = processors_done() + skipped;
    if (dev && !(now < unit_of(dev)->due && processors_go_on() && timer_after(ARM_WAITS, arrive, of_device))) {
        if (now < unit_of(dev)->due) skipped += unit_of(dev)->due - now;
        unit_of(dev)->due = 0;
        if (dasd_arrive(&disks, dev->devnum) == 1) offer((uint8_t)(dev->devnum >> 8));
    }
    UPDATE_IC_IOPENDING();
    RELEASE_INTLOCK(NULL);
}

/* Sends the arm of a drive off, if its program has left it in motion. */
static void look_at_arm(DEVBLK *dev) {
    struct unit *u = unit_of(dev);
    dasd_drive seen;
    uint32_t takes;
    if (dasd_show_drive(&disks, dev->devnum, &seen) < 0) return;
    takes = ARM_BEGINS + ARM_CYLINDER * (uint32_t)abs(u->cylinder - seen.cylinder);
    u->cylinder = seen.cylinder;
    if (seen.arm != DASD_IN_MOTION || u->due) return;
    if (u->arms && timer_after(takes, arrive, dev)) {
        u->due = processors_done() + skipped + takes;
        return;
    }
    dasd_arrive(&disks, dev->devnum);
    offer((uint8_t)(dev->devnum >> 8));
}

/* --- Programs --- */

/* What an ending leaves beside its status: the arm, and equipment check among the bytes of a Sense. */
static void leave(uint8_t channel) {
    struct channel *c = &channels[channel];
    DEVBLK *dev = device_at((uint16_t)(channel << 8 | c->unit));
    if (dev && c->sense_at && unit_of(dev)->checked) sysblk.mainstor[c->sense_at] |= EQUIPMENT_CHECK;
    if (dev) look_at_arm(dev);
}

/* Does so many units of a channel's program: whether it has asked for an interruption. */
static bool slice(uint8_t channel, uint32_t units) {
    struct channel *c = &channels[channel];
    dasd_memory m = lent(sysblk.mainstor, c->key);
    dasd_run ran = {units, 0, 0, 0, 0};
    dasd_program at;
    bool asked, records = c->records_again && dasd_show_program(&disks, channel, &at) == DASD_DONE;
    int32_t fault;
    struct point from = {0};
    if (records) {
        from = (struct point){at.next, at.address, at.count, at.code, at.flags, at.key};
        record_program(&from, size);
    }
    fault = dasd_lent_run_on(&disks, &m, channel, &ran);
    if (records) record_program(&from, size);
    if (fault < 0) logmsg("HHCSX008E channel %d: %s\n", channel, dasd_fault_text(fault));
    c->works = fault >= 0 && ran.subchannel == DASD_WORKING;
    asked = (ran.asked || !c->works) && offer(channel);
    if (!c->works) leave(channel);
    return asked;
}

static void *run(void *of_channel) {
    struct channel *c = of_channel;
    uint8_t number = (uint8_t)(c - channels);
    OBTAIN_INTLOCK(NULL);
    for (;;) {
        while (!c->works) wait_condition(&c->go, &sysblk.intlock);
        RELEASE_INTLOCK(NULL);
        processors_share();
        OBTAIN_INTLOCK(NULL);
        if (c->works) slice(number, SLICE);
        UPDATE_IC_IOPENDING();
    }
    return NULL;
}

/* Has the channel's own thread go on with the program. */
static void hand_over(uint8_t channel) {
    struct channel *c = &channels[channel];
    TID thread;
    c->records_again = true;
    if (!c->has_thread) {
        initialize_condition(&c->go);
        c->has_thread = !create_thread(&thread, DETACHED, run, c, "selector channel");
    }
    if (c->has_thread) signal_condition(&c->go);
    else logmsg("HHCSX008E channel %d: there is no thread for it\n", channel);
}

/* Keeps what a program that was accepted has to be known by. */
static void note_start(const struct target *t, const uint8_t *caw) {
    struct channel *c = &channels[t->channel];
    struct unit *u = unit_of(t->dev);
    const struct point from = {.next = fetch_fw(caw) & 0xFFFFFF, .key = caw[0] >> 4};
    const uint8_t *word = sysblk.mainstor + from.next;
    bool senses = word[0] == SENSE && !(word[4] & CCW_FLAGS_SKIP);
    struct recorded recorded;
    c->works = true;
    recorded = record_program(&from, size);
    c->records_again = recorded.again;
    c->asks = recorded.asks || recorded.again;
    c->key = caw[0] >> 4;
    c->unit = (uint8_t)t->address;
    if (word[0] != SENSE) u->checked = false;
    c->sense_at = senses ? fetch_fw(word) & 0xFFFFFF : 0;
}

/* --- The instructions --- */

/* Start I/O of the library. It has the channel address word in the processor's page, and channels have absolute addresses. */
static int32_t start_lent(uint8_t *page, uint16_t address) {
    uint8_t *low = sysblk.mainstor;
    uint8_t kept[16];
    dasd_memory m = lent(low, page[CAW] >> 4);
    int32_t code;
    if (page == low) return dasd_lent_sio(&disks, &m, address);
    memcpy(kept, low + CSW, sizeof kept);
    memcpy(low + CAW, page + CAW, 4);
    code = dasd_lent_sio(&disks, &m, address);
    if (code == 1) memcpy(page + STATUS, low + STATUS, 2);
    memcpy(low + CSW, kept, sizeof kept);
    return code;
}

int channel_start(REGS *regs, const struct target *t) {
    struct channel *c = &channels[t->channel];
    uint8_t *page = page_of(regs, true);
    int32_t code;
    bool asked;
    if (!c->works && held_by(t->channel)) return 2;
    if (!c->works && t->dev && t->dev->attnpending) {
        DEQUEUE_IO_INTERRUPT(&t->dev->attnioint);
        page[STATUS] = BUSY | CSW_DE;
        page[STATUS + 1] = 0;
        return 1;
    }
    code = start_lent(page, t->address);
    if (code == 1 && t->dev) look_at_arm(t->dev);
    if (code != 0 || !t->dev) return code <= 0 ? 3 : code;
    note_start(t, page + CAW);
    hold_device_ends(t->channel);
    asked = c->asks && offer(t->channel);
    for (uint32_t units = c->asks ? SLICE : AT_START; units <= AT_START && c->works && !asked; units *= 2) asked = slice(t->channel, units);
    if (c->works) hand_over(t->channel);
    return 0;
}

int channel_test(REGS *regs, const struct target *t) {
    const DEVBLK *held = channels[t->channel].works ? NULL : held_by(t->channel);
    uint8_t *page = page_of(regs, true);
    dasd_memory m = lent(aside, 0);
    int32_t code;
    if (held && held != t->dev) return 2;
    if (held && t->dev) {
        DEQUEUE_IO_INTERRUPT(&t->dev->ioint);
        memcpy(page + CSW, t->dev->csw, 8);
        return 1;
    }
    if (!channels[t->channel].works && t->dev && t->dev->attnpending) {
        DEQUEUE_IO_INTERRUPT(&t->dev->attnioint);
        memcpy(page + CSW, t->dev->attncsw, 8);
        return 1;
    }
    code = dasd_lent_tio(&disks, &m, t->address);
    if (code == 1) memcpy(page + CSW, aside + CSW, 8);
    return code < 0 ? 3 : code;
}

int channel_halt(REGS *regs, const struct target *t) {
    struct channel *c = &channels[t->channel];
    uint8_t *page = page_of(regs, true);
    dasd_memory m = lent(aside, 0);
    int32_t code;
    if (!c->works && held_by(t->channel)) return 0;
    code = dasd_lent_hio(&disks, &m, t->address);
    if (code == 1) memcpy(page + STATUS, aside + STATUS, 2);
    if (code == 2) {
        c->works = false;
        offer(t->channel);
        leave(t->channel);
    }
    return code < 0 ? 3 : code;
}

int channel_ask(const struct target *t) { return channels[t->channel].works ? 2 : held_by(t->channel) ? 1 : 0; }

/* --- Attached, reset, loaded --- */

/* Attaches a unit to the channels, which stand. */
static const char *attach_now(DEVBLK *dev) {
    struct unit *u = unit_of(dev);
    dasd_file shown = {NULL, 0, 0};
    int32_t fault = dasd_attach_files(&disks, dev->devnum, &u->files);
    if (fault < 0) return dasd_fault_text(fault);
    dasd_show_file(&disks, dev->devnum, 0, &shown);
    u->file.saved = shown.changes;
    u->cylinder = 0;
    return NULL;
}

/* Makes the channels over main storage, once there is some, and attaches what was to be attached: whether they stand. */
static bool make(void) {
    int32_t fault;
    if (size) return true;
    if (!sysblk.mainsize || !sysblk.mainstor) return false;
    size = sysblk.mainsize < 1U << 24 ? (size_t)sysblk.mainsize : 1U << 24;
    aside = calloc(1, size);
    fault = aside ? dasd_new_lent(&disks, (uint32_t)size, 0xFE) : DASD_NO_MEMORY;
    if (fault < 0) {
        logmsg("HHCSX008E %s\n", dasd_fault_text(fault));
        free(aside);
        size = 0;
        return false;
    }
    for (unsigned channel = 0; channel < CHANNELS; channel++)
        for (DEVBLK *dev = next_device(channel, NULL); dev; dev = next_device(channel, dev)) {
            const char *why = attach_now(dev);
            if (why) logmsg("HHCSX002E %4.4X %s: %s\n", dev->devnum, unit_of(dev)->file.name, why);
        }
    return true;
}

const char *channel_attach(DEVBLK *dev) {
    const char *why = size ? attach_now(dev) : NULL;
    if (!why) {
        channels[dev->devnum >> 8].drives++;
        STORE_FW(dev->pmcw.intparm, STANDS);
    }
    return why;
}

/* Nothing of a device pends at Hercules any more. */
static void drop(DEVBLK *dev) {
    DEQUEUE_IO_INTERRUPT(&dev->ioint);
    DEQUEUE_IO_INTERRUPT(&dev->pciioint);
    DEQUEUE_IO_INTERRUPT(&dev->attnioint);
    unit_of(dev)->owes_end = false;
}

void channel_reset(uint8_t channel) {
    dasd_track unsaved;
    channels[channel].works = false;
    if (size) dasd_reset(&disks, channel, &unsaved);
    for (DEVBLK *dev = next_device(channel, NULL); dev; dev = next_device(channel, dev)) {
        timer_cancel(arrive, dev);
        drop(dev);
        unit_of(dev)->checked = false;
        unit_of(dev)->due = 0;
        STORE_FW(dev->pmcw.intparm, STANDS);
        if (size) channel_save(dev);
    }
}

/* Hercules tells no module that it resets the system, but it clears a word of each device that S/370 has no other use for. */
static void look_for_reset(const DEVBLK *dev) {
    U32 word;
    FETCH_FW(word, dev->pmcw.intparm);
    if (word == STANDS) return;
    for (unsigned channel = 0; channel < CHANNELS; channel++)
        if (channels[channel].drives) channel_reset((uint8_t)channel);
}

bool channel_ready(const struct target *t) {
    const DEVBLK *any = next_device(t->channel, NULL);
    if (!make() || !any) return false;
    look_for_reset(any);
    return true;
}

bool channel_detach(DEVBLK *dev) {
    uint8_t number = (uint8_t)(dev->devnum >> 8);
    struct channel *c = &channels[number];
    dasd_memory m = lent(aside, 0);
    bool saved = true;
    timer_cancel(arrive, dev);
    channels[number].drives--;
    if (size) {
        if (c->works && c->unit == (dev->devnum & 0xFF) && dasd_lent_hio(&disks, &m, dev->devnum) == 2) {
            c->works = false;
            offer(number);
        }
        if (dasd_arrive(&disks, dev->devnum) == 1) offer(number);
        saved = channel_save(dev);
        dasd_detach(&disks, dev->devnum);
    }
    drop(dev);
    dasd_files_free(&unit_of(dev)->files);
    return saved;
}

void channel_load(DEVBLK *dev, uint8_t csw[8]) {
    static const uint8_t zeros[4];
    const struct target t = {dev->devnum, (uint8_t)(dev->devnum >> 8), dev};
    uint8_t *low = sysblk.mainstor;
    uint8_t caw[4];
    memset(csw, 0, 8);
    csw[4] = CSW_UC;
    if (!channel_ready(&t)) return;
    channel_reset(t.channel);
    memcpy(caw, low + CAW, sizeof caw);
    memset(low + CAW, 0, sizeof caw);
    if (start_lent(low, t.address) == 0) {
        note_start(&t, zeros);
        memcpy(low + CAW, caw, sizeof caw);
        while (channels[t.channel].works) {
            RELEASE_INTLOCK(NULL);
            OBTAIN_INTLOCK(NULL);
            slice(t.channel, SLICE);
        }
        memcpy(csw, dev->csw, 8);
        csw[4] |= dev->attnpending ? CSW_DE : 0;
        csw[5] &= (uint8_t)~PCI;
    } else {
        memcpy(csw + 4, low + STATUS, 2);
        memcpy(low + CAW, caw, sizeof caw);
    }
    drop(dev);
}
