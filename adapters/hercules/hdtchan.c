/* hdtchan.c - selector channels for Hercules 3.13 in System/370 mode, with 2311 and 2314 drives: those of libdasd, over Hercules' main
 * storage. The module takes over Start I/O, Test I/O, Halt I/O, Test Channel and Store Channel ID for channels that have its drives, and
 * leaves every other channel to Hercules.
 *
 *     LDMOD hdtchan                        in the configuration, before the devices
 *     0190 2314 pack.ckd [ro] [arms]       an uncompressed CKD_P370 image in one file
 *
 * ro     the file is not written: what programs write is kept in memory, and dropped when the drive is closed
 * arms   an arm takes its time, and device end comes when it has arrived; without it that comes at once
 *
 * Written tracks go to the file at the end of each channel program. */
#include "channel.h"

/* The instructions of Hercules, for all other channels. */
void s370_start_io(BYTE inst[], REGS *regs);
void s370_test_io(BYTE inst[], REGS *regs);
void s370_halt_io(BYTE inst[], REGS *regs);
void s370_test_channel(BYTE inst[], REGS *regs);
void s370_store_channel_id(BYTE inst[], REGS *regs);

/* Where a channel's identification is stored; the high bit of a second byte that makes SIO, TIO, HIO and TCH another instruction. */
enum { CHANNEL_ID = 168, VARIANT = 1, HEADER_TYPE = 16 };

/* --- Instructions --- */

/* A device of another module on a channel of ours is not found: the console is told, once for each channel. */
static void tell_of_other(const DEVBLK *dev) {
    static bool told[CHANNELS];
    bool *of_channel = &told[dev->devnum >> 8];
    if (!*of_channel)
        logmsg("HHCSX010E %4.4X %s is not found: a channel with a drive of this module has no other devices\n", dev->devnum, dev->typname);
    *of_channel = true;
}

/* Whether an instruction is for a channel of ours, in supervisor state; then it is begun: its address is known, and the lock is held. */
static bool begin(const BYTE *inst, REGS *regs, struct target *t) {
    U32 at = (U32)(inst[2] & 15) << 8 | inst[3];
    if (inst[2] >> 4) at += regs->GR_L(inst[2] >> 4);
    if (PROBSTATE(&regs->psw) || SIE_MODE(regs) || regs->chanset != 0 || !channel_is_ours((uint16_t)at)) return false;
    INST_UPDATE_PSW(regs, 4, 4);
    OBTAIN_INTLOCK(regs);
    t->address = (uint16_t)at;
    t->channel = (uint8_t)(t->address >> 8);
    t->dev = find_device_by_devnum(0, t->address);
    if (t->dev && t->dev->hnd != &channel_handler) {
        tell_of_other(t->dev);
        t->dev = NULL;
    }
    return true;
}

/* Ends it with its condition code; what pends now is seen by the processors. */
static void end(REGS *regs, int code) {
    regs->psw.cc = (BYTE)code;
    UPDATE_IC_IOPENDING();
    RELEASE_INTLOCK(regs);
}

/* SIO; and SIOF, which a channel that can't let the processor go early executes as SIO. */
static void start_io(BYTE inst[], REGS *regs) {
    struct target t;
    if (!begin(inst, regs, &t)) {
        s370_start_io(inst, regs);
        return;
    }
    end(regs, channel_ready(&t) ? channel_start(regs, &t) : 3);
    regs->siocount++;
}

/* TIO; and CLRIO, which a channel without that function executes as TIO. */
static void test_io(BYTE inst[], REGS *regs) {
    struct target t;
    int code;
    if (!begin(inst, regs, &t)) {
        s370_test_io(inst, regs);
        return;
    }
    code = channel_ready(&t) ? channel_test(regs, &t) : 3;
    end(regs, code);
    if (code == 2) sched_yield();
}

/* HIO; and HDV, which leaves alone the program of another drive. */
static void halt_io(BYTE inst[], REGS *regs) {
    struct target t;
    uint8_t unit;
    if (!begin(inst, regs, &t)) {
        s370_halt_io(inst, regs);
        return;
    }
    if (!channel_ready(&t)) end(regs, 3);
    else if (inst[1] & VARIANT && channel_works(t.channel, &unit) && unit != (t.address & 0xFF)) end(regs, 2);
    else end(regs, channel_halt(regs, &t));
}

/* TCH; and CLRCH, which resets the channel and its drives. */
static void test_channel(BYTE inst[], REGS *regs) {
    struct target t;
    if (!begin(inst, regs, &t)) {
        s370_test_channel(inst, regs);
        return;
    }
    if (!channel_ready(&t)) {
        end(regs, 3);
    } else if (inst[1] & VARIANT) {
        channel_reset(t.channel);
        end(regs, 0);
    } else {
        end(regs, channel_ask(&t));
    }
}

/* STIDC: a selector channel, of no model, without a logout. */
static void store_channel_id(BYTE inst[], REGS *regs) {
    struct target t;
    if (!begin(inst, regs, &t)) {
        s370_store_channel_id(inst, regs);
        return;
    }
    memset(regs->mainstor + regs->PX + CHANNEL_ID, 0, 4);
    STORAGE_KEY(regs->PX, regs) |= STORKEY_REF | STORKEY_CHANGE;
    end(regs, 0);
}

/* --- The device --- */

/* Hercules gives the first word of a load here, and nothing else in System/370 mode: the whole program is run, and its status ends Hercules'
 * own chain as an alert does. */
static void load(DEVBLK *dev, BYTE code, BYTE flags, BYTE chained, U16 count, BYTE prevcode, int ccwseq, BYTE *iobuf, BYTE *more, BYTE *unitstat,
                 U16 *residual) {
    uint8_t csw[8];
    UNREFERENCED(flags);
    UNREFERENCED(chained);
    UNREFERENCED(prevcode);
    UNREFERENCED(iobuf);
    *more = 0;
    *residual = count;
    *unitstat = CSW_CE | CSW_DE;
    if (sysblk.arch_mode != ARCH_370 || code != 2 || ccwseq) {
        logmsg("HHCSX009E %4.4X works in System/370 mode alone\n", dev->devnum);
        *unitstat |= CSW_UC;
        return;
    }
    OBTAIN_INTLOCK(NULL);
    channel_load(dev, csw);
    RELEASE_INTLOCK(NULL);
    memcpy(dev->csw, csw, sizeof csw);
    dev->scsw.flag3 |= SCSW3_SC_ALERT;
}

/* Hercules holds the device's lock; where both are held the interruption lock is taken first. */
static void take_lock(DEVBLK *dev) {
    release_lock(&dev->lock);
    OBTAIN_INTLOCK(NULL);
}

static void leave_lock(DEVBLK *dev) {
    UPDATE_IC_IOPENDING();
    RELEASE_INTLOCK(NULL);
    obtain_lock(&dev->lock);
}

static int close_device(DEVBLK *dev) {
    struct unit *u = unit_of(dev);
    int fault;
    if (!u) return 0;
    take_lock(dev);
    if (!channel_detach(dev)) logmsg("HHCSX007E %4.4X %s: written tracks are lost\n", dev->devnum, u->file.name);
    dev->dev_data = NULL;
    leave_lock(dev);
    fault = pack_close(&u->file);
    if (fault) logmsg("HHCSX003E %4.4X %s is not written: %s\n", dev->devnum, u->file.name, strerror(fault));
    free(u);
    dev->fd = -1;
    return 0;
}

/* Why a device can't be on its channel, or NULL. */
static const char *bad_place(const DEVBLK *dev) {
    int drives = 0;
    if (sysblk.arch_mode != ARCH_370) return "ARCHMODE S/370 is wanted before it: ESA/390 and z/Architecture have no selector channels";
    if (dev->devnum >> 8 >= CHANNELS || SSID_TO_LCSS(dev->ssid)) return "a selector channel is one of 0 to 6";
    for (const DEVBLK *it = sysblk.firstdev; it; it = it->nextdev) {
        if (!it->allocated || it == dev || it->devnum >> 8 != dev->devnum >> 8) continue;
        if (it->hnd != &channel_handler) return "a channel with a drive of this module has no other devices";
        drives++;
    }
    return drives < UNITS ? NULL : "a channel has at most eight drives";
}

/* The options behind the file's name: NULL, or why they are none. */
static const char *read_options(struct unit *u, int argc, char *argv[], bool *read_only) {
    for (int i = 1; i < argc; i++) {
        if (!strcasecmp(argv[i], "ro")) *read_only = true;
        else if (!strcasecmp(argv[i], "arms")) u->arms = true;
        else return "the options are ro and arms";
    }
    return NULL;
}

/* Reads the image: NULL, or why there is none of this drive. */
static const char *read_image(struct unit *u, int type) {
    const char *why;
    dasd_space space;
    dasd_bytes bytes;
    int32_t fault = dasd_files_new(&u->files, &u->file.len, 1);
    if (fault < 0 || (fault = dasd_files_show(&u->files, 0, &space)) < 0) return dasd_fault_text(fault);
    why = pack_read(&u->file, space.at);
    if (why) return why;
    bytes = (dasd_bytes){space.at, space.len};
    fault = dasd_check(&bytes, 1);
    if (fault < 0) return dasd_fault_text(fault);
    return space.at[HEADER_TYPE] == (type & 0xFF) ? NULL : "the image is of the other drive";
}

/* Opens, reads and attaches a pack: NULL, or why not. */
static const char *attach(DEVBLK *dev, struct unit *u, int argc, char *argv[]) {
    bool read_only = false;
    const char *why = bad_place(dev);
    u->file.fd = -1;
    if (!why && argc < 1) why = "the name of an image is wanted";
    if (!why) why = read_options(u, argc, argv, &read_only);
    if (!why) why = pack_open(&u->file, argv[0], read_only);
    if (!why) why = read_image(u, dev->devtype);
    if (why) return why;
    dev->dev_data = u;
    take_lock(dev);
    why = channel_attach(dev);
    if (why) dev->dev_data = NULL;
    leave_lock(dev);
    return why;
}

static int init_device(DEVBLK *dev, int argc, char *argv[]) {
    struct unit *u = calloc(1, sizeof *u);
    const char *why;
    if (dev->dev_data) close_device(dev);
    dev->devtype = strcmp(dev->typname, "2311") ? 0x2314 : 0x2311;
    why = u ? attach(dev, u, argc, argv) : "memory was refused";
    if (why) {
        logmsg("HHCSX002E %4.4X %s: %s\n", dev->devnum, argc < 1 ? "" : argv[0], why);
        if (u) {
            pack_close(&u->file);
            dasd_files_free(&u->files);
        }
        free(u);
        return -1;
    }
    strlcpy(dev->filename, argv[0], sizeof dev->filename);
    dev->fd = u->file.fd; /* at its end Hercules closes devices whose fd is above 2 */
    dev->numsense = 6;
    logmsg("HHCSX000I %4.4X %s: a %4.4X on a selector channel%s\n", dev->devnum, u->file.name, dev->devtype,
           u->file.read_only ? ", read only: what is written is kept in memory, and dropped at close" : "");
    return 0;
}

static void query_device(DEVBLK *dev, char **class, int buflen, char *buffer) {
    BEGIN_DEVICE_CLASS_QUERY("DASD", dev, class, buflen, buffer);
    snprintf(buffer, (size_t)buflen, "%s [selector channel]", dev->filename);
}

DEVHND channel_handler = {.init = init_device, .exec = load, .close = close_device, .query = query_device};

HDL_DEPENDENCY_SECTION;
{
    HDL_DEPENDENCY(HERCULES);
    HDL_DEPENDENCY(DEVBLK);
    HDL_DEPENDENCY(SYSBLK);
    HDL_DEPENDENCY(REGS);
}
END_DEPENDENCY_SECTION

HDL_DEVICE_SECTION;
{
    HDL_DEVICE(2311, channel_handler);
    HDL_DEVICE(2314, channel_handler);
}
END_DEVICE_SECTION

HDL_INSTRUCTION_SECTION;
{
    hdl_init_dins(HDL_INSTARCH_370, 0x9C00, "hdtchan_start_io", (void *)start_io);
    hdl_init_dins(HDL_INSTARCH_370, 0x9D00, "hdtchan_test_io", (void *)test_io);
    hdl_init_dins(HDL_INSTARCH_370, 0x9E00, "hdtchan_halt_io", (void *)halt_io);
    hdl_init_dins(HDL_INSTARCH_370, 0x9F00, "hdtchan_test_channel", (void *)test_channel);
    hdl_init_dins(HDL_INSTARCH_370, 0xB203, "hdtchan_store_channel_id", (void *)store_channel_id);
}
END_INSTRUCTION_SECTION
