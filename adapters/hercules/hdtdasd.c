/* hdtdasd.c - a device module for Hercules 3.13: 2311 and 2314 whose commands are executed by libdasd_drive.
 *
 *     LDMOD hdtdasd                        in the configuration, before the devices
 *     0190 2314 pack.ckd [ro] [arms]       an uncompressed CKD_P370 image in one file
 *
 * ro     the file is not written: what programs write is kept in memory, and dropped when the drive is closed
 * arms   a program that ends with a seek ends with channel end alone, and device end comes when the arm has arrived
 *
 * The channel, main storage and interruptions are Hercules' own. Written tracks go to the file at the end of each channel program. */
#include "herc.h"

#include "dasd_drive.h"
#include "pack.h"
#include "saving.h"
#include "timer.h"

/* The command Sense; equipment check, in sense byte 0. */
enum { SENSE = 0x04, EQUIPMENT_CHECK = 0x10 };
/* What an arm takes to move, and how often it looks whether its device end can be told, in microseconds. */
enum { ARM_BEGINS = 25000, ARM_CYLINDER = 550, ARM_WAITS = 1000 };

/* A drive: what dev->dev_data leads to. */
struct drive {
    dasd_drive_alone alone;
    dasd_drive_word word; /* the last one of a command */
    pack file;
    uint64_t tried;  /* the number `changes` of the volume, as its tracks were saved last, or were tried to be */
    bool arms;       /* whether arms take time */
    int from, to;    /* where the arm was, and goes to: alike where it rests */
    bool owes_check; /* a track could not be saved behind the last status of a program: the next one is told */
    bool checked;    /* the sense bytes have equipment check beside their own bits */
};

/* The codes that Hercules is to take for immediate: of their words it does not tell incorrect length. */
static BYTE immediate[256];

static struct drive *drive_of(DEVBLK *dev) { return dev->dev_data; }

static void fill_sense(DEVBLK *dev) {
    struct drive *m = drive_of(dev);
    dasd_drive_seen seen;
    if (dasd_drive_show(&m->alone, &seen) != DASD_DONE) return;
    memcpy(dev->sense, seen.sense, sizeof seen.sense);
    if (m->checked) dev->sense[0] |= EQUIPMENT_CHECK;
}

/* --- Saving --- */

static int32_t next_changed_of(DEVBLK *dev, uint64_t since, dasd_changed *track) {
    return dasd_drive_next_changed(&drive_of(dev)->alone, since, track);
}

/* Writes the tracks that were written since it was tried last, and those that could not be then; `again`: also where none was. Whether all are
 * in the file. */
static bool save(DEVBLK *dev, bool again) {
    struct drive *m = drive_of(dev);
    dasd_drive_seen seen;
    dasd_file shown;
    if (dasd_drive_show_file(&m->alone, &shown) < 0 || dasd_drive_show(&m->alone, &seen) < 0) return false;
    if (shown.changes == m->tried && !again) return true;
    m->tried = shown.changes;
    return save_tracks(dev, &m->file, &shown, (size_t)seen.cylinder * heads_of(seen.model), next_changed_of);
}

/* --- The arm --- */

static int cylinder_of(struct drive *m, int otherwise) {
    dasd_drive_seen seen;
    return dasd_drive_show(&m->alone, &seen) == DASD_DONE ? seen.cylinder : otherwise;
}

/* The arm has arrived. Where an interruption of the device still pends, its device end waits. */
static void arrive(void *of_device) {
    DEVBLK *dev = of_device;
    if (device_attention(dev, CSW_DE) == 1) timer_after(ARM_WAITS, arrive, dev);
}

/* Sends an arm off that moves: behind the end of its program. */
static void send_off(DEVBLK *dev) {
    struct drive *m = drive_of(dev);
    int crossed = abs(m->from - m->to);
    if (!crossed) return;
    m->from = m->to;
    if (!timer_after(ARM_BEGINS + ARM_CYLINDER * (uint32_t)crossed, arrive, dev)) device_attention(dev, CSW_DE);
}

/* --- Commands --- */

/* The unit status for Hercules at the end of a command. At the end of a chain it saves the written tracks. */
static uint8_t ended(DEVBLK *dev, uint8_t status, bool last) {
    struct drive *m = drive_of(dev);
    if (!(status & CSW_DE)) { /* an arm moves; within a chain it takes no time */
        if (m->arms && last) m->to = cylinder_of(m, m->to);
        if (m->from == m->to) status |= CSW_DE;
    }
    if (last || status & CSW_UC) {
        dasd_drive_settle(&m->alone);
        if (!save(dev, false)) {
            m->checked = true;
            status |= CSW_UC;
        }
    }
    return status;
}

/* Begins the command of a word, or continues that of the word before; gives the unit status for Hercules. */
static uint8_t does(DEVBLK *dev, BYTE *bytes, size_t count, bool last) {
    struct drive *m = drive_of(dev);
    dasd_drive_word *w = &m->word;
    bool begins = !w->begun;
    uint8_t told = CSW_CE | CSW_DE; /* of a record that was over with the word before, too */
    int32_t status;
    w->moved = w->left = 0;
    if (begins && m->owes_check && w->code != SENSE) {
        m->owes_check = false;
        m->checked = true;
        return told | CSW_UC;
    }
    if (begins && w->code != SENSE) m->checked = false;
    if (m->arms && last) m->from = m->to = cylinder_of(m, m->from);
    status = dasd_drive_do(&m->alone, w, bytes, count);
    if (status == DASD_COMMAND_OPEN) {
        logmsg("HHCSX004E %4.4X %s: command %2.2X, fault %d\n", dev->devnum, m->file.name, w->code, status);
        return told | CSW_UC;
    }
    if (status >= 0 && status != DASD_DRIVE_STAYS_OPEN) told = w->begun ? ended(dev, (uint8_t)status, last) : (uint8_t)status;
    if (begins && w->code == SENSE && m->checked && w->moved) bytes[0] |= EQUIPMENT_CHECK;
    return told;
}

/* Hercules gives one word at a time. Of a read whose data is chained the next call gives the rest. */
static void drive_execute(DEVBLK *dev, BYTE code, BYTE flags, BYTE chained, U16 count, BYTE prevcode, int ccwseq, BYTE *iobuf, BYTE *more,
                          BYTE *unitstat, U16 *residual) {
    dasd_drive_word *w = &drive_of(dev)->word;
    UNREFERENCED(prevcode);
    UNREFERENCED(ccwseq);
    w->code = code;
    w->begun = chained & CCW_FLAGS_CD ? DASD_DRIVE_STARTED : 0;
    w->chains = (flags & CCW_FLAGS_CD) != 0;
    *unitstat = does(dev, iobuf, count, !(flags & CCW_FLAGS_CC));
    if (w->begun) {
        *residual = (U16)(count - w->moved);
        *more = w->left > 0;
    }
    if (*unitstat & CSW_UC) {
        fill_sense(dev);
        dev->is_immed = 1; /* no incorrect length beside unit check */
    }
}

static void drive_start(DEVBLK *dev) { dasd_drive_begin_program(&drive_of(dev)->alone); }

/* Hercules calls this however a program ended, also where it calls for no more words: for a check of its channel, a halt or a clear. */
static void drive_end(DEVBLK *dev) {
    struct drive *m = drive_of(dev);
    if (dasd_drive_settle(&m->alone) == DASD_BYTES_PASSED) {
        dasd_drive_end(&m->alone);
        dasd_drive_settle(&m->alone);
    }
    if (!save(dev, false)) m->owes_check = true;
    send_off(dev);
}

/* --- Attached and detached --- */

static int drive_close(DEVBLK *dev) {
    struct drive *m = drive_of(dev);
    int fault;
    if (!m) return 0;
    timer_cancel(arrive, dev);
    m->from = m->to;
    drive_end(dev);
    if (!save(dev, true)) logmsg("HHCSX007E %4.4X %s: written tracks are lost\n", dev->devnum, m->file.name);
    fault = pack_close(&m->file);
    if (fault) logmsg("HHCSX003E %4.4X %s is not written: %s\n", dev->devnum, m->file.name, strerror(fault));
    dasd_drive_free(&m->alone);
    free(m);
    dev->dev_data = NULL;
    dev->fd = -1;
    return 0;
}

/* The options behind the file's name: NULL, or one that is not known. */
static const char *read_options(struct drive *m, int argc, char *argv[], bool *read_only) {
    *read_only = false;
    for (int i = 1; i < argc; i++) {
        if (!strcasecmp(argv[i], "ro")) *read_only = true;
        else if (!strcasecmp(argv[i], "arms")) m->arms = true;
        else return argv[i];
    }
    return NULL;
}

/* Attaches the image to the drive: NULL, or why it is none. */
static const char *attach(struct drive *m, int type, dasd_drive_seen *seen) {
    dasd_file shown;
    uint8_t *bytes = malloc(m->file.len ? m->file.len : 1);
    const char *why = bytes ? pack_read(&m->file, bytes) : "memory was refused";
    int32_t fault = why ? 0 : dasd_drive_attach(&m->alone, bytes, m->file.len);
    free(bytes);
    if (why || fault < 0) return why ? why : dasd_fault_text(fault);
    if (dasd_drive_show(&m->alone, seen) < 0 || seen->model != (type == 0x2311 ? 2311 : 2314)) return "the image is of the other drive";
    if (dasd_drive_show_file(&m->alone, &shown) < 0) return "the image is not shown";
    m->tried = m->file.saved = shown.changes;
    return NULL;
}

/* What Hercules is to know of the device. An fd above 2 has it call close at its end. */
static void show_device(DEVBLK *dev, struct drive *m, const dasd_drive_seen *seen) {
    const char *how = m->file.read_only ? ", read only: what is written is kept in memory, and dropped at close" : "";
    dev->dev_data = m;
    dev->fd = m->file.fd;
    dev->ckdcyls = seen->cylinders;
    dev->ckdheads = heads_of(seen->model);
    dev->numsense = sizeof seen->sense;
    dev->syncio = 1; /* no call waits for anything but its file */
    logmsg("HHCSX000I %4.4X %s: a %d of %d cylinders%s\n", dev->devnum, m->file.name, seen->model, seen->cylinders, how);
}

static int drive_init(DEVBLK *dev, int argc, char *argv[]) {
    struct drive *m = calloc(1, sizeof *m);
    dasd_drive_seen seen = {0};
    const char *why = "memory was refused";
    bool read_only;
    if (dev->dev_data) drive_close(dev);
    if (m) {
        m->file.fd = -1;
        dev->devtype = strcmp(dev->typname, "2311") ? 0x2314 : 0x2311;
        if (argc < 1) why = "the name of an image is wanted";
        else if ((why = read_options(m, argc, argv, &read_only))) logmsg("HHCSX005E %4.4X no such option\n", dev->devnum);
        else if (!(why = pack_open(&m->file, argv[0], read_only))) why = attach(m, dev->devtype, &seen);
    }
    if (why) {
        logmsg("HHCSX002E %4.4X %s: %s\n", dev->devnum, argc < 1 ? "" : argv[0], why);
        if (m) {
            pack_close(&m->file);
            dasd_drive_free(&m->alone);
        }
        free(m);
        return -1;
    }
    strlcpy(dev->filename, argv[0], sizeof dev->filename);
    show_device(dev, m, &seen);
    return 0;
}

static void drive_query(DEVBLK *dev, char **class, int buflen, char *buffer) {
    BEGIN_DEVICE_CLASS_QUERY("DASD", dev, class, buflen, buffer);
    snprintf(buffer, (size_t)buflen, "%s [%d cyls]", dev->filename, dev->ckdcyls);
}

static DEVHND drive_handler = {
    .init = drive_init,
    .exec = drive_execute,
    .close = drive_close,
    .query = drive_query,
    .start = drive_start,
    .end = drive_end,
    .immed = immediate,
};

/* Asks a drive which codes are immediate. */
static void ask_immediate(void) {
    dasd_drive_alone d = DASD_DRIVE_NOTHING;
    if (dasd_drive_attach_new(&d, 2311, 1) < 0) return;
    for (int code = 0; code < 256; code++) {
        dasd_drive_begin_program(&d);
        immediate[code] = dasd_drive_begin(&d, (uint8_t)code) == DASD_DRIVE_IMMEDIATE;
        dasd_drive_settle(&d);
    }
    dasd_drive_free(&d);
}

HDL_DEPENDENCY_SECTION;
{
    HDL_DEPENDENCY(HERCULES);
    HDL_DEPENDENCY(DEVBLK);
    HDL_DEPENDENCY(SYSBLK);
    HDL_DEPENDENCY(REGS);
}
END_DEPENDENCY_SECTION

HDL_DEVICE_SECTION;
{
    ask_immediate();
    HDL_DEVICE(2311, drive_handler);
    HDL_DEVICE(2314, drive_handler);
}
END_DEVICE_SECTION
