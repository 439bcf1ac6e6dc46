/* volumes.c - volumes on drives and on the shelf. Their files are read as the machine is made, and written as it ends: in between a volume
 * is in memory, also while no drive has it, so that the machine can be copied with all its packs, and gone back to. */
#include <errno.h>
#include <stdlib.h>
#include <string.h>

#include "s360.h"

static int complain(const machine *m, const volume *v, const char *why) {
    if (m->told) fprintf(m->told, "s360: %s: %s\n", v->path, why);
    return -1;
}

static int complain_of_fault(const machine *m, const volume *v, int fault) {
    char why[128];
    snprintf(why, sizeof why, "refused with %d: %s", fault, dasd_fault_text(fault));
    return complain(m, v, why);
}

volume *read_volume(machine *m, const char *path, const char *serial) {
    volume *v = &m->volumes[m->volume_count];
    if (m->volume_count == MOST_VOLUMES) return NULL;
    *v = (volume){.address = 0};
    snprintf(v->serial, sizeof v->serial, "%s", serial);
    if (snprintf(v->path, sizeof v->path, "%s", path) >= (int)sizeof v->path) return complain(m, v, strerror(ENAMETOOLONG)), NULL;
    v->bytes = read_file(path, &v->len);
    if (!v->bytes) return complain(m, v, strerror(errno)), NULL;
    m->volume_count++;
    return v;
}

/* The library copies the bytes: so they are given back. */
int mount(machine *m, volume *v, uint16_t address) {
    dasd_file shown;
    const dasd_bytes file = {v->bytes, v->len};
    int code = dasd_attach(&m->d, address, &file, 1);
    if (code != DASD_DONE) return complain_of_fault(m, v, code);
    free(v->bytes);
    v->bytes = NULL;
    v->address = address;
    dasd_show_file(&m->d, address, 0, &shown);
    v->changes = shown.changes;
    arm_of_drive(m, address);
    return 0;
}

/* What is shown is the library's, and is gone with the drive: so it is copied first. */
int dismount(machine *m, volume *v) {
    dasd_file shown;
    if (dasd_show_file(&m->d, v->address, 0, &shown) != DASD_DONE) return -1;
    uint8_t *bytes = malloc(shown.len);
    int is_changed = shown.changes != v->changes;
    if (bytes) memcpy(bytes, shown.at, shown.len);
    if (!bytes || dasd_detach(&m->d, v->address) != DASD_DONE) {
        free(bytes);
        return -1;
    }
    v->bytes = bytes;
    v->address = 0;
    v->is_changed |= is_changed;
    return 0;
}

volume *volume_at(machine *m, uint16_t address) {
    for (int i = 0; i < m->volume_count; i++)
        if (m->volumes[i].address == address) return &m->volumes[i];
    return NULL;
}

/* On the shelf. */
volume *volume_called(machine *m, const char *serial) {
    for (int i = 0; i < m->volume_count; i++)
        if (!m->volumes[i].address && !strcmp(m->volumes[i].serial, serial)) return &m->volumes[i];
    return NULL;
}

/* The tracks that were written go where they belong in the file. If the power fails meanwhile, some of them are new and some old, and one
 * may be half of each, as on a pack at which a program wrote: an emulator that wants all or nothing writes them to a journal first, or
 * the whole file anew, as below. */
static int save_tracks(machine *m, const volume *v, const dasd_file *shown) {
    dasd_changed track = {0, 0, 0, 0};
    int fd = open_to_save(v->path, shown->len), bad = 0;
    if (fd < 0) return -1;
    while (!bad && dasd_next_changed(&m->d, v->address, 0, v->changes, &track) == 1)
        bad = write_at(fd, track.at, shown->at + track.at, track.len);
    return close_saved(fd, bad);
}

/* Saves a volume, if it was written since it was read or saved. What was not saved is saved the next time. */
static int save(machine *m, volume *v) {
    dasd_file shown = {v->bytes, v->len, v->changes};
    int code = v->address ? dasd_show_file(&m->d, v->address, 0, &shown) : DASD_DONE;
    if (code != DASD_DONE) return complain_of_fault(m, v, code);
    if (shown.changes == v->changes && !v->is_changed) return 0;
    if (v->is_changed ? save_file(v->path, shown.at, shown.len) : save_tracks(m, v, &shown)) return complain(m, v, strerror(errno));
    v->changes = shown.changes;
    v->is_changed = 0;
    if (m->told) fprintf(m->told, "s360: %s is saved\n", v->path);
    return 0;
}

int save_volumes(machine *m) {
    int bad = 0;
    for (int i = 0; i < m->volume_count; i++)
        if (save(m, &m->volumes[i])) bad = -1;
    return bad;
}

void free_volumes(machine *m) {
    for (int i = 0; i < m->volume_count; i++) {
        free(m->volumes[i].bytes);
        m->volumes[i].bytes = NULL;
    }
}
