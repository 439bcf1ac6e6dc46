/* again.c - the whole machine is copied in the middle of its run, and gone back to. The library copies what is behind the handle, also in
 * the middle of channel programs, and with the volumes that are mounted; what the emulator has beside that is its own to copy: registers,
 * the clock and what it waits for, packs on the shelf, and main storage and keys where they are the emulator's. */
#include <stdlib.h>
#include <string.h>

#include "s360.h"

/* Volumes on the shelf have bytes of their own in each machine. */
static int copy_shelf(machine *m) {
    int bad = 0;
    for (int i = 0; i < m->volume_count; i++) {
        volume *v = &m->volumes[i];
        const uint8_t *bytes = v->bytes;
        if (!bytes) continue;
        v->bytes = malloc(v->len);
        if (v->bytes) memcpy(v->bytes, bytes, v->len);
        else bad = -1;
    }
    return bad;
}

/* Makes `to` what `from` is. Where main storage is the emulator's, its bytes go to `room`. */
static int become(machine *to, machine *from, uint8_t *room) {
    dasd_storage shown = {room, from->size};
    *to = *from;
    to->d = (dasd)DASD_NOTHING;
    to->storage = room;
    if (copy_shelf(to) || dasd_copy(&from->d, &to->d) != DASD_DONE) return -1;
    if (!to->lends) dasd_show_storage(&to->d, &shown);
    else if (room) memcpy(room, from->storage, from->size);
    to->storage = shown.at;
    to->memory = (dasd_memory){to->storage, to->size, to->keys, BLOCKS};
    return 0;
}

int keep(machine *m, machine *kept) {
    uint8_t *room = m->lends ? malloc(m->size) : NULL;
    if (m->lends && !room) return -1;
    if (become(kept, m, room) == 0) return 0;
    drop(kept);
    return -1;
}

int go_back(machine *m, machine *kept) {
    uint8_t *room = m->storage;
    free_volumes(m);
    dasd_free(&m->d);
    return become(m, kept, room);
}

void drop(machine *kept) {
    free_volumes(kept);
    dasd_free(&kept->d);
    if (kept->lends) free(kept->storage);
    kept->storage = NULL;
}
