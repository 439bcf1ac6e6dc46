/* saving.c - written tracks go to their file: see saving.h. */
#include "saving.h"

/* What is being saved. */
struct saving {
    DEVBLK *dev;
    pack *file;
    const dasd_file *shown;
    next_changed *next;
    int fault;
};

/* Writes the tracks from one on, but so many at most: how many there were. */
static uint64_t write_tracks(struct saving *s, size_t from, uint64_t most) {
    dasd_changed track = {0, 0, 0, from};
    uint64_t done = 0;
    for (; done < most && s->next(s->dev, s->file->saved, &track) == 1; done++) {
        int refused = pack_write(s->file, track.at, s->shown->at + track.at, track.len);
        if (refused) s->fault = refused;
    }
    return done;
}

/* Each write of a track makes `changes` greater: where so many tracks were found there are no others, and not every track is looked at. */
bool save_tracks(DEVBLK *dev, pack *file, const dasd_file *shown, size_t from, next_changed *next) {
    struct saving s = {dev, file, shown, next, 0};
    uint64_t writes = shown->changes - file->saved;
    if (file->read_only || !writes) return true;
    if (write_tracks(&s, from, writes) < writes) write_tracks(&s, 0, UINT64_MAX);
    if (!s.fault) file->saved = shown->changes;
    if (s.fault && !file->failed) logmsg("HHCSX003E %4.4X %s is not written: %s\n", dev->devnum, file->name, strerror(s.fault));
    if (!s.fault && file->failed) logmsg("HHCSX006I %4.4X %s is written after all\n", dev->devnum, file->name);
    file->failed = s.fault != 0;
    return !s.fault;
}
