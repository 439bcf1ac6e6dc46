/* storage.c - main storage: the library's, or a file that is mapped and lent to each call; and the calls that need it. */
#define _XOPEN_SOURCE 700
#include <errno.h>
#include <fcntl.h>
#include <string.h>
#include <sys/mman.h>
#include <sys/stat.h>
#include <unistd.h>

#include "s360.h"

/* The file has as many bytes as main storage, or none yet: then it is made so large, all zero. */
static uint8_t *mapped(const char *path, size_t size) {
    struct stat s;
    int fd = open(path, O_RDWR | O_CREAT | O_CLOEXEC, 0666);
    if (fd < 0) return NULL;
    void *at = MAP_FAILED;
    if (fstat(fd, &s) == 0) {
        if (s.st_size == 0 ? ftruncate(fd, (off_t)size) == 0 : s.st_size == (off_t)size)
            at = mmap(NULL, size, PROT_READ | PROT_WRITE, MAP_SHARED, fd, 0);
        else if (s.st_size != 0) errno = EINVAL;
    }
    int why = errno;
    close(fd);
    errno = why;
    return at == MAP_FAILED ? NULL : at;
}

int open_storage(machine *m, const char *path) {
    dasd_storage shown;
    m->size = STORAGE;
    m->lends = path != NULL;
    if (!m->lends) {
        if (dasd_new(&m->d, STORAGE, CHANNELS) != DASD_DONE) return errno = ENOMEM, -1;
        dasd_show_storage(&m->d, &shown);
        m->storage = shown.at;
        return 0;
    }
    m->storage = mapped(path, STORAGE);
    if (!m->storage) return -1;
    m->memory = (dasd_memory){m->storage, STORAGE, m->keys, BLOCKS};
    return dasd_new_lent(&m->d, STORAGE, CHANNELS) == DASD_DONE ? 0 : (errno = ENOMEM, -1);
}

int close_storage(machine *m) {
    int is_mapped = m->lends && m->storage;
    uint8_t *at = m->storage;
    dasd_free(&m->d);
    m->storage = NULL;
    return is_mapped ? munmap(at, STORAGE) : 0;
}

int32_t lent_or_own_sio(machine *m, uint16_t address) { return m->lends ? dasd_lent_sio(&m->d, &m->memory, address) : dasd_sio(&m->d, address); }

int32_t lent_or_own_tio(machine *m, uint16_t address) { return m->lends ? dasd_lent_tio(&m->d, &m->memory, address) : dasd_tio(&m->d, address); }

int32_t lent_or_own_hio(machine *m, uint16_t address) { return m->lends ? dasd_lent_hio(&m->d, &m->memory, address) : dasd_hio(&m->d, address); }

int32_t lent_or_own_run_on(machine *m, uint8_t channel, uint32_t units, dasd_run *ran) {
    ran->units = units;
    return m->lends ? dasd_lent_run_on(&m->d, &m->memory, channel, ran) : dasd_run_on(&m->d, channel, units, ran);
}

int32_t lent_or_own_interrupt(machine *m, uint16_t *address) {
    return m->lends ? dasd_lent_interrupt(&m->d, &m->memory, m->mask, address) : dasd_interrupt(&m->d, m->mask, address);
}

int32_t lent_or_own_trace_look(machine *m, dasd_trace *trace, const dasd_moment *moment) {
    return m->lends ? dasd_lent_trace_look(&m->d, &m->memory, trace, moment) : dasd_trace_look(&m->d, trace, moment);
}

int32_t storage_key_of(machine *m, uint32_t at) {
    if (!m->lends) return dasd_key(&m->d, at);
    return at < m->size ? m->keys[at / BLOCK] : DASD_OUTSIDE_STORAGE;
}

int32_t set_storage_key(machine *m, uint32_t at, uint8_t key) {
    if (!m->lends) return dasd_set_key(&m->d, at, key);
    if (at >= m->size) return DASD_OUTSIDE_STORAGE;
    m->keys[at / BLOCK] = key;
    return DASD_DONE;
}
