/* processors.c - how far the processors of Hercules are: see processors.h. */
#include "processors.h"

/* Between two slices a processor that runs does so many instructions; for so many looks, each after so many microseconds, it is waited for. */
enum { SHARE = 256, LOOKS = 20000, LOOK = 50 };

U64 processors_done(void) {
    U64 sum = 0;
    for (int i = 0; i < MAX_CPU; i++)
        if (sysblk.regs[i]) sum += sysblk.regs[i]->instcount + sysblk.regs[i]->prevcount;
    return sum;
}

/* Whether a processor that waits is about to take an interruption of a device. */
static bool may_take(const REGS *regs, const DEVBLK *dev) {
    int channel = dev->devnum >> 8;
    if (!ECMODE(&regs->psw) && channel < 6) return regs->psw.sysmask & 0x80 >> channel;
    return regs->psw.sysmask & PSW_IOMASK && regs->CR_L(2) & 0x80000000U >> (channel > 31 ? 31 : channel);
}

bool processors_go_on(void) {
    bool any = sysblk.started_mask & ~sysblk.waiting_mask;
    obtain_lock(&sysblk.iointqlk);
    for (const IOINT *io = sysblk.iointq; io && !any; io = io->next)
        for (int i = 0; i < MAX_CPU; i++)
            if (sysblk.regs[i] && sysblk.started_mask & sysblk.regs[i]->cpubit) any = any || may_take(sysblk.regs[i], io->dev);
    release_lock(&sysblk.iointqlk);
    return any;
}

void processors_share(void) {
    U64 before = processors_done();
    for (int i = 0; i < LOOKS; i++) {
        usleep(LOOK);
        if (processors_done() - before >= SHARE || !processors_go_on()) return;
    }
}
