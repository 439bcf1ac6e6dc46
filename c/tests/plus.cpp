// plus.cpp - the header and the library from C++.
#include "../dasd.h"

int main() {
    dasd d = DASD_NOTHING;
    if (dasd_new(&d, 4096, DASD_CHANNEL(1)) != DASD_DONE) return 1;
    const bool attached = dasd_attach_new(&d, 0x190, 2311, 1) == DASD_DONE && dasd_tio(&d, 0x190) == 0;
    return dasd_free(&d) == DASD_DONE && attached ? 0 : 1;
}
