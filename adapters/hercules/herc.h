/* herc.h - the headers of Hercules 3.13, as its own device modules have them. */
#ifndef HERC_H
#define HERC_H

#include "hstdinc.h"

#include "hercules.h"

#include "devtype.h"
#include "opcode.h"

#endif
