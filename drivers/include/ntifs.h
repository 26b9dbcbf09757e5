/* ntifs.h: what `#include <ntifs.h>` finds: as wdm.h, without file systems. */
#ifndef NTIFS_H
#define NTIFS_H

#include "wdm.h"
#include "wdm_disk.h"

#endif
