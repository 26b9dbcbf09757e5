/* ntddk.h: what `#include <ntddk.h>` finds: as wdm.h. */
#ifndef NTDDK_H
#define NTDDK_H

#include "wdm.h"
#include "wdm_disk.h"

#endif
