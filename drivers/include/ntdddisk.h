/* ntdddisk.h: see wdm_disk.h; other names of disks come from the folder that `run --wine` names, where it has them. */
#ifndef WDM_NTDDDISK_H
#define WDM_NTDDDISK_H

#include "wdm_disk.h"
#if __has_include_next(<ntdddisk.h>)
#include_next <ntdddisk.h>
#endif

#endif
