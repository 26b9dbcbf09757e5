/* ntddscsi.h: the names of disks aren't here; where `run --wine` names a folder that has them, they are taken from there. */
#ifndef WDM_NTDDSCSI_H
#define WDM_NTDDSCSI_H

#include "wdm.h"
#if __has_include_next(<ntddscsi.h>)
#include_next <ntddscsi.h>
#endif

#endif
