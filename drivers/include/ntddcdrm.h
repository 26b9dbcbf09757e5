/* ntddcdrm.h: the names of disks aren't here; where `run --wine` names a folder that has them, they are taken from there. */
#ifndef WDM_NTDDCDRM_H
#define WDM_NTDDCDRM_H

#include "wdm.h"
#if __has_include_next(<ntddcdrm.h>)
#include_next <ntddcdrm.h>
#endif

#endif
