/* ntddstor.h: the names of disks aren't here; where `run --wine` names a folder that has them, they are taken from there. */
#ifndef WDM_NTDDSTOR_H
#define WDM_NTDDSTOR_H

#include "wdm.h"
#if __has_include_next(<ntddstor.h>)
#include_next <ntddstor.h>
#endif

#endif
