/* winioctl.h: see win32.h and wdm_disk.h. */
#ifndef WDM_WIN32_WINIOCTL_H
#define WDM_WIN32_WINIOCTL_H

#include "win32.h"
#include "../wdm_disk.h"

#endif
