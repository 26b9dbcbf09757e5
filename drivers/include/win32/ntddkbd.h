/* ntddkbd.h: see win32.h. */
#ifndef WDM_WIN32_NTDDKBD_H
#define WDM_WIN32_NTDDKBD_H

#include "win32.h"

#endif
