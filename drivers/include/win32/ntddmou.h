/* ntddmou.h: see win32.h. */
#ifndef WDM_WIN32_NTDDMOU_H
#define WDM_WIN32_NTDDMOU_H

#include "win32.h"

#endif
