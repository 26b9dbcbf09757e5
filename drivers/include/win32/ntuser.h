/* ntuser.h: see win32.h. */
#ifndef WDM_WIN32_NTUSER_H
#define WDM_WIN32_NTUSER_H

#include "win32.h"

#endif
