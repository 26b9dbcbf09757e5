/* devguid.h: see win32.h. */
#ifndef WDM_WIN32_DEVGUID_H
#define WDM_WIN32_DEVGUID_H

#include "win32.h"

#endif
