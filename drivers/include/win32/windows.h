/* windows.h: see win32.h. */
#ifndef WDM_WIN32_WINDOWS_H
#define WDM_WIN32_WINDOWS_H

#include "win32.h"

#endif
