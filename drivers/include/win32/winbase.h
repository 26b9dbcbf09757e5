/* winbase.h: see win32.h. */
#ifndef WDM_WIN32_WINBASE_H
#define WDM_WIN32_WINBASE_H

#include "win32.h"

#endif
