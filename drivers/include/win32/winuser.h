/* winuser.h: see win32.h. */
#ifndef WDM_WIN32_WINUSER_H
#define WDM_WIN32_WINUSER_H

#include "win32.h"

#endif
