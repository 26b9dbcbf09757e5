/* winnt.h: see win32.h. */
#ifndef WDM_WIN32_WINNT_H
#define WDM_WIN32_WINNT_H

#include "win32.h"

#endif
