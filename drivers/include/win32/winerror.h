/* winerror.h: see win32.h. */
#ifndef WDM_WIN32_WINERROR_H
#define WDM_WIN32_WINERROR_H

#include "win32.h"

#endif
