/* basetsd.h: see win32.h. */
#ifndef WDM_WIN32_BASETSD_H
#define WDM_WIN32_BASETSD_H

#include "win32.h"

#endif
