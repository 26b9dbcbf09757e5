/* cfgmgr32.h: see win32.h. */
#ifndef WDM_WIN32_CFGMGR32_H
#define WDM_WIN32_CFGMGR32_H

#include "win32.h"

#endif
