/* regstr.h: see win32.h. */
#ifndef WDM_WIN32_REGSTR_H
#define WDM_WIN32_REGSTR_H

#include "win32.h"

#endif
