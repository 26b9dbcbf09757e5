/* windef.h: see win32.h. */
#ifndef WDM_WIN32_WINDEF_H
#define WDM_WIN32_WINDEF_H

#include "win32.h"

#endif
