/* wine/unixlib.h: see win32.h. */
#ifndef WDM_WIN32_WINE_UNIXLIB_H
#define WDM_WIN32_WINE_UNIXLIB_H

#include "../win32.h"

#endif
