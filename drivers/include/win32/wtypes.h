/* wtypes.h: see win32.h. */
#ifndef WDM_WIN32_WTYPES_H
#define WDM_WIN32_WTYPES_H

#include "win32.h"

#endif
