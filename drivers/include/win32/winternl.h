/* winternl.h: see win32.h. */
#ifndef WDM_WIN32_WINTERNL_H
#define WDM_WIN32_WINTERNL_H

#include "win32.h"

#endif
