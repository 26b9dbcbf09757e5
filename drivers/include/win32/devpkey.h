/* devpkey.h: see win32.h. It makes its keys where initguid.h was included before. */
#ifndef WDM_WIN32_DEVPKEY_H
#define WDM_WIN32_DEVPKEY_H

#include "win32.h"

#endif

#include "wdm_guid.h"
#if defined INITGUID && !defined WDM_WIN32_DEVPKEYS
#define WDM_WIN32_DEVPKEYS
DEFINE_DEVPROPKEY(DEVPKEY_NAME, 0xb725f130, 0x47ef, 0x101a, 0xa5, 0xf1, 0x02, 0x60, 0x8c, 0x9e, 0xeb, 0xac, 10);
#endif
