/* setupapi.h: see win32.h. */
#ifndef WDM_WIN32_SETUPAPI_H
#define WDM_WIN32_SETUPAPI_H

#include "win32.h"

#endif
