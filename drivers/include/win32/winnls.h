/* winnls.h: see win32.h. */
#ifndef WDM_WIN32_WINNLS_H
#define WDM_WIN32_WINNLS_H

#include "win32.h"

#endif
