/* excpt.h: see win32.h. */
#ifndef WDM_WIN32_EXCPT_H
#define WDM_WIN32_EXCPT_H

#include "win32.h"

#endif
