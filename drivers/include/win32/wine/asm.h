/* wine/asm.h: see win32.h. */
#ifndef WDM_WIN32_WINE_ASM_H
#define WDM_WIN32_WINE_ASM_H

#include "../win32.h"

#endif
