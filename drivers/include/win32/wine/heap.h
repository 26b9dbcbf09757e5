/* wine/heap.h: see win32.h. */
#ifndef WDM_WIN32_WINE_HEAP_H
#define WDM_WIN32_WINE_HEAP_H

#include "../win32.h"

#endif
