/* ddk/wdm.h: as wdm.h. */
#ifndef DDK_WDM_H
#define DDK_WDM_H

#include "../wdm.h"

#endif
