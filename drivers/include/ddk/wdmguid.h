/* ddk/wdmguid.h: as wdmguid.h. */
#ifndef DDK_WDMGUID_H
#define DDK_WDMGUID_H

#include "../wdmguid.h"

#endif
