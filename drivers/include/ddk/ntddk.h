/* ddk/ntddk.h: as ntddk.h. */
#ifndef DDK_NTDDK_H
#define DDK_NTDDK_H

#include "../ntddk.h"

#endif
