/* ddk/hidtypes.h: as hidtypes.h. */
#ifndef DDK_HIDTYPES_H
#define DDK_HIDTYPES_H

#include "../hidtypes.h"

#endif
