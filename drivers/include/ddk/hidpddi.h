/* ddk/hidpddi.h: as hidpddi.h. */
#ifndef DDK_HIDPDDI_H
#define DDK_HIDPDDI_H

#include "../hidpddi.h"

#endif
