/* ddk/hidpi.h: as hidpi.h. */
#ifndef DDK_HIDPI_H
#define DDK_HIDPI_H

#include "../hidpi.h"

#endif
