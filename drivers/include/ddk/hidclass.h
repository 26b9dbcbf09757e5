/* ddk/hidclass.h: as hidclass.h. */
#ifndef DDK_HIDCLASS_H
#define DDK_HIDCLASS_H

#include "../hidclass.h"

#endif
