/* ddk/hidport.h: as hidport.h. */
#ifndef DDK_HIDPORT_H
#define DDK_HIDPORT_H

#include "../hidport.h"

#endif
