/* ddk/usbdlib.h: as usbdlib.h. */
#ifndef DDK_USBDLIB_H
#define DDK_USBDLIB_H

#include "../usbdlib.h"

#endif
