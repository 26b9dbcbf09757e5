/* ddk/usb200.h: as usb200.h. */
#ifndef DDK_USB200_H
#define DDK_USB200_H

#include "../usb200.h"

#endif
