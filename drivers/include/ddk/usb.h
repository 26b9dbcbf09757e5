/* ddk/usb.h: as usb.h. */
#ifndef DDK_USB_H
#define DDK_USB_H

#include "../usb.h"

#endif
