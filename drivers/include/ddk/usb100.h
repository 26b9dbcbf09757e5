/* ddk/usb100.h: as usb100.h. */
#ifndef DDK_USB100_H
#define DDK_USB100_H

#include "../usb100.h"

#endif
