/* ddk/usbdi.h: as usbdi.h. */
#ifndef DDK_USBDI_H
#define DDK_USBDI_H

#include "../usbdi.h"

#endif
