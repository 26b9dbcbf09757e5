/* ddk/usbioctl.h: as usbioctl.h. */
#ifndef DDK_USBIOCTL_H
#define DDK_USBIOCTL_H

#include "../usbioctl.h"

#endif
