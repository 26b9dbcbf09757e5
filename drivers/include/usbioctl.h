/* usbioctl.h: see wdm_usb.h. */
#ifndef WDM_USBIOCTL_FORWARDED_H
#define WDM_USBIOCTL_FORWARDED_H

#include "wdm_usb.h"

#endif
