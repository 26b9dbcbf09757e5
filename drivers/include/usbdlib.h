/* usbdlib.h: see wdm_usb.h. */
#ifndef WDM_USBDLIB_FORWARDED_H
#define WDM_USBDLIB_FORWARDED_H

#include "wdm_usb.h"

#endif
