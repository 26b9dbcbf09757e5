/* usb.h: see wdm_usb.h. */
#ifndef WDM_USB_FORWARDED_H
#define WDM_USB_FORWARDED_H

#include "wdm_usb.h"

#endif
