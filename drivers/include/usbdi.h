/* usbdi.h: see wdm_usb.h. */
#ifndef WDM_USBDI_FORWARDED_H
#define WDM_USBDI_FORWARDED_H

#include "wdm_usb.h"

#endif
