/* usb200.h: see wdm_usb.h. */
#ifndef WDM_USB200_FORWARDED_H
#define WDM_USB200_FORWARDED_H

#include "wdm_usb.h"

#endif
