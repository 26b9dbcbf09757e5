/* usb100.h: see wdm_usb.h. */
#ifndef WDM_USB100_FORWARDED_H
#define WDM_USB100_FORWARDED_H

#include "wdm_usb.h"

#endif
