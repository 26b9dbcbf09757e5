/* hidport.h: see wdm_hid.h. */
#ifndef WDM_HIDPORT_H
#define WDM_HIDPORT_H

#include "wdm_hid.h"

#endif
