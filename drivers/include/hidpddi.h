/* hidpddi.h: see wdm_hid.h. */
#ifndef WDM_HIDPDDI_H
#define WDM_HIDPDDI_H

#include "wdm_hid.h"

#endif
