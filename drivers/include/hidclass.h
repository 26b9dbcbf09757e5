/* hidclass.h: see wdm_hid.h. */
#ifndef WDM_HIDCLASS_H
#define WDM_HIDCLASS_H

#include "wdm_hid.h"

#endif
