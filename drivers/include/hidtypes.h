/* hidtypes.h: see wdm_hid.h. */
#ifndef WDM_HIDTYPES_H
#define WDM_HIDTYPES_H

#include "wdm_hid.h"

#endif
