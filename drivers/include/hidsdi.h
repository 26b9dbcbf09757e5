/* hidsdi.h: see wdm_hid.h. */
#ifndef WDM_HIDSDI_H
#define WDM_HIDSDI_H

#include "wdm_hid.h"

#endif
