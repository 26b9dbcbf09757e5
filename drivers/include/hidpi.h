/* hidpi.h: see wdm_hid.h. */
#ifndef WDM_HIDPI_H
#define WDM_HIDPI_H

#include "wdm_hid.h"

#endif
