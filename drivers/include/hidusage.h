/* hidusage.h: see wdm_hid.h. */
#ifndef WDM_HIDUSAGE_H
#define WDM_HIDUSAGE_H

#include "wdm_hid.h"

#endif
