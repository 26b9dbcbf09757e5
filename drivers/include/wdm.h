/* wdm.h: so that `#include <wdm.h>` of a driver finds the part of the driver interface that the host has. */
#ifndef WDM_H
#define WDM_H

#include "wdm_io.h"
#include "wdm_hw.h"
#include "wdm_security.h"
#include "wdm_trace.h"
#include "wdm_guid.h"
#include "wdm_bits.h"
#include "wdm_share.h"
#include "wdm_timers.h"
#include "wdm_locks.h"
#include "wdm_callbacks.h"
#include "wdm_dma.h"
#include "wdm_power.h"
#include "wdm_pofx.h"
#include "wdm_levels.h"

#endif
