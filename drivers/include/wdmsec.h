/* wdmsec.h: IoCreateDeviceSecure. */
#ifndef WDMSEC_H
#define WDMSEC_H

#include "wdm.h"

#endif
