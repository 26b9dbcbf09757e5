/* devpropdef.h: keys of device properties. */
#ifndef DEVPROPDEF_H
#define DEVPROPDEF_H

#include "wdm_guid.h"

#endif
