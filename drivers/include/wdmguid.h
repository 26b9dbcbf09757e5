/* wdmguid.h: GUIDs of Plug and Play. */
#ifndef WDMGUID_H
#define WDMGUID_H

#include "wdm_guid.h"

#endif
