/* initguid.h: from here on DEFINE_GUID makes the GUID, in each file that does so the same one. */
#ifndef INITGUID
#define INITGUID
#endif
#include "wdm_guid.h"
