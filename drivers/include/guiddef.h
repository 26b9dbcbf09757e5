/* guiddef.h: GUIDs. */
#ifndef GUIDDEF_H
#define GUIDDEF_H

#include "wdm_guid.h"

#endif
