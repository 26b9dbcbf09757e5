/* ntdef.h: plain types. */
#ifndef NTDEF_H
#define NTDEF_H

#include "wdm_base.h"

#endif
