/* wmilib.h: the WMI library: stubs. */
#ifndef WMILIB_H
#define WMILIB_H

#include "wdm.h"

#endif
