/* wmistr.h: WMI: stubs. */
#ifndef WMISTR_H
#define WMISTR_H

#include "wdm.h"

#endif
