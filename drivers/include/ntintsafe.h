/* ntintsafe.h: what `#include <ntintsafe.h>` finds. */
#ifndef NTINTSAFE_H
#define NTINTSAFE_H

#include "wdm_safe.h"

#endif
