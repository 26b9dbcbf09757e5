/* sal.h: annotations. */
#ifndef SAL_H
#define SAL_H

#include "wdm_annotations.h"

#endif
