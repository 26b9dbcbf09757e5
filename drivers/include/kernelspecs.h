/* kernelspecs.h: annotations. */
#ifndef KERNELSPECS_H
#define KERNELSPECS_H

#include "wdm_annotations.h"

#endif
