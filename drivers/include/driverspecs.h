/* driverspecs.h: annotations. */
#ifndef DRIVERSPECS_H
#define DRIVERSPECS_H

#include "wdm_annotations.h"

#endif
