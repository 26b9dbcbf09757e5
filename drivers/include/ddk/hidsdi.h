/* ddk/hidsdi.h: as hidsdi.h. */
#ifndef DDK_HIDSDI_H
#define DDK_HIDSDI_H

#include "../hidsdi.h"

#endif
