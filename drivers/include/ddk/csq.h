/* ddk/csq.h: as csq.h. */
#ifndef DDK_CSQ_H
#define DDK_CSQ_H

#include "../csq.h"

#endif
