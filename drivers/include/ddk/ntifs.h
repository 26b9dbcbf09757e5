/* ddk/ntifs.h: as ntifs.h. */
#ifndef DDK_NTIFS_H
#define DDK_NTIFS_H

#include "../ntifs.h"

#endif
