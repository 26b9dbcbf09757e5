/* ddk/ntstrsafe.h: as ntstrsafe.h. */
#ifndef DDK_NTSTRSAFE_H
#define DDK_NTSTRSAFE_H

#include "../ntstrsafe.h"

#endif
