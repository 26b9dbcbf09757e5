/* behind.c: gives back what a script left, once its transcript has been read. Compiled without the recorder. */
#include "player.h"

VOID PlayFreeBehind(PIRP Irp) { IoFreeIrp(Irp); }
VOID PlayDetachBehind(PDEVICE_OBJECT Lower) { IoDetachDevice(Lower); }
VOID PlayDeleteBehind(PDEVICE_OBJECT Device) { IoDeleteDevice(Device); }
