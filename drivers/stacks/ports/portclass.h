/* portclass.h: what a minidriver hands to the class driver, and what it may call of it. */
#ifndef PORTCLASS_H
#define PORTCLASS_H

#include <wdm.h>

/* Makes the minidriver's part of a new device. */
typedef VOID PORT_CREATE(PVOID Extension);
/* Starts a read: the minidriver calls PortReadDone for it, now or later. */
typedef VOID PORT_START_READ(PVOID Extension, PIRP Irp);
/* The reads that were started are to end soon. */
typedef VOID PORT_STOP(PVOID Extension);

typedef struct {
    PDRIVER_OBJECT DriverObject;
    ULONG ExtensionSize;
    PORT_CREATE *Create;
    PORT_START_READ *StartRead;
    PORT_STOP *Stop;
} PORT_MINIDRIVER, *PPORT_MINIDRIVER;

/* The class driver takes over the minidriver's AddDevice and dispatches. */
NTSTATUS PortRegisterMinidriver(const PORT_MINIDRIVER *Minidriver);
VOID PortReadDone(PIRP Irp, NTSTATUS Status, ULONG Bytes);

#endif
