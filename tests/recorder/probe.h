/* probe.h: a small driver whose devices do what a test tells them. */
#ifndef PROBE_H
#define PROBE_H

#include "recorder.h"

typedef enum { FINISHES, HOLDS, HOLDS_UNMARKED, SKIPS, FORWARDS, FORWARDS_PENDING, FORWARDS_AND_WAITS,
               SKIPS_WITH_ROUTINE, FINISHES_TWICE, SENDS_ITS_OWN } PROBE_MODE;
typedef enum { NO_ROUTINE, WATCHES, MENDS, KEEPS, FORGETS } PROBE_ROUTINE;
typedef enum { NO_CANCEL, CANCEL_FINISHES, CANCEL_LEAVES } PROBE_CANCEL;

typedef struct {
    PDEVICE_OBJECT Lower;
    PROBE_MODE Mode;
    PROBE_ROUTINE Routine;
    PROBE_CANCEL Cancel;
    BOOLEAN OnSuccess, OnError, OnCancel;
    NTSTATUS Status;
    ULONG Information;
    PIRP Held;
} PROBE, *PPROBE;

NTSTATUS NTAPI ProbeDriverEntry(PDRIVER_OBJECT DriverObject, PUNICODE_STRING RegistryPath);
PDEVICE_OBJECT ProbeAddDevice(PDRIVER_OBJECT DriverObject, PDEVICE_OBJECT Pdo);
/* Completes what the device holds. */
VOID ProbeComplete(PDEVICE_OBJECT Device, NTSTATUS Status, ULONG Information);

#endif
