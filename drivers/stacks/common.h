/* common.h: what the drivers of this folder repeat. Each file is a driver, and the test of it. */
#ifndef STACKS_COMMON_H
#define STACKS_COMMON_H

#include <wdm.h>
#include "wdm_test.h"
#include <pthread.h>

static inline NTSTATUS Complete(PIRP Irp, NTSTATUS Status, ULONG_PTR Information)
{
    Irp->IoStatus.Status = Status;
    Irp->IoStatus.Information = Information;
    IoCompleteRequest(Irp, IO_NO_INCREMENT);
    return Status;
}

static inline NTSTATUS PassDown(PDEVICE_OBJECT Lower, PIRP Irp)
{
    IoSkipCurrentIrpStackLocation(Irp);
    return IoCallDriver(Lower, Irp);
}

static inline LARGE_INTEGER Milliseconds(LONG n) { return (LARGE_INTEGER){ .QuadPart = -10000LL * n }; }

static inline VOID Pause(LONG n)
{
    LARGE_INTEGER time = Milliseconds(n);
    KeDelayExecutionThread(KernelMode, FALSE, &time);
}

/* A request that its sender keeps, so that it may be cancelled at any time until it is freed. */
typedef struct { PIRP Irp; KEVENT Done; NTSTATUS Status; ULONG_PTR Information; } REQUEST;

static inline NTSTATUS KeepRequest(PDEVICE_OBJECT DeviceObject, PIRP Irp, PVOID Context)
{
    REQUEST *r = Context;
    UNREFERENCED_PARAMETER(DeviceObject);
    r->Status = Irp->IoStatus.Status;
    r->Information = Irp->IoStatus.Information;
    KeSetEvent(&r->Done, IO_NO_INCREMENT, FALSE);
    return STATUS_MORE_PROCESSING_REQUIRED;
}

static inline VOID Start(REQUEST *r, PDEVICE_OBJECT Top, UCHAR Major, ULONG Length)
{
    KeInitializeEvent(&r->Done, NotificationEvent, FALSE);
    r->Irp = WdmBuildIrp(Top, Major, 0, Length, NULL, NULL);
    IoSetCompletionRoutine(r->Irp, KeepRequest, r, TRUE, TRUE, TRUE);
    IoCallDriver(Top, r->Irp);
}

static inline NTSTATUS Finish(REQUEST *r)
{
    KeWaitForSingleObject(&r->Done, Executive, KernelMode, FALSE, NULL);
    IoFreeIrp(r->Irp);
    return r->Status;
}

#endif
