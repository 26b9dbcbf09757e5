/* portmini.c: a minidriver. It answers a read at once where data is there, else a timer's DPC does. */
#include "portclass.h"

typedef struct {
    KSPIN_LOCK Lock;
    PIRP Waiting; /* one at a time; the next one is answered at once */
    KTIMER Timer;
    KDPC Dpc;
} MINI, *PMINI;

static PIRP TakeWaiting(PMINI Mini)
{
    KIRQL irql;
    KeAcquireSpinLock(&Mini->Lock, &irql);
    PIRP irp = Mini->Waiting;
    Mini->Waiting = NULL;
    KeReleaseSpinLock(&Mini->Lock, irql);
    return irp;
}

static VOID DataCame(PKDPC Dpc, PVOID Context, PVOID Argument1, PVOID Argument2)
{
    UNREFERENCED_PARAMETER(Dpc);
    UNREFERENCED_PARAMETER(Argument1);
    UNREFERENCED_PARAMETER(Argument2);
    PIRP irp = TakeWaiting(Context);
    if (irp != NULL)
        PortReadDone(irp, STATUS_SUCCESS, 1);
}

static VOID Create(PVOID Extension)
{
    PMINI mini = Extension;
    KeInitializeSpinLock(&mini->Lock);
    KeInitializeTimer(&mini->Timer);
    KeInitializeDpc(&mini->Dpc, DataCame, mini);
}

static VOID StartRead(PVOID Extension, PIRP Irp)
{
    PMINI mini = Extension;
    LARGE_INTEGER soon = { .QuadPart = -10000 };
    KIRQL irql;
    KeAcquireSpinLock(&mini->Lock, &irql);
    const BOOLEAN waits = mini->Waiting == NULL;
    if (waits)
        mini->Waiting = Irp;
    KeReleaseSpinLock(&mini->Lock, irql);
    if (waits)
        KeSetTimer(&mini->Timer, soon, &mini->Dpc);
    else
        PortReadDone(Irp, STATUS_SUCCESS, 2);
}

static VOID Stop(PVOID Extension)
{
    PMINI mini = Extension;
    KeCancelTimer(&mini->Timer);
    KeFlushQueuedDpcs();
    PIRP irp = TakeWaiting(mini);
    if (irp != NULL)
        PortReadDone(irp, STATUS_DELETE_PENDING, 0);
}

NTSTATUS DriverEntry(PDRIVER_OBJECT DriverObject, PUNICODE_STRING RegistryPath)
{
    const PORT_MINIDRIVER mini = { .DriverObject = DriverObject, .ExtensionSize = sizeof(MINI), .Create = Create,
                                   .StartRead = StartRead, .Stop = Stop };
    UNREFERENCED_PARAMETER(RegistryPath);
    return PortRegisterMinidriver(&mini);
}
