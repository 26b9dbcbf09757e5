/* locks.c: locks taken twice, in two orders, by the wrong thread; given back wrongly or never; calls under a lock. */
#include "rules.h"

static NTSTATUS TakenTwice(PEXTENSION Ext, PIRP Irp, BOOLEAN Wrong)
{
    KIRQL irql, again;
    KeAcquireSpinLock(&Ext->Lock, &irql);
    if (Wrong) {
        KeAcquireSpinLock(&Ext->Lock, &again); /* told: SelfDeadlock */
        KeReleaseSpinLock(&Ext->Lock, again);
    }
    KeReleaseSpinLock(&Ext->Lock, irql);
    return Done(Irp);
}

static NTSTATUS MutexTwice(PEXTENSION Ext, PIRP Irp, BOOLEAN Wrong)
{
    ExAcquireFastMutex(&Ext->Mutex);
    if (Wrong) {
        ExAcquireFastMutex(&Ext->Mutex); /* told: SelfDeadlock_FastMutex */
        ExReleaseFastMutex(&Ext->Mutex);
    }
    ExReleaseFastMutex(&Ext->Mutex);
    return Done(Irp);
}

/* The right one takes both ways too, but under one and the same third lock. */
static NTSTATUS TwoOrders(PEXTENSION Ext, PIRP Irp, BOOLEAN Wrong)
{
    KIRQL irql, gate = PASSIVE_LEVEL;
    if (!Wrong)
        KeAcquireSpinLock(&Ext->Gate, &gate);
    KeAcquireSpinLock(&Ext->Lock, &irql);
    KeAcquireSpinLockAtDpcLevel(&Ext->Other);
    KeReleaseSpinLockFromDpcLevel(&Ext->Other);
    KeReleaseSpinLock(&Ext->Lock, irql);
    KeAcquireSpinLock(&Ext->Other, &irql);
    KeAcquireSpinLockAtDpcLevel(&Ext->Lock); /* told: LockOrder */
    KeReleaseSpinLockFromDpcLevel(&Ext->Lock);
    KeReleaseSpinLock(&Ext->Other, irql);
    if (!Wrong)
        KeReleaseSpinLock(&Ext->Gate, gate);
    return Done(Irp);
}

/* The cancel spin lock is one of them; the right one takes it first both times. */
static NTSTATUS TwoOrdersOfCancelLock(PEXTENSION Ext, PIRP Irp, BOOLEAN Wrong)
{
    KIRQL irql;
    IoAcquireCancelSpinLock(&irql);
    KeAcquireSpinLockAtDpcLevel(&Ext->Lock);
    KeReleaseSpinLockFromDpcLevel(&Ext->Lock);
    IoReleaseCancelSpinLock(irql);
    if (Wrong) {
        ExAcquireFastMutex(&Ext->Mutex);
        KeAcquireSpinLock(&Ext->Lock, &irql);
        PIRP own = IoAllocateIrp(1, FALSE);
        IoCancelIrp(own); /* told: LockOrder_CancelLock */
        IoFreeIrp(own);
        KeReleaseSpinLock(&Ext->Lock, irql);
        ExReleaseFastMutex(&Ext->Mutex);
    }
    return Done(Irp);
}

static VOID GiveBack(PVOID Context)
{
    PEXTENSION ext = Context;
    while (!InterlockedAdd(&ext->Step, 0))
        KeStallExecutionProcessor(10);
    if (ext->Wrong)
        KeReleaseSpinLockFromDpcLevel(&ext->Lock); /* told: WrongThread */
    InterlockedExchange(&ext->Step, 2);
    PsTerminateSystemThread(STATUS_SUCCESS);
}

static NTSTATUS OtherThread(PEXTENSION Ext, PIRP Irp, BOOLEAN Wrong)
{
    KIRQL irql;
    HANDLE thread;
    UNREFERENCED_PARAMETER(Wrong);
    Ext->Step = 0;
    PsCreateSystemThread(&thread, THREAD_ALL_ACCESS, NULL, NULL, NULL, GiveBack, Ext);
    KeAcquireSpinLock(&Ext->Lock, &irql);
    InterlockedExchange(&Ext->Step, 1);
    while (InterlockedAdd(&Ext->Step, 0) < 2)
        KeStallExecutionProcessor(10);
    KeReleaseSpinLock(&Ext->Lock, irql);
    ZwClose(thread);
    return Done(Irp);
}

static NTSTATUS Kept(PEXTENSION Ext, PIRP Irp, BOOLEAN Wrong)
{
    KIRQL irql;
    Done(Irp);
    KeAcquireSpinLock(&Ext->Lock, &irql); /* told: LockKept */
    if (!Wrong)
        KeReleaseSpinLock(&Ext->Lock, irql);
    return STATUS_SUCCESS;
}

static VOID KeepMutex(PVOID Context)
{
    PEXTENSION ext = Context;
    ExAcquireFastMutex(&ext->Mutex); /* told: LockKept_Thread */
    if (!ext->Wrong)
        ExReleaseFastMutex(&ext->Mutex);
}

static NTSTATUS KeptByThread(PEXTENSION Ext, PIRP Irp, BOOLEAN Wrong)
{
    UNREFERENCED_PARAMETER(Wrong);
    RunThread(Ext, KeepMutex);
    return Done(Irp);
}

static NTSTATUS NeverTaken(PEXTENSION Ext, PIRP Irp, BOOLEAN Wrong)
{
    KIRQL irql;
    KeAcquireSpinLock(&Ext->Lock, &irql);
    KeReleaseSpinLock(&Ext->Lock, irql);
    if (Wrong)
        KeReleaseSpinLock(&Ext->Lock, irql); /* told: NotAcquired */
    return Done(Irp);
}

static NTSTATUS InitializedAgain(PEXTENSION Ext, PIRP Irp, BOOLEAN Wrong)
{
    KIRQL irql;
    KeAcquireSpinLock(&Ext->Lock, &irql);
    if (Wrong) {
        KeInitializeSpinLock(&Ext->Lock); /* told: InitializedHeld */
        KeLowerIrql(irql);
    } else
        KeReleaseSpinLock(&Ext->Lock, irql);
    return Done(Irp);
}

static NTSTATUS CompletesUnderLock(PEXTENSION Ext, PIRP Irp, BOOLEAN Wrong)
{
    KIRQL irql;
    KeAcquireSpinLock(&Ext->Lock, &irql);
    Irp->IoStatus.Status = STATUS_SUCCESS;
    if (Wrong)
        IoCompleteRequest(Irp, IO_NO_INCREMENT); /* told: UnderSpinLock */
    KeReleaseSpinLock(&Ext->Lock, irql);
    return Wrong ? STATUS_SUCCESS : Done(Irp);
}

static NTSTATUS CompletesUnderCancelLock(PEXTENSION Ext, PIRP Irp, BOOLEAN Wrong)
{
    KIRQL irql;
    UNREFERENCED_PARAMETER(Ext);
    IoAcquireCancelSpinLock(&irql);
    Irp->IoStatus.Status = STATUS_SUCCESS;
    if (Wrong)
        IoCompleteRequest(Irp, IO_NO_INCREMENT); /* told: UnderSpinLock_CancelLock */
    IoReleaseCancelSpinLock(irql);
    return Wrong ? STATUS_SUCCESS : Done(Irp);
}

static NTSTATUS SendsUnderLock(PEXTENSION Ext, PIRP Irp, BOOLEAN Wrong)
{
    KIRQL irql;
    NTSTATUS status = STATUS_SUCCESS;
    KeAcquireSpinLock(&Ext->Lock, &irql);
    IoSkipCurrentIrpStackLocation(Irp);
    if (Wrong)
        status = IoCallDriver(Ext->Lower, Irp); /* told: UnderSpinLock_Send */
    KeReleaseSpinLock(&Ext->Lock, irql);
    return Wrong ? status : IoCallDriver(Ext->Lower, Irp);
}

/* The right one gives two locks back in the order in which it took them, each with the other one's level. */
static NTSTATUS HandsOver(PEXTENSION Ext, PIRP Irp, BOOLEAN Wrong)
{
    KIRQL first, second;
    KeAcquireSpinLock(&Ext->Lock, &first);
    KeAcquireSpinLock(&Ext->Other, &second);
    KeReleaseSpinLock(&Ext->Lock, Wrong ? first : second); /* told: WrongIrql */
    KeReleaseSpinLock(&Ext->Other, first);
    return Done(Irp);
}

const CASE_ROW LockCases[] = {
    { "SelfDeadlock", TakenTwice, NULL, NULL }, { "SelfDeadlock_FastMutex", MutexTwice, NULL, NULL },
    { "LockOrder", TwoOrders, NULL, NULL }, { "LockOrder_CancelLock", TwoOrdersOfCancelLock, NULL, NULL },
    { "WrongThread", OtherThread, NULL, NULL }, { "LockKept", Kept, NULL, NULL }, { "LockKept_Thread", KeptByThread, NULL, NULL },
    { "NotAcquired", NeverTaken, NULL, NULL }, { "InitializedHeld", InitializedAgain, NULL, NULL },
    { "UnderSpinLock", CompletesUnderLock, NULL, NULL }, { "UnderSpinLock_CancelLock", CompletesUnderCancelLock, NULL, NULL },
    { "UnderSpinLock_Send", SendsUnderLock, NULL, NULL }, { "WrongIrql", HandsOver, NULL, NULL }, { NULL, NULL, NULL, NULL },
};
