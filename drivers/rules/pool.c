/* pool.c: memory that leaks, is freed wrongly, is written beyond its end or after it was freed; what still lies in it. */
#include "rules.h"

typedef struct { KTIMER Timer; KDPC Dpc; KSPIN_LOCK Lock; UCHAR Bytes[21]; } BLOCK, *PBLOCK;

static PBLOCK Allocate(VOID) { return ExAllocatePool2(POOL_FLAG_NON_PAGED, sizeof(BLOCK), 'kolB'); }

static NTSTATUS Leaks(PEXTENSION Ext, PIRP Irp, BOOLEAN Wrong)
{
    PVOID block = ExAllocatePoolWithTag(NonPagedPool, 24, 'kaeL'); /* told: PoolLeak */
    UNREFERENCED_PARAMETER(Ext);
    if (block && !Wrong)
        ExFreePoolWithTag(block, 'kaeL');
    return Done(Irp);
}

static NTSTATUS FreesTwice(PEXTENSION Ext, PIRP Irp, BOOLEAN Wrong)
{
    PBLOCK block = Allocate();
    UNREFERENCED_PARAMETER(Ext);
    ExFreePoolWithTag(block, 'kolB');
    if (Wrong)
        ExFreePool(block); /* told: FreedTwice */
    return Done(Irp);
}

static NTSTATUS OtherTag(PEXTENSION Ext, PIRP Irp, BOOLEAN Wrong)
{
    UNREFERENCED_PARAMETER(Ext);
    ExFreePoolWithTag(Allocate(), Wrong ? 'rehO' : 'kolB'); /* told: WrongTag */
    return Done(Irp);
}

static NTSTATUS FreesMiddle(PEXTENSION Ext, PIRP Irp, BOOLEAN Wrong)
{
    PBLOCK block = Allocate();
    UNREFERENCED_PARAMETER(Ext);
    if (Wrong)
        ExFreePool(&block->Dpc); /* told: NotPool */
    ExFreePool(block);
    return Done(Irp);
}

static NTSTATUS WritesLate(PEXTENSION Ext, PIRP Irp, BOOLEAN Wrong)
{
    volatile PBLOCK block = Allocate();
    UNREFERENCED_PARAMETER(Ext);
    if (!Wrong)
        block->Bytes[3] = 1;
    ExFreePool(block); /* told: WrittenAfterFree */
    if (Wrong)
        block->Bytes[3] = 1; /* told: UsedAfterFree_PageEnds */
    return Done(Irp);
}

static NTSTATUS WritesBeyond(PEXTENSION Ext, PIRP Irp, BOOLEAN Wrong)
{
    const SIZE_T size = 21;
    volatile UCHAR *bytes = ExAllocatePoolWithTag(NonPagedPool, size, 'dnyB');
    UNREFERENCED_PARAMETER(Ext);
    bytes[Wrong ? size : size - 1] = 1;
    ExFreePoolWithTag((PVOID)bytes, 'dnyB'); /* told: PoolOverrun */
    return Done(Irp);
}

/* Sixteen bytes are there. */
static NTSTATUS WritesBeyondBuffer(PEXTENSION Ext, PIRP Irp, BOOLEAN Wrong)
{
    volatile UCHAR *bytes = Irp->AssociatedIrp.SystemBuffer;
    UNREFERENCED_PARAMETER(Ext);
    bytes[Wrong ? 16 : 15] = 1; /* told: PoolOverrun_PageEnds */
    return Done(Irp);
}

static NTSTATUS AsksForNothing(PEXTENSION Ext, PIRP Irp, BOOLEAN Wrong)
{
    UNREFERENCED_PARAMETER(Ext);
    PVOID block = ExAllocatePoolWithTag(NonPagedPool, Wrong ? 0 : 1, 'oreZ'); /* told: ZeroBytes */
    ExFreePoolWithTag(block, 'oreZ');
    return Done(Irp);
}

static NTSTATUS PagedUnderLock(PEXTENSION Ext, PIRP Irp, BOOLEAN Wrong)
{
    KIRQL irql;
    KeAcquireSpinLock(&Ext->Lock, &irql);
    PVOID block = ExAllocatePoolWithTag(Wrong ? PagedPool : NonPagedPool, 8, 'egaP'); /* told: IrqlTooHigh_PagedPool */
    KeReleaseSpinLock(&Ext->Lock, irql);
    ExFreePoolWithTag(block, 'egaP');
    return Done(Irp);
}

/* Locked by an MDL the block is there at each level. */
static NTSTATUS TouchesPaged(PEXTENSION Ext, PIRP Irp, BOOLEAN Wrong)
{
    KIRQL irql;
    volatile PULONG block = ExAllocatePoolWithTag(PagedPool, sizeof(ULONG), 'egaP');
    PMDL mdl = IoAllocateMdl((PVOID)block, sizeof(ULONG), FALSE, FALSE, NULL);
    *block = 1;
    if (!Wrong)
        MmProbeAndLockPages(mdl, KernelMode, IoModifyAccess);
    KeAcquireSpinLock(&Ext->Lock, &irql);
    *block = 2; /* told: PagedAtDispatch */
    KeReleaseSpinLock(&Ext->Lock, irql);
    if (!Wrong)
        MmUnlockPages(mdl);
    IoFreeMdl(mdl);
    *block = 3;
    ExFreePoolWithTag((PVOID)block, 'egaP');
    return Done(Irp);
}

static NTSTATUS FreesTimer(PEXTENSION Ext, PIRP Irp, BOOLEAN Wrong)
{
    PBLOCK block = Allocate();
    UNREFERENCED_PARAMETER(Ext);
    KeInitializeTimer(&block->Timer);
    KeSetTimer(&block->Timer, (LARGE_INTEGER){ .QuadPart = -100000000 }, NULL);
    if (!Wrong)
        KeCancelTimer(&block->Timer);
    ExFreePool(block); /* told: TimerInFreedMemory */
    return Done(Irp);
}

/* The device goes after this, and has the timer in its extension. */
static NTSTATUS LeavesTimer(PEXTENSION Ext, PIRP Irp, BOOLEAN Wrong)
{
    KeSetTimer(&Ext->Timer, (LARGE_INTEGER){ .QuadPart = -100000000 }, NULL);
    if (!Wrong)
        KeCancelTimer(&Ext->Timer);
    return Done(Irp);
}

static VOID TakesItsTime(PKDPC Dpc, PVOID Context, PVOID A, PVOID B)
{
    PEXTENSION ext = Context;
    UNREFERENCED_PARAMETER(Dpc), UNREFERENCED_PARAMETER(A), UNREFERENCED_PARAMETER(B);
    while (!InterlockedAdd(&ext->Step, 0))
        KeStallExecutionProcessor(10);
}

static NTSTATUS FreesDeferredCall(PEXTENSION Ext, PIRP Irp, BOOLEAN Wrong)
{
    PBLOCK block = Allocate();
    Ext->Step = !Wrong;
    KeInitializeDpc(&Ext->Dpc, TakesItsTime, Ext);
    KeInitializeDpc(&block->Dpc, TakesItsTime, Ext);
    KeInsertQueueDpc(&Ext->Dpc, NULL, NULL);
    KeInsertQueueDpc(&block->Dpc, NULL, NULL);
    if (!Wrong)
        KeFlushQueuedDpcs();
    ExFreePool(block); /* told: DpcInFreedMemory */
    InterlockedExchange(&Ext->Step, 1);
    KeFlushQueuedDpcs();
    return Done(Irp);
}

static NTSTATUS FreesLock(PEXTENSION Ext, PIRP Irp, BOOLEAN Wrong)
{
    KIRQL irql;
    PBLOCK block = Allocate();
    UNREFERENCED_PARAMETER(Ext);
    KeInitializeSpinLock(&block->Lock);
    KeAcquireSpinLock(&block->Lock, &irql);
    if (!Wrong)
        KeReleaseSpinLock(&block->Lock, irql);
    ExFreePool(block); /* told: LockInFreedMemory */
    if (Wrong)
        KeLowerIrql(irql);
    return Done(Irp);
}

const CASE_ROW PoolCases[] = {
    { "PoolLeak", Leaks, NULL, NULL }, { "FreedTwice", FreesTwice, NULL, NULL }, { "WrongTag", OtherTag, NULL, NULL }, { "NotPool", FreesMiddle, NULL, NULL },
    { "WrittenAfterFree", WritesLate, NULL, NULL }, { "UsedAfterFree_PageEnds", WritesLate, NULL, NULL }, { "PoolOverrun", WritesBeyond, NULL, NULL },
    { "PoolOverrun_PageEnds", WritesBeyondBuffer, NULL, NULL }, { "ZeroBytes", AsksForNothing, NULL, NULL },
    { "PagedAtDispatch", TouchesPaged, NULL, NULL },
    { "IrqlTooHigh_PagedPool", PagedUnderLock, NULL, NULL }, { "TimerInFreedMemory", FreesTimer, NULL, NULL },
    { "TimerInFreedMemory_Device", LeavesTimer, NULL, NULL }, { "DpcInFreedMemory", FreesDeferredCall, NULL, NULL },
    { "LockInFreedMemory", FreesLock, NULL, NULL }, { NULL, NULL, NULL, NULL },
};
