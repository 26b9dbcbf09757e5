/* levels.c: what isn't allowed at a raised interrupt level; levels that aren't put back. */
#include "rules.h"

static NTSTATUS PagedTakesLock(PEXTENSION Ext, PIRP Irp, BOOLEAN Wrong);
static VOID PagedDeferred(PKDPC Dpc, PVOID Context, PVOID A, PVOID B);
#pragma alloc_text(PAGE, PagedTakesLock)
static LONG PagedSum(PEXTENSION Ext, LONG More);
#pragma alloc_text(PAGE, PagedDeferred)
#pragma alloc_text(PAGE, PagedSum)

/* A wait in a deferred call. With a limit of zero it takes no time, and is right. */
static VOID Waits(PKDPC Dpc, PVOID Context, PVOID A, PVOID B)
{
    PEXTENSION ext = Context;
    LARGE_INTEGER limit = { .QuadPart = 0 };
    UNREFERENCED_PARAMETER(Dpc), UNREFERENCED_PARAMETER(A), UNREFERENCED_PARAMETER(B);
    if (ext->Wrong)
        limit.QuadPart = -10;
    KeWaitForSingleObject(&ext->Event, Executive, KernelMode, FALSE, &limit); /* told: IrqlTooHigh */
}

static NTSTATUS WaitsInDeferredCall(PEXTENSION Ext, PIRP Irp, BOOLEAN Wrong)
{
    UNREFERENCED_PARAMETER(Wrong);
    KeInitializeDpc(&Ext->Dpc, Waits, Ext);
    KeInsertQueueDpc(&Ext->Dpc, NULL, NULL);
    KeFlushQueuedDpcs();
    return Done(Irp);
}

static NTSTATUS DelaysUnderLock(PEXTENSION Ext, PIRP Irp, BOOLEAN Wrong)
{
    KIRQL irql;
    LARGE_INTEGER moment = { .QuadPart = -10 };
    KeAcquireSpinLock(&Ext->Lock, &irql);
    if (Wrong)
        KeDelayExecutionThread(KernelMode, FALSE, &moment); /* told: UnderSpinLock_Delay */
    KeReleaseSpinLock(&Ext->Lock, irql);
    KeDelayExecutionThread(KernelMode, FALSE, &moment);
    return Done(Irp);
}

static NTSTATUS MutexAtDispatch(PEXTENSION Ext, PIRP Irp, BOOLEAN Wrong)
{
    KIRQL irql;
    KeRaiseIrql(Wrong ? DISPATCH_LEVEL : APC_LEVEL, &irql);
    ExAcquireFastMutex(&Ext->Mutex); /* told: IrqlTooHigh_FastMutex */
    ExReleaseFastMutex(&Ext->Mutex);
    KeLowerIrql(irql);
    return Done(Irp);
}

static NTSTATUS RegistryAtDispatch(PEXTENSION Ext, PIRP Irp, BOOLEAN Wrong)
{
    UNICODE_STRING name = RTL_CONSTANT_STRING(L"\\Registry\\Machine");
    OBJECT_ATTRIBUTES attributes;
    HANDLE key;
    KIRQL irql;
    UNREFERENCED_PARAMETER(Ext);
    InitializeObjectAttributes(&attributes, &name, OBJ_KERNEL_HANDLE, NULL, NULL);
    KeRaiseIrql(Wrong ? DISPATCH_LEVEL : PASSIVE_LEVEL, &irql);
    const NTSTATUS status = ZwOpenKey(&key, KEY_READ, &attributes); /* told: IrqlTooHigh_Registry */
    KeLowerIrql(irql);
    if (NT_SUCCESS(status))
        ZwClose(key);
    return Done(Irp);
}

static VOID Paged(PDEVICE_OBJECT DeviceObject)
{
    UNREFERENCED_PARAMETER(DeviceObject);
    PAGED_CODE(); /* told: IrqlTooHigh_PagedCode */
}

static NTSTATUS PagedUnderLock(PEXTENSION Ext, PIRP Irp, BOOLEAN Wrong)
{
    KIRQL irql;
    if (!Wrong)
        Paged(Ext->Self);
    KeAcquireSpinLock(&Ext->Lock, &irql);
    if (Wrong)
        Paged(Ext->Self);
    KeReleaseSpinLock(&Ext->Lock, irql);
    return Done(Irp);
}

/* A completion routine that waits. Windows may call it at DISPATCH_LEVEL, and one of the runs does. */
static NTSTATUS WaitsInRoutine(PDEVICE_OBJECT DeviceObject, PIRP Irp, PVOID Context)
{
    PEXTENSION ext = Context;
    LARGE_INTEGER moment = { .QuadPart = -10 };
    UNREFERENCED_PARAMETER(DeviceObject);
    if (Irp->PendingReturned)
        IoMarkIrpPending(Irp);
    if (ext->Wrong)
        KeDelayExecutionThread(KernelMode, FALSE, &moment); /* told: IrqlTooHigh_Routine */
    return STATUS_CONTINUE_COMPLETION;
}

static NTSTATUS RoutineWaits(PEXTENSION Ext, PIRP Irp, BOOLEAN Wrong)
{
    UNREFERENCED_PARAMETER(Wrong);
    IoCopyCurrentIrpStackLocationToNext(Irp);
    IoSetCompletionRoutine(Irp, WaitsInRoutine, Ext, TRUE, TRUE, TRUE);
    return IoCallDriver(Ext->Lower, Irp);
}

static NTSTATUS AtDpcLevel(PEXTENSION Ext, PIRP Irp, BOOLEAN Wrong)
{
    KIRQL irql = PASSIVE_LEVEL;
    if (!Wrong)
        KeRaiseIrql(DISPATCH_LEVEL, &irql);
    KeAcquireSpinLockAtDpcLevel(&Ext->Lock); /* told: IrqlTooLow */
    KeReleaseSpinLock(&Ext->Lock, irql);
    return Done(Irp);
}

static NTSTATUS StaysRaised(PEXTENSION Ext, PIRP Irp, BOOLEAN Wrong)
{
    KIRQL irql;
    UNREFERENCED_PARAMETER(Ext);
    Done(Irp);
    KeRaiseIrql(DISPATCH_LEVEL, &irql); /* told: IrqlReturn */
    if (!Wrong)
        KeLowerIrql(irql);
    return STATUS_SUCCESS;
}

static NTSTATUS RaisesDown(PEXTENSION Ext, PIRP Irp, BOOLEAN Wrong)
{
    KIRQL irql, again;
    UNREFERENCED_PARAMETER(Ext);
    KeRaiseIrql(DISPATCH_LEVEL, &irql);
    KeRaiseIrql(Wrong ? APC_LEVEL : DISPATCH_LEVEL, &again); /* told: RaiseLower */
    if (!Wrong)
        KeLowerIrql(again);
    KeLowerIrql(irql);
    return Done(Irp);
}

static NTSTATUS Ended(PDEVICE_OBJECT DeviceObject, PIRP Irp, PVOID Context)
{
    UNREFERENCED_PARAMETER(DeviceObject), UNREFERENCED_PARAMETER(Context);
    IoFreeIrp(Irp);
    return STATUS_MORE_PROCESSING_REQUIRED;
}

static NTSTATUS AsksAtDispatch(PEXTENSION Ext, PIRP Irp, BOOLEAN Wrong)
{
    KIRQL irql = PASSIVE_LEVEL;
    PIRP own = IoAllocateIrp(Ext->Lower->StackSize, FALSE);
    own->IoStatus.Status = STATUS_NOT_SUPPORTED;
    IoGetNextIrpStackLocation(own)->MajorFunction = IRP_MJ_PNP;
    IoGetNextIrpStackLocation(own)->MinorFunction = IRP_MN_QUERY_PNP_DEVICE_STATE;
    IoSetCompletionRoutine(own, Ended, NULL, TRUE, TRUE, TRUE);
    if (Wrong)
        KeRaiseIrql(DISPATCH_LEVEL, &irql);
    IoCallDriver(Ext->Lower, own); /* told: ForwardedAtBadIrql */
    if (Wrong)
        KeLowerIrql(irql);
    return Done(Irp);
}

static VOID Locked(PEXTENSION Ext)
{
    KIRQL irql;
    KeAcquireSpinLock(&Ext->Lock, &irql);
    KeReleaseSpinLock(&Ext->Lock, irql);
}

/* Pageable code calls what takes a spin lock, and doesn't take it itself. */
static NTSTATUS PagedTakesLock(PEXTENSION Ext, PIRP Irp, BOOLEAN Wrong)
{
    KIRQL irql;
    Locked(Ext);
    if (Wrong) {
        KeAcquireSpinLock(&Ext->Lock, &irql);
        KeReleaseSpinLock(&Ext->Lock, irql); /* told: PageableCode */
    }
    return Done(Irp);
}

static VOID PagedDeferred(PKDPC Dpc, PVOID Context, PVOID A, PVOID B)
{ /* told: PageableCode_Deferred */
    PEXTENSION ext = Context;
    UNREFERENCED_PARAMETER(Dpc), UNREFERENCED_PARAMETER(A), UNREFERENCED_PARAMETER(B);
    InterlockedIncrement(&ext->Step);
}

/* It makes no call, and may be paged out all the same. */
static LONG PagedSum(PEXTENSION Ext, LONG More) { return Ext->Step += More; }

static NTSTATUS CallsPaged(PEXTENSION Ext, PIRP Irp, BOOLEAN Wrong)
{
    KIRQL irql;
    KeAcquireSpinLock(&Ext->Lock, &irql);
    if (Wrong)
        PagedSum(Ext, 1); /* told: PageableCode_Quiet */
    KeReleaseSpinLock(&Ext->Lock, irql);
    PagedSum(Ext, 2);
    return Done(Irp);
}

/* The next two stand in a section by another pragma. */
#pragma code_seg("PAGE")
static NTSTATUS DefersPaged(PEXTENSION Ext, PIRP Irp, BOOLEAN Wrong)
{
    if (Wrong) {
        KeInitializeDpc(&Ext->Dpc, PagedDeferred, Ext);
        KeInsertQueueDpc(&Ext->Dpc, NULL, NULL);
        KeFlushQueuedDpcs();
    }
    return Done(Irp);
}

static NTSTATUS RaisesInPaged(PEXTENSION Ext, PIRP Irp, BOOLEAN Wrong)
{
    KIRQL irql;
    UNREFERENCED_PARAMETER(Ext);
    KeRaiseIrql(Wrong ? DISPATCH_LEVEL : APC_LEVEL, &irql);
    KeLowerIrql(irql); /* told: PageableCode_Segment */
    return Done(Irp);
}
#pragma code_seg()

const CASE_ROW LevelCases[] = {
    { "IrqlTooHigh", WaitsInDeferredCall, NULL, NULL }, { "UnderSpinLock_Delay", DelaysUnderLock, NULL, NULL },
    { "IrqlTooHigh_FastMutex", MutexAtDispatch, NULL, NULL }, { "IrqlTooHigh_PagedCode", PagedUnderLock, NULL, NULL },
    { "IrqlTooHigh_Routine", RoutineWaits, NULL, NULL }, { "IrqlTooHigh_Registry", RegistryAtDispatch, NULL, NULL },
    { "IrqlTooLow", AtDpcLevel, NULL, NULL }, { "IrqlReturn", StaysRaised, NULL, NULL },
    { "RaiseLower", RaisesDown, NULL, NULL }, { "ForwardedAtBadIrql", AsksAtDispatch, NULL, NULL },
    { "PageableCode", PagedTakesLock, NULL, NULL }, { "PageableCode_Deferred", DefersPaged, NULL, NULL },
    { "PageableCode_Segment", RaisesInPaged, NULL, NULL }, { "PageableCode_Quiet", CallsPaged, NULL, NULL }, { NULL, NULL, NULL, NULL },
};
