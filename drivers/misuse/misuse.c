/* misuse.c: a driver with wrong calls, one a case, each told at the line with the case's name. They break the rules that
   neither planted.py, hostile/ nor rules/ breaks. */
#include "misuse.h"

typedef struct { PDEVICE_OBJECT Self, Lower; IO_REMOVE_LOCK RemoveLock; PIRP Held; BOOLEAN Done; } EXTENSION, *PEXTENSION;
typedef VOID MISUSE(PEXTENSION Ext, PIRP Irp);

static NTSTATUS Complete(PIRP Irp, NTSTATUS Status)
{
    Irp->IoStatus.Status = Status;
    Irp->IoStatus.Information = 0;
    IoCompleteRequest(Irp, IO_NO_INCREMENT);
    return Status;
}

static VOID AlreadyRemoving(PEXTENSION Ext, PIRP Irp)
{
    if (!NT_SUCCESS(IoAcquireRemoveLock(&Ext->RemoveLock, Irp)))
        return;
    IoReleaseRemoveLockAndWait(&Ext->RemoveLock, Irp);
    IoReleaseRemoveLockAndWait(&Ext->RemoveLock, Irp); /* told: AlreadyRemoving */
}

static VOID BadMajor(PEXTENSION Ext, PIRP Irp)
{
    PIRP own = IoAllocateIrp(Ext->Lower->StackSize, FALSE);
    IoGetNextIrpStackLocation(own)->MajorFunction = IRP_MJ_MAXIMUM_FUNCTION + 1;
    IoCallDriver(Ext->Lower, own); /* told: BadMajor */
    IoFreeIrp(own);
}

static VOID BadSize(PEXTENSION Ext, PIRP Irp) { IoAllocateIrp(0, FALSE); /* told: BadSize */ }
static VOID BugCheck(PEXTENSION Ext, PIRP Irp) { KeBugCheckEx(0x1234, 0, 0, 0, 0); /* told: BugCheck */ }
static VOID CriticalRegion(PEXTENSION Ext, PIRP Irp) { KeLeaveCriticalRegion(); }

static VOID CancelSpinLock(PDEVICE_OBJECT DeviceObject, PIRP Irp)
{
    Irp->IoStatus.Information = 0; /* and never IoReleaseCancelSpinLock */
}

/* Held, cancelled, and completed by the write that follows. */
static VOID CancelSpinLock_(PEXTENSION Ext, PIRP Irp)
{
    Ext->Held = Irp;
    IoMarkIrpPending(Irp);
    IoSetCancelRoutine(Irp, CancelSpinLock);
}

/* A packet of the I/O manager's, which frees it at its end. */
static VOID Ended(PEXTENSION Ext, PIRP Irp)
{
    LARGE_INTEGER from = { .QuadPart = 0 };
    IO_STATUS_BLOCK iosb;
    KEVENT event;
    KeInitializeEvent(&event, NotificationEvent, FALSE);
    PIRP own = IoBuildSynchronousFsdRequest(IRP_MJ_FLUSH_BUFFERS, Ext->Lower, NULL, 0, &from, &event, &iosb);
    IoCallDriver(Ext->Lower, own);
    IoCancelIrp(own); /* told: Ended */
}

static VOID Full(PEXTENSION Ext, PIRP Irp)
{
    static PIRP own[5000];
    for (ULONG i = 0; i < ARRAYSIZE(own); i++)
        own[i] = IoAllocateIrp(1, FALSE); /* told: Full */
    for (ULONG i = 0; i < ARRAYSIZE(own) && own[i]; i++)
        IoFreeIrp(own[i]);
}

static VOID MdlNotLocked(PEXTENSION Ext, PIRP Irp)
{
    PMDL mdl = IoAllocateMdl(Ext, 8, FALSE, FALSE, NULL);
    MmUnlockPages(mdl); /* told: MdlNotLocked */
    IoFreeMdl(mdl);
}

static NTSTATUS CompletesAndContinues(PDEVICE_OBJECT DeviceObject, PIRP Irp, PVOID Context)
{
    IoCompleteRequest(Irp, IO_NO_INCREMENT);
    return STATUS_CONTINUE_COMPLETION;
}

static VOID GivenAway(PEXTENSION Ext, PIRP Irp)
{
    Ext->Done = TRUE;
    IoMarkIrpPending(Irp);
    IoCopyCurrentIrpStackLocationToNext(Irp);
    IoSetCompletionRoutine(Irp, CompletesAndContinues, NULL, TRUE, TRUE, TRUE);
    IoCallDriver(Ext->Lower, Irp);
}

/* The packet that the associated one belongs to is completed before it. */
static VOID NoMaster(PEXTENSION Ext, PIRP Irp)
{
    PIRP part = IoMakeAssociatedIrp(Irp, Ext->Lower->StackSize);
    Irp->AssociatedIrp.IrpCount = 1;
    IoMarkIrpPending(Irp);
    Ext->Done = TRUE;
    Complete(Irp, STATUS_SUCCESS);
    IoGetNextIrpStackLocation(part)->MajorFunction = IRP_MJ_FLUSH_BUFFERS;
    IoCallDriver(Ext->Lower, part);
}

static VOID NoStartIo(PEXTENSION Ext, PIRP Irp)
{
    IoMarkIrpPending(Irp);
    Ext->Held = Irp;
    IoStartPacket(Ext->Self, Irp, NULL, NULL); /* told: NoStartIo */
}

static VOID NotOpen(PEXTENSION Ext, PIRP Irp) { ZwClose((HANDLE)0x7770); /* told: NotOpen */ }

static VOID NothingAttached(PEXTENSION Ext, PIRP Irp) { IoDetachDevice(Ext->Self); /* told: NothingAttached */ }

static VOID QueuedTwice(PEXTENSION Ext, PIRP Irp)
{
    PIO_WORKITEM item = IoAllocateWorkItem(Ext->Self);
    IoFreeWorkItem(item);
    IoFreeWorkItem(item); /* told: QueuedTwice */
}

static VOID SameStack(PEXTENSION Ext, PIRP Irp)
{
    IoAttachDeviceToDeviceStack(Ext->Self, Ext->Lower); /* told: SameStack */
}

static VOID StillAttached(PEXTENSION Ext, PIRP Irp) { IoDeleteDevice(Ext->Self); /* told: StillAttached */ }

static VOID TooDeep(PEXTENSION Ext, PIRP Irp)
{
    PDEVICE_OBJECT below = NULL, made[40];
    ULONG n = 0;
    while (n < ARRAYSIZE(made) && NT_SUCCESS(IoCreateDevice(Ext->Self->DriverObject, 0, NULL, 0, 0, FALSE, &made[n])) &&
           (!n || (below = IoAttachDeviceToDeviceStack(made[n], made[n - 1])) != NULL)) /* told: TooDeep */
        made[n++]->Flags &= ~(ULONG)DO_DEVICE_INITIALIZING;
    IoDeleteDevice(made[n]);
    while (n-- > 1) {
        IoDetachDevice(made[n - 1]);
        IoDeleteDevice(made[n]);
    }
    IoDeleteDevice(made[0]);
}

static VOID WrongTarget(PEXTENSION Ext, PIRP Irp)
{
    PDEVICE_OBJECT other;
    if (NT_SUCCESS(IoCreateDevice(Ext->Self->DriverObject, 0, NULL, FILE_DEVICE_UNKNOWN, 0, FALSE, &other))) {
        IoCallDriver(other, Irp); /* told: WrongTarget */
        IoDeleteDevice(other);
    }
}

#define MISUSE_ROW(name) { #name, name }
static const struct { const char *Name; MISUSE *Run; } cases[] = {
    MISUSE_ROW(AlreadyRemoving), MISUSE_ROW(BadMajor), MISUSE_ROW(BadSize), MISUSE_ROW(BugCheck),
    MISUSE_ROW(CriticalRegion), { "CancelSpinLock", CancelSpinLock_ }, MISUSE_ROW(Ended), MISUSE_ROW(Full), MISUSE_ROW(GivenAway),
    MISUSE_ROW(MdlNotLocked), MISUSE_ROW(NoMaster), MISUSE_ROW(NoStartIo), MISUSE_ROW(NotOpen),
    MISUSE_ROW(NothingAttached), MISUSE_ROW(QueuedTwice), MISUSE_ROW(SameStack), MISUSE_ROW(StillAttached),
    MISUSE_ROW(TooDeep), MISUSE_ROW(WrongTarget)
};
static MISUSE *chosen;

static NTSTATUS Read(PDEVICE_OBJECT DeviceObject, PIRP Irp)
{
    const PEXTENSION ext = DeviceObject->DeviceExtension;
    chosen(ext, Irp);
    return ext->Done || ext->Held ? STATUS_PENDING : Complete(Irp, STATUS_SUCCESS);
}

static NTSTATUS Write(PDEVICE_OBJECT DeviceObject, PIRP Irp)
{
    const PEXTENSION ext = DeviceObject->DeviceExtension;
    if (ext->Held) {
        IoSetCancelRoutine(ext->Held, NULL);
        Complete(ext->Held, STATUS_CANCELLED);
    }
    return Complete(Irp, STATUS_SUCCESS);
}

static NTSTATUS AddDevice(PDRIVER_OBJECT DriverObject, PDEVICE_OBJECT Pdo)
{
    PDEVICE_OBJECT device;
    const NTSTATUS status = IoCreateDevice(DriverObject, sizeof(EXTENSION), NULL, FILE_DEVICE_UNKNOWN, 0, FALSE, &device);
    if (!NT_SUCCESS(status))
        return status;
    const PEXTENSION ext = device->DeviceExtension;
    ext->Self = device;
    IoInitializeRemoveLock(&ext->RemoveLock, 'suiM', 0, 0);
    ext->Lower = IoAttachDeviceToDeviceStack(device, Pdo);
    device->Flags &= ~(ULONG)DO_DEVICE_INITIALIZING;
    return STATUS_SUCCESS;
}

const char *MisuseName(ULONG n) { return n < ARRAYSIZE(cases) ? cases[n].Name : NULL; }
VOID MisuseChoose(ULONG n) { chosen = cases[n].Run; }

NTSTATUS DriverEntry(PDRIVER_OBJECT DriverObject, PUNICODE_STRING RegistryPath)
{
    DriverObject->MajorFunction[IRP_MJ_READ] = Read;
    DriverObject->MajorFunction[IRP_MJ_WRITE] = Write;
    DriverObject->DriverExtension->AddDevice = AddDevice;
    return STATUS_SUCCESS;
}
