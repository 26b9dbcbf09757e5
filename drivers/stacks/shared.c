/* shared.c: a driver whose table is under an ERESOURCE; its entries come from a lookaside list, go through an interlocked
   list, and requests are kept from running on by rundown protection. */
#include "common.h"

typedef struct { SLIST_ENTRY Link; ULONG Length; } ENTRY, *PENTRY;
typedef struct {
    ERESOURCE Resource;
    EX_RUNDOWN_REF Rundown;
    FAST_MUTEX Mutex;
    NPAGED_LOOKASIDE_LIST Entries;
    SLIST_HEADER Spare;
    ULONG Total, Requests;
} EXTENSION, *PEXTENSION;

static NTSTATUS Write(PDEVICE_OBJECT DeviceObject, PIRP Irp)
{
    PEXTENSION ext = DeviceObject->DeviceExtension;
    if (!ExAcquireRundownProtection(&ext->Rundown))
        return Complete(Irp, STATUS_DELETE_PENDING, 0);
    PENTRY entry = ExAllocateFromNPagedLookasideList(&ext->Entries);
    if (entry) {
        entry->Length = IoGetCurrentIrpStackLocation(Irp)->Parameters.Write.Length;
        ExAcquireFastMutex(&ext->Mutex);
        ext->Requests++;
        ExReleaseFastMutex(&ext->Mutex);
        ExEnterCriticalRegionAndAcquireResourceExclusive(&ext->Resource);
        ext->Total += entry->Length;
        ExReleaseResourceAndLeaveCriticalRegion(&ext->Resource);
        InterlockedPushEntrySList(&ext->Spare, &entry->Link);
    }
    ExReleaseRundownProtection(&ext->Rundown);
    return Complete(Irp, entry ? STATUS_SUCCESS : STATUS_INSUFFICIENT_RESOURCES, 0);
}

static NTSTATUS Read(PDEVICE_OBJECT DeviceObject, PIRP Irp)
{
    PEXTENSION ext = DeviceObject->DeviceExtension;
    KeEnterCriticalRegion();
    ExAcquireResourceSharedLite(&ext->Resource, TRUE);
    ExAcquireResourceSharedLite(&ext->Resource, TRUE); /* a reader may come again */
    const ULONG total = ext->Total;
    ExReleaseResourceLite(&ext->Resource);
    ExReleaseResourceLite(&ext->Resource);
    KeLeaveCriticalRegion();
    if (IoGetCurrentIrpStackLocation(Irp)->Parameters.Read.Length < sizeof total)
        return Complete(Irp, STATUS_BUFFER_TOO_SMALL, 0);
    RtlCopyMemory(Irp->AssociatedIrp.SystemBuffer, &total, sizeof total);
    return Complete(Irp, STATUS_SUCCESS, sizeof total);
}

static VOID Unload(PDRIVER_OBJECT DriverObject)
{
    PEXTENSION ext = DriverObject->DeviceObject->DeviceExtension;
    PSLIST_ENTRY link;
    ExWaitForRundownProtectionRelease(&ext->Rundown);
    while ((link = InterlockedPopEntrySList(&ext->Spare)) != NULL)
        ExFreeToNPagedLookasideList(&ext->Entries, CONTAINING_RECORD(link, ENTRY, Link));
    ExDeleteNPagedLookasideList(&ext->Entries);
    ExDeleteResourceLite(&ext->Resource);
    IoDeleteDevice(DriverObject->DeviceObject);
}

NTSTATUS DriverEntry(PDRIVER_OBJECT DriverObject, PUNICODE_STRING RegistryPath)
{
    PDEVICE_OBJECT device;
    UNREFERENCED_PARAMETER(RegistryPath);
    DriverObject->MajorFunction[IRP_MJ_WRITE] = Write;
    DriverObject->MajorFunction[IRP_MJ_READ] = Read;
    DriverObject->DriverUnload = Unload;
    NTSTATUS status = IoCreateDevice(DriverObject, sizeof(EXTENSION), NULL, FILE_DEVICE_UNKNOWN, 0, FALSE, &device);
    if (!NT_SUCCESS(status))
        return status;
    PEXTENSION ext = device->DeviceExtension;
    device->Flags |= DO_BUFFERED_IO;
    ExInitializeResourceLite(&ext->Resource);
    ExInitializeRundownProtection(&ext->Rundown);
    ExInitializeFastMutex(&ext->Mutex);
    ExInitializeNPagedLookasideList(&ext->Entries, NULL, NULL, 0, sizeof(ENTRY), 'rahS', 0);
    ExInitializeSListHead(&ext->Spare);
    return STATUS_SUCCESS;
}

static PDEVICE_OBJECT device;

static void *use(void *context)
{
    for (ULONG i = 0; i < WdmRounds(8); i++)
        WdmSend(device, context && i % 2 ? IRP_MJ_READ : IRP_MJ_WRITE, 0, 4);
    return NULL;
}

int main(void)
{
    pthread_t threads[3];
    const ULONG rounds = WdmRounds(8), writes = rounds + 2 * ((rounds + 1) / 2);
    PDRIVER_OBJECT driver = WdmLoadDriver("shared", DriverEntry);
    device = driver->DeviceObject;
    for (int i = 0; i < 3; i++)
        pthread_create(&threads[i], NULL, use, i ? &threads[i] : NULL);
    for (int i = 0; i < 3; i++)
        pthread_join(threads[i], NULL);
    const ULONG total = ((PEXTENSION)device->DeviceExtension)->Total;
    WdmUnloadDriver(driver);
    WdmExpectEntries(5 * rounds);
    return WdmFinish() || total != 4 * writes;
}
