/* lock_order.c: 0 preemptions, LockOrder. Reads and writes take two spin locks in different orders. Both orders are seen in
   the usual order too, and told; for the two threads to stand still one has to be preempted between its locks. */
#include "race.h"

typedef struct { KSPIN_LOCK Readers, Writers; LONG Reads, Writes; } EXTENSION, *PEXTENSION;
static PDEVICE_OBJECT device;

static NTSTATUS Read(PDEVICE_OBJECT DeviceObject, PIRP Irp)
{
    PEXTENSION ext = DeviceObject->DeviceExtension;
    KIRQL irql;
    KeAcquireSpinLock(&ext->Readers, &irql);
    KeAcquireSpinLockAtDpcLevel(&ext->Writers);
    ext->Reads++;
    KeReleaseSpinLockFromDpcLevel(&ext->Writers);
    KeReleaseSpinLock(&ext->Readers, irql);
    return Complete(Irp, STATUS_SUCCESS, 0);
}

static NTSTATUS Write(PDEVICE_OBJECT DeviceObject, PIRP Irp)
{
    PEXTENSION ext = DeviceObject->DeviceExtension;
    KIRQL irql;
#ifdef RIGHT
    PKSPIN_LOCK first = &ext->Readers, second = &ext->Writers;
#else
    PKSPIN_LOCK first = &ext->Writers, second = &ext->Readers; /* the fault */
#endif
    KeAcquireSpinLock(first, &irql);
    KeAcquireSpinLockAtDpcLevel(second);
    ext->Writes++;
    KeReleaseSpinLockFromDpcLevel(second);
    KeReleaseSpinLock(first, irql);
    return Complete(Irp, STATUS_SUCCESS, 0);
}

NTSTATUS DriverEntry(PDRIVER_OBJECT DriverObject, PUNICODE_STRING RegistryPath)
{
    UNREFERENCED_PARAMETER(RegistryPath);
    DriverObject->MajorFunction[IRP_MJ_READ] = Read;
    DriverObject->MajorFunction[IRP_MJ_WRITE] = Write;
    NTSTATUS status = IoCreateDevice(DriverObject, sizeof(EXTENSION), NULL, FILE_DEVICE_UNKNOWN, 0, FALSE, &device);
    if (NT_SUCCESS(status)) {
        KeInitializeSpinLock(&((PEXTENSION)device->DeviceExtension)->Readers);
        KeInitializeSpinLock(&((PEXTENSION)device->DeviceExtension)->Writers);
    }
    return status;
}

static void *write_it(void *context)
{
    for (int i = 0; i < ROUNDS; i++)
        WdmSend(device, IRP_MJ_WRITE, 0, 4);
    return context;
}

int main(void)
{
    pthread_t t;
    WdmLoadDriver("lock_order", DriverEntry);
    pthread_create(&t, NULL, write_it, NULL);
    for (int i = 0; i < ROUNDS; i++)
        WdmSend(device, IRP_MJ_READ, 0, 4);
    pthread_join(t, NULL);
    return WdmFinish();
}
