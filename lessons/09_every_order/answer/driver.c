/* A device that holds one read until it is cancelled, or until the next request comes. Its requests meet on threads.
 *
 * Why. IoSetCancelRoutine(irp, NULL) tells who has the packet, and the mistake drops its answer. If the cancel came
 * between setting the routine and taking it out, the answer is NULL: the routine runs, and completes the packet.
 * Whoever completes it too completes it twice. In the order that was shown, the cancel came after line 19 had taken the
 * lock, before line 22 of the lesson's driver.c. */
#include <wdm.h>

static KSPIN_LOCK Lock;
static PIRP Held;

static NTSTATUS Complete(PIRP Irp, NTSTATUS Status)
{
    Irp->IoStatus.Status = Status;
    Irp->IoStatus.Information = 0;
    IoCompleteRequest(Irp, IO_NO_INCREMENT);
    return Status;
}

/* Takes the held read out, unless its cancel routine has been called, which then completes it. */
static PIRP TakeHeld(VOID)
{
    KIRQL irql;
    KeAcquireSpinLock(&Lock, &irql);
    PIRP irp = Held;
    if (irp != NULL && IoSetCancelRoutine(irp, NULL) == NULL)
        irp = NULL;
    if (irp != NULL)
        Held = NULL;
    KeReleaseSpinLock(&Lock, irql);
    return irp;
}

static VOID CancelRead(PDEVICE_OBJECT DeviceObject, PIRP Irp)
{
    KIRQL irql;
    UNREFERENCED_PARAMETER(DeviceObject);
    IoReleaseCancelSpinLock(Irp->CancelIrql);
    KeAcquireSpinLock(&Lock, &irql);
    if (Held == Irp)
        Held = NULL;
    KeReleaseSpinLock(&Lock, irql);
    Complete(Irp, STATUS_CANCELLED);
}

/* Keeps the read. FALSE where it is cancelled already: the caller completes it. */
static BOOLEAN Hold(PIRP Irp)
{
    BOOLEAN isHeld = TRUE;
    KIRQL irql;
    KeAcquireSpinLock(&Lock, &irql);
    IoSetCancelRoutine(Irp, CancelRead);
    if (Irp->Cancel && IoSetCancelRoutine(Irp, NULL) != NULL)
        isHeld = FALSE;
    else {
        IoMarkIrpPending(Irp);
        Held = Irp;
    }
    KeReleaseSpinLock(&Lock, irql);
    return isHeld;
}

static NTSTATUS Read(PDEVICE_OBJECT DeviceObject, PIRP Irp)
{
    PIRP earlier = TakeHeld();
    UNREFERENCED_PARAMETER(DeviceObject);
    if (earlier != NULL)
        Complete(earlier, STATUS_SUCCESS);
    return Hold(Irp) ? STATUS_PENDING : Complete(Irp, STATUS_CANCELLED);
}

static NTSTATUS Other(PDEVICE_OBJECT DeviceObject, PIRP Irp)
{
    PIRP earlier = TakeHeld();
    UNREFERENCED_PARAMETER(DeviceObject);
    if (earlier != NULL)
        Complete(earlier, STATUS_SUCCESS);
    return Complete(Irp, STATUS_SUCCESS);
}

NTSTATUS DriverEntry(PDRIVER_OBJECT DriverObject, PUNICODE_STRING RegistryPath)
{
    PDEVICE_OBJECT device;
    UNREFERENCED_PARAMETER(RegistryPath);
    KeInitializeSpinLock(&Lock);
    for (int i = 0; i <= IRP_MJ_MAXIMUM_FUNCTION; i++)
        DriverObject->MajorFunction[i] = Other;
    DriverObject->MajorFunction[IRP_MJ_READ] = Read;
    return IoCreateDevice(DriverObject, 0, NULL, FILE_DEVICE_UNKNOWN, 0, FALSE, &device);
}
