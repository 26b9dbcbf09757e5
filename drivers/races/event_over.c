/* event_over.c: 1 preemption, StackBlock. A dispatch waits for its own packet with a limit, and returns when time is up. Time
   passes early: the packet's routine sets the event of a frame that is over. The right one cancels the packet, and waits. */
#include "race.h"

typedef struct { PDEVICE_OBJECT Lower; } EXTENSION, *PEXTENSION;

static NTSTATUS OwnDone(PDEVICE_OBJECT DeviceObject, PIRP Irp, PVOID Context)
{
    UNREFERENCED_PARAMETER(DeviceObject), UNREFERENCED_PARAMETER(Irp);
#ifndef RIGHT
    IoFreeIrp(Irp);
#endif
    KeSetEvent(Context, IO_NO_INCREMENT, FALSE);
    return STATUS_MORE_PROCESSING_REQUIRED;
}

static NTSTATUS Read(PDEVICE_OBJECT DeviceObject, PIRP Irp)
{
    PEXTENSION ext = DeviceObject->DeviceExtension;
    PIRP own = IoAllocateIrp(ext->Lower->StackSize, FALSE);
    LARGE_INTEGER limit = Milliseconds(50);
    KEVENT done;
    KeInitializeEvent(&done, NotificationEvent, FALSE);
    IoGetNextIrpStackLocation(own)->MajorFunction = IRP_MJ_WRITE;
    IoGetNextIrpStackLocation(own)->Parameters.Write.Length = 4;
    IoSetCompletionRoutine(own, OwnDone, &done, TRUE, TRUE, TRUE);
    IoCallDriver(ext->Lower, own);
    const NTSTATUS status = KeWaitForSingleObject(&done, Executive, KernelMode, FALSE, &limit);
#ifdef RIGHT
    if (status == STATUS_TIMEOUT) {
        IoCancelIrp(own);
        KeWaitForSingleObject(&done, Executive, KernelMode, FALSE, NULL);
    }
    IoFreeIrp(own);
#endif
    return Complete(Irp, status == STATUS_TIMEOUT ? STATUS_IO_TIMEOUT : STATUS_SUCCESS, 0);
}

NTSTATUS DriverEntry(PDRIVER_OBJECT DriverObject, PUNICODE_STRING RegistryPath)
{
    UNREFERENCED_PARAMETER(RegistryPath);
    DriverObject->MajorFunction[IRP_MJ_READ] = Read;
    return STATUS_SUCCESS;
}

int main(void)
{
    PDRIVER_OBJECT driver = WdmLoadDriver("event_over", DriverEntry);
    PDEVICE_OBJECT bottom = WdmCreateBottom(TRUE), top;
    IoCreateDevice(driver, sizeof(EXTENSION), NULL, FILE_DEVICE_UNKNOWN, 0, FALSE, &top);
    ((PEXTENSION)top->DeviceExtension)->Lower = IoAttachDeviceToDeviceStack(top, bottom);
    WdmSend(top, IRP_MJ_READ, 0, 4);
    return WdmFinish();
}
