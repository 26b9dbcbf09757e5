/* late.c: a driver whose dispatch takes its time to return, after its packet has ended: the run ends meanwhile, and
   waits for the send. A thread of the driver waits for ever with nothing in flight. */
#include "common.h"

static KEVENT never, completed;

static VOID Idle(PVOID Context)
{
    KeWaitForSingleObject(Context, Executive, KernelMode, FALSE, NULL);
}

static NTSTATUS Read(PDEVICE_OBJECT DeviceObject, PIRP Irp)
{
    const ULONG length = IoGetCurrentIrpStackLocation(Irp)->Parameters.Read.Length;
    UNREFERENCED_PARAMETER(DeviceObject);
    Complete(Irp, STATUS_SUCCESS, length ? 1 : 0);
    KeSetEvent(&completed, IO_NO_INCREMENT, FALSE);
    Pause(300);
    return STATUS_SUCCESS;
}

NTSTATUS DriverEntry(PDRIVER_OBJECT DriverObject, PUNICODE_STRING RegistryPath)
{
    PDEVICE_OBJECT device;
    HANDLE thread;
    UNREFERENCED_PARAMETER(RegistryPath);
    DriverObject->MajorFunction[IRP_MJ_READ] = Read;
    KeInitializeEvent(&never, NotificationEvent, FALSE);
    KeInitializeEvent(&completed, NotificationEvent, FALSE);
    PsCreateSystemThread(&thread, THREAD_ALL_ACCESS, NULL, NULL, NULL, Idle, &never);
    return IoCreateDevice(DriverObject, 0, NULL, FILE_DEVICE_UNKNOWN, 0, FALSE, &device);
}

static REQUEST r;
static PDEVICE_OBJECT device;

static void *send(void *context)
{
    Start(&r, device, IRP_MJ_READ, 1);
    return context;
}

int main(void)
{
    pthread_t t;
    device = WdmLoadDriver("late", DriverEntry)->DeviceObject;
    pthread_create(&t, NULL, send, NULL);
    pthread_detach(t);
    KeWaitForSingleObject(&completed, Executive, KernelMode, FALSE, NULL);
    Finish(&r);
    return WdmFinish();
}
