/* mutex_and_event.c: 1 preemption, Hang. The work item says that it is done under a mutex, and whoever waits for that holds
   the mutex meanwhile. The work item is preempted before it takes the mutex: each waits for the other. There is one lock
   only, so its order tells nothing. */
#include "race.h"

static PDEVICE_OBJECT device;
static KMUTEX mutex;
static KEVENT idle, began;
static BOOLEAN busy;

static VOID Work(PDEVICE_OBJECT DeviceObject, PVOID Context)
{
    UNREFERENCED_PARAMETER(DeviceObject);
    IoFreeWorkItem(Context);
    KeSetEvent(&began, IO_NO_INCREMENT, FALSE);
    KeWaitForSingleObject(&mutex, Executive, KernelMode, FALSE, NULL);
    busy = FALSE;
    KeSetEvent(&idle, IO_NO_INCREMENT, FALSE);
    KeReleaseMutex(&mutex, FALSE);
}

static NTSTATUS Read(PDEVICE_OBJECT DeviceObject, PIRP Irp)
{
    PIO_WORKITEM item = IoAllocateWorkItem(DeviceObject);
    busy = TRUE;
    IoQueueWorkItem(item, Work, DelayedWorkQueue, item);
    KeWaitForSingleObject(&began, Executive, KernelMode, FALSE, NULL);
    KeWaitForSingleObject(&mutex, Executive, KernelMode, FALSE, NULL);
#ifdef RIGHT
    while (busy) {
        KeReleaseMutex(&mutex, FALSE);
        KeWaitForSingleObject(&idle, Executive, KernelMode, FALSE, NULL);
        KeWaitForSingleObject(&mutex, Executive, KernelMode, FALSE, NULL);
    }
#else
    if (busy) /* the fault: it waits with the mutex */
        KeWaitForSingleObject(&idle, Executive, KernelMode, FALSE, NULL);
#endif
    KeReleaseMutex(&mutex, FALSE);
    return Complete(Irp, STATUS_SUCCESS, 0);
}

NTSTATUS DriverEntry(PDRIVER_OBJECT DriverObject, PUNICODE_STRING RegistryPath)
{
    UNREFERENCED_PARAMETER(RegistryPath);
    device = MakeDevice(DriverObject, 0, Read);
    KeInitializeMutex(&mutex, 0);
    KeInitializeEvent(&idle, SynchronizationEvent, FALSE);
    KeInitializeEvent(&began, SynchronizationEvent, FALSE);
    return STATUS_SUCCESS;
}

int main(void)
{
    WdmLoadDriver("mutex_and_event", DriverEntry);
    WdmSend(device, IRP_MJ_READ, 0, 4);
    return WdmFinish();
}
