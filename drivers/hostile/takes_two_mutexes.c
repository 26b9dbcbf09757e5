/* Two threads, each of which has the mutex that the other one wants. */
#include "hostile.h"

static KMUTEX one, other;
static KEVENT has_one, has_other;

static VOID TakeBoth(PKMUTEX First, PKEVENT Has, PKEVENT OtherHas, PKMUTEX Second)
{
    KeWaitForSingleObject(First, Executive, KernelMode, FALSE, NULL);
    KeSetEvent(Has, IO_NO_INCREMENT, FALSE);
    KeWaitForSingleObject(OtherHas, Executive, KernelMode, FALSE, NULL);
    KeWaitForSingleObject(Second, Executive, KernelMode, FALSE, NULL);
    KeReleaseMutex(Second, FALSE);
    KeReleaseMutex(First, FALSE);
}

static VOID Thread(PVOID Context) { TakeBoth(&other, &has_other, &has_one, &one); }

static NTSTATUS Read(PDEVICE_OBJECT DeviceObject, PIRP Irp)
{
    HANDLE thread;
    PsCreateSystemThread(&thread, THREAD_ALL_ACCESS, NULL, NULL, NULL, Thread, NULL);
    TakeBoth(&one, &has_one, &has_other, &other);
    return Complete(Irp, STATUS_SUCCESS);
}

NTSTATUS DriverEntry(PDRIVER_OBJECT DriverObject, PUNICODE_STRING RegistryPath)
{
    KeInitializeMutex(&one, 0);
    KeInitializeMutex(&other, 0);
    KeInitializeEvent(&has_one, NotificationEvent, FALSE);
    KeInitializeEvent(&has_other, NotificationEvent, FALSE);
    return Begin(DriverObject, 0);
}
