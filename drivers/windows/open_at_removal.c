/* open_at_removal.c: a device that is open is told of its surprise removal, and gets IRP_MN_REMOVE_DEVICE only once its file
   is closed: the test's own file is closed by then, and that of another thread is waited for. WRONG=1 counts on the
   removal coming first. */
#include "filter.h"

static NTSTATUS Read(PDEVICE_OBJECT DeviceObject, PIRP Irp) { return Pass(DeviceObject, Irp); }

static LONG step, surprise_at, close_at, remove_at;
static KEVENT is_open, is_surprised;

static NTSTATUS WatchClose(PDEVICE_OBJECT DeviceObject, PIRP Irp)
{
    close_at = InterlockedIncrement(&step);
    return Pass(DeviceObject, Irp);
}

static NTSTATUS WatchPnp(PDEVICE_OBJECT DeviceObject, PIRP Irp)
{
    const UCHAR minor = IoGetCurrentIrpStackLocation(Irp)->MinorFunction;
    if (minor == IRP_MN_SURPRISE_REMOVAL) {
        surprise_at = InterlockedIncrement(&step);
        KeSetEvent(&is_surprised, IO_NO_INCREMENT, FALSE);
    }
    if (minor == IRP_MN_REMOVE_DEVICE)
        remove_at = InterlockedIncrement(&step);
    return Pnp(DeviceObject, Irp);
}

/* It closes its file a moment after the device was told that it is gone: a removal that doesn't wait would come before. */
static VOID OpenForAWhile(PVOID Context)
{
    PDEVICE_OBJECT top = Context;
    LARGE_INTEGER moment = { .QuadPart = -300000 };
    PFILE_OBJECT file = WdmOpenFile(top);
    KeSetEvent(&is_open, IO_NO_INCREMENT, FALSE);
    KeWaitForSingleObject(&is_surprised, Executive, KernelMode, FALSE, NULL);
    KeDelayExecutionThread(KernelMode, FALSE, &moment);
    if (file)
        WdmCloseFile(file);
    PsTerminateSystemThread(STATUS_SUCCESS);
}

static VOID Remove(PDRIVER_OBJECT Driver, BOOLEAN ByAnother)
{
    PDEVICE_OBJECT pdo = WdmCreateBottom(FALSE);
    HANDLE thread = NULL;
    step = surprise_at = close_at = remove_at = 0;
    WdmAddDevice(Driver, pdo);
    WdmPlugIn(pdo);
    KeInitializeEvent(&is_open, NotificationEvent, FALSE);
    KeInitializeEvent(&is_surprised, NotificationEvent, FALSE);
    if (ByAnother) {
        PsCreateSystemThread(&thread, THREAD_ALL_ACCESS, NULL, NULL, NULL, OpenForAWhile, IoGetAttachedDevice(pdo));
        KeWaitForSingleObject(&is_open, Executive, KernelMode, FALSE, NULL);
    } else
        WDM_CHECK(WdmOpenFile(IoGetAttachedDevice(pdo)) != NULL && pdo->ReferenceCount == 1);
    WdmUnplug(pdo, TRUE);
    const LONG first = WRONG == 1 ? remove_at : close_at, last = WRONG == 1 ? close_at : remove_at;
    WDM_CHECK(surprise_at == 1 && first == 2 && last == 3); /* told 1: Check */
    if (thread) {
        ZwWaitForSingleObject(thread, FALSE, NULL);
        ZwClose(thread);
    }
    IoDeleteDevice(pdo);
}

int main(void)
{
    PDRIVER_OBJECT driver = WdmLoadDriver("filter", FilterEntry);
    driver->MajorFunction[IRP_MJ_CLOSE] = WatchClose;
    driver->MajorFunction[IRP_MJ_PNP] = WatchPnp;
    Remove(driver, FALSE);
    Remove(driver, TRUE);
    return WdmFinish();
}
