/* built_fails.c: a filter's control fails at once: the I/O manager sets no event then, and writes no IoStatusBlock. WRONG=1
   waits whatever IoCallDriver returned. */
#include "filter.h"

static NTSTATUS Read(PDEVICE_OBJECT DeviceObject, PIRP Irp)
{
    KEVENT done;
    IO_STATUS_BLOCK iosb = { .Status = STATUS_TIMEOUT };
    ULONG answer = 0;
    KeInitializeEvent(&done, NotificationEvent, FALSE);
    PIRP own = IoBuildDeviceIoControlRequest(CTL_CODE(FILE_DEVICE_UNKNOWN, 0x900, METHOD_BUFFERED, FILE_ANY_ACCESS),
                                             LowerOf(DeviceObject), NULL, 0, &answer, sizeof answer, FALSE, &done, &iosb);
    if (!own)
        return Complete(Irp, STATUS_INSUFFICIENT_RESOURCES, 0);
    NTSTATUS status = IoCallDriver(LowerOf(DeviceObject), own);
    if (status != STATUS_PENDING && WRONG != 1) {
        WDM_CHECK(iosb.Status == STATUS_TIMEOUT && !KeReadStateEvent(&done));
        return Complete(Irp, status, 0);
    }
    KeWaitForSingleObject(&done, Executive, KernelMode, FALSE, NULL); /* told 1: Hang */
    return Complete(Irp, iosb.Status, 0);
}

int main(void)
{
    PDEVICE_OBJECT pdo = StartFilter(WDM_BOTTOM_FAILS);
    for (int i = 0; i < 4; i++)
        WDM_CHECK(WdmSend(IoGetAttachedDevice(pdo), IRP_MJ_READ, 0, 16) == STATUS_IO_DEVICE_ERROR);
    WdmUnplug(pdo, FALSE);
    return WdmFinish();
}
