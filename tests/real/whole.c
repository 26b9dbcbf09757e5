/* whole.c: all of Wine's test of the I/O manager that the host runs: `main` has it make its main test (WINE_PART names the
   part). */
#include "common.h"
#include "driver.h"

static NTSTATUS keep(PDEVICE_OBJECT device, PIRP irp, PVOID done)
{
    (void)device, (void)irp;
    KeSetEvent(done, IO_NO_INCREMENT, FALSE);
    return STATUS_MORE_PROCESSING_REQUIRED;
}

/* As `Control`, but the packet has no event, as that of a program that waits for its request. */
static void make_main_test(PDEVICE_OBJECT top)
{
    static KEVENT done;
    LARGE_INTEGER limit = { .QuadPart = -10000LL * 500 };
    PIRP irp = WdmBuildIrp(top, IRP_MJ_DEVICE_CONTROL, 0, 64, NULL, NULL);
    PIO_STACK_LOCATION next = IoGetNextIrpStackLocation(irp);
    KeInitializeEvent(&done, NotificationEvent, FALSE);
    next->Parameters.DeviceIoControl.IoControlCode = IOCTL_WINETEST_MAIN_TEST;
    next->Parameters.DeviceIoControl.InputBufferLength = 1;
    next->Parameters.DeviceIoControl.OutputBufferLength = 64;
    IoSetCompletionRoutine(irp, keep, &done, TRUE, TRUE, TRUE);
    IoCallDriver(top, irp);
    if (KeWaitForSingleObject(&done, Executive, KernelMode, FALSE, &limit) != STATUS_TIMEOUT)
        IoFreeIrp(irp);
}

int main(void)
{
    WdmMakeSection(L"\\BaseNamedObjects\\winetest_ntoskrnl_section", 4096);
    WdmMakeFile(L"\\??\\C:\\windows\\winetest_ntoskrnl_okfile");
    WdmMakeFile(L"\\??\\C:\\windows\\winetest_ntoskrnl_file.tmp");
    PDEVICE_OBJECT lower = WdmLoadByName("WineTestDriver")->DeviceObject;
    while (lower->NextDevice)
        lower = lower->NextDevice;
    PDEVICE_OBJECT top = IoGetAttachedDevice(lower);
    PFILE_OBJECT file = WdmOpenFile(top);
    make_main_test(top);
    if (file)
        WdmCloseFile(file);
    return WdmFinish();
}
