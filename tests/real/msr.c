/* msr.c: a program that asks Intel's driver for model-specific registers: each of its controls; with `short` one whose
   buffer is too short. */
#include <wdm.h>
#include "wdm_test.h"

enum { FIRST_CONTROL = 0x800, CONTROLS = 10, MAPS = 0x805, ROOM = 40 };
typedef struct { ULONG Bus, Device, Function, Register, Bytes; } WISH; /* of the registers of a PCI device */
static ULONG Code(ULONG number) { return CTL_CODE(50000, number, METHOD_BUFFERED, FILE_ANY_ACCESS); }

static NTSTATUS ask(PDEVICE_OBJECT device, ULONG code)
{
    IO_STATUS_BLOCK iosb;
    KEVENT done;
    KeInitializeEvent(&done, NotificationEvent, FALSE);
    PIRP irp = WdmBuildIrp(device, IRP_MJ_DEVICE_CONTROL, 0, ROOM, &iosb, &done);
    IoGetNextIrpStackLocation(irp)->Parameters.DeviceIoControl.IoControlCode = code;
    *(WISH *)irp->AssociatedIrp.SystemBuffer = (WISH){ .Bytes = 4 };
    IoCallDriver(device, irp);
    KeWaitForSingleObject(&done, Executive, KernelMode, FALSE, NULL);
    return iosb.Status;
}

int main(int argc, char **argv)
{
    (void)argv;
    WdmMakeSection(L"\\Device\\PhysicalMemory", 1 << 16);
    PDRIVER_OBJECT driver = WdmLoadByName("msrmain");
    PDEVICE_OBJECT device = driver ? driver->DeviceObject : NULL;
    if (!device)
        return 1;
    WdmSend(device, IRP_MJ_CREATE, 0, 0);
    for (ULONG i = 0; i < CONTROLS && argc == 1; i++)
        ask(device, Code(FIRST_CONTROL + i));
    if (argc > 1)
        WdmControl(device, Code(MAPS), 8);
    WdmSend(device, IRP_MJ_CLOSE, 0, 0);
    WdmUnloadDriver(driver);
    WdmExpectEntries(8);
    return WdmFinish();
}
