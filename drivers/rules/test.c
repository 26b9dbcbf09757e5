/* test.c CASE wrong|right: runs one case. `names` prints the names of all. */
#include "rules.h"
#include "wdm_test.h"
#include <stdio.h>

DRIVER_INITIALIZE DriverEntry;
const char *RulesName(ULONG n);
VOID RulesSetPnp(PEXTENSION Ext, ULONG n);
extern BOOLEAN KeepsFlag;

/* A control that a program sends, with four bytes of input. */
static void send_as_program(PDEVICE_OBJECT top, ULONG code)
{
    IO_STATUS_BLOCK iosb;
    KEVENT ended;
    KeInitializeEvent(&ended, NotificationEvent, FALSE);
    PIRP irp = WdmBuildIrp(top, IRP_MJ_DEVICE_CONTROL, 0, 16, &iosb, &ended);
    irp->RequestorMode = UserMode;
    IoGetNextIrpStackLocation(irp)->Parameters.DeviceIoControl.IoControlCode = code;
    IoGetNextIrpStackLocation(irp)->Parameters.DeviceIoControl.InputBufferLength = 4;
    IoCallDriver(top, irp);
    KeWaitForSingleObject(&ended, Executive, KernelMode, FALSE, NULL);
}

static void run_case(ULONG n, BOOLEAN wrong)
{
    PDRIVER_OBJECT driver = WdmLoadDriver("rules", DriverEntry);
    PDEVICE_OBJECT bottom = WdmCreateBottom(TRUE);
    KeepsFlag = wrong && !strcmp(RulesName(n), "StillInitializing");
    WdmAddDevice(driver, bottom);
    PDEVICE_OBJECT top = IoGetAttachedDevice(bottom);
    ((PEXTENSION)top->DeviceExtension)->Wrong = wrong;
    RulesSetPnp(top->DeviceExtension, n);
    WdmSend(top, IRP_MJ_PNP, IRP_MN_START_DEVICE, 0);
    WdmSend(top, IRP_MJ_PNP, 0x7f, 0); /* a request that no driver knows */
    WdmSend(top, IRP_MJ_PNP, IRP_MN_QUERY_INTERFACE, 0);
    WdmControl(top, n << 2, 16);
    WdmControl(top, n << 2, 16);
    if (!strcmp(RulesName(n), "Unprobed") || strstr(RulesName(n), "_Program"))
        send_as_program(top, n << 2 | METHOD_NEITHER);
    if (!strcmp(RulesName(n), "Unwritten"))
        send_as_program(top, n << 2);
    WdmSend(top, IRP_MJ_POWER, IRP_MN_SET_POWER, 0);
    if (!strcmp(RulesName(n), "StatusNotSet"))
        WdmSend(top, IRP_MJ_PNP, IRP_MN_SURPRISE_REMOVAL, 0);
    WdmSend(top, IRP_MJ_PNP, IRP_MN_REMOVE_DEVICE, 0);
    IoDeleteDevice(bottom);
    WdmUnloadDriver(driver);
}

int main(int argc, char **argv)
{
    const char *name;
    for (ULONG n = 0; (name = RulesName(n)); n++)
        if (argc > 2 && !strcmp(name, argv[1]))
            run_case(n, !strcmp(argv[2], "wrong"));
        else if (argc == 2)
            puts(name);
    return argc > 2 ? WdmFinish() : 0;
}
