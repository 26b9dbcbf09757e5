/* power.c: power packets of a driver for Windows XP, which has to ask for the next one; and answers to requests of Plug and
   Play that a driver doesn't handle. */
#define NTDDI_VERSION 0x05010000
#include "rules.h"

static NTSTATUS PassesPower(PEXTENSION Ext, PIRP Irp, BOOLEAN Wrong)
{
    if (!Wrong)
        PoStartNextPowerIrp(Irp);
    IoSkipCurrentIrpStackLocation(Irp);
    return PoCallDriver(Ext->Lower, Irp); /* told: NextPowerIrp */
}

static NTSTATUS Powered(PDEVICE_OBJECT DeviceObject, PIRP Irp, PVOID Context)
{
    PEXTENSION ext = Context;
    UNREFERENCED_PARAMETER(DeviceObject);
    if (!ext->Wrong)
        PoStartNextPowerIrp(Irp);
    if (Irp->PendingReturned)
        IoMarkIrpPending(Irp);
    return STATUS_CONTINUE_COMPLETION;
}

static NTSTATUS PassesPowerWithRoutine(PEXTENSION Ext, PIRP Irp, BOOLEAN Wrong)
{
    UNREFERENCED_PARAMETER(Wrong);
    IoCopyCurrentIrpStackLocationToNext(Irp);
    IoSetCompletionRoutine(Irp, Powered, Ext, TRUE, TRUE, TRUE);
    return PoCallDriver(Ext->Lower, Irp); /* told: NextPowerIrp_Routine */
}

static NTSTATUS Refuses(PEXTENSION Ext, PIRP Irp, UCHAR Minor, NTSTATUS Status)
{
    if (IoGetCurrentIrpStackLocation(Irp)->MinorFunction != Minor)
        return PassDown(Ext, Irp);
    Irp->IoStatus.Status = Status;
    IoCompleteRequest(Irp, IO_NO_INCREMENT); /* told: PnpStatusChanged_Unhandled */ /* told: NotPassedDown_Unhandled */
    return Status;
}

static NTSTATUS SaysInvalid(PEXTENSION Ext, PIRP Irp, BOOLEAN Wrong)
{
    return Wrong ? Refuses(Ext, Irp, IRP_MN_QUERY_INTERFACE, STATUS_INVALID_DEVICE_REQUEST) : PassDown(Ext, Irp);
}

static NTSTATUS KeepsQuestion(PEXTENSION Ext, PIRP Irp, BOOLEAN Wrong)
{
    return Wrong ? Refuses(Ext, Irp, IRP_MN_QUERY_INTERFACE, STATUS_NOT_SUPPORTED) : PassDown(Ext, Irp);
}

static NTSTATUS PassesFailure(PEXTENSION Ext, PIRP Irp, BOOLEAN Wrong)
{
    if (Wrong && IoGetCurrentIrpStackLocation(Irp)->MinorFunction == IRP_MN_QUERY_INTERFACE)
        Irp->IoStatus.Status = STATUS_UNSUCCESSFUL;
    IoSkipCurrentIrpStackLocation(Irp);
    return IoCallDriver(Ext->Lower, Irp); /* told: PnpStatusChanged_Passed */
}

static NTSTATUS EndsPower(PEXTENSION Ext, PIRP Irp, BOOLEAN Wrong)
{
    PoStartNextPowerIrp(Irp);
    if (!Wrong) {
        IoSkipCurrentIrpStackLocation(Irp);
        return PoCallDriver(Ext->Lower, Irp);
    }
    Irp->IoStatus.Status = STATUS_SUCCESS;
    IoCompleteRequest(Irp, IO_NO_INCREMENT); /* told: NotPassedDown_Power */
    return STATUS_SUCCESS;
}

/* What IRP_MN_SURPRISE_REMOVAL is for is done, and its status isn't set. */
static NTSTATUS QuietsDown(PEXTENSION Ext, PIRP Irp, BOOLEAN Wrong)
{
    if (IoGetCurrentIrpStackLocation(Irp)->MinorFunction == IRP_MN_SURPRISE_REMOVAL) {
        KeCancelTimer(&Ext->Timer);
        if (!Wrong)
            Irp->IoStatus.Status = STATUS_SUCCESS;
    }
    Ext->Step = 1;
    IoSkipCurrentIrpStackLocation(Irp);
    return IoCallDriver(Ext->Lower, Irp); /* told: StatusNotSet */
}

/* Where it is broken the driver has no dispatch for it (driver.c). */
NTSTATUS HasNone(PEXTENSION Ext, PIRP Irp, BOOLEAN Wrong)
{
    UNREFERENCED_PARAMETER(Wrong);
    PoStartNextPowerIrp(Irp);
    return PassDown(Ext, Irp);
}

const CASE_ROW PowerCases[] = {
    { "NextPowerIrp", NULL, NULL, PassesPower }, { "NextPowerIrp_Routine", NULL, NULL, PassesPowerWithRoutine },
    { "PnpStatusChanged_Unhandled", NULL, SaysInvalid, NULL }, { "NotPassedDown_Unhandled", NULL, KeepsQuestion, NULL },
    { "NotPassedDown_Power", NULL, NULL, EndsPower }, { "NotPassedDown_None", NULL, NULL, HasNone },
    { "PnpStatusChanged_Passed", NULL, PassesFailure, NULL }, { "StatusNotSet", NULL, QuietsDown, NULL },
    { NULL, NULL, NULL, NULL },
};
