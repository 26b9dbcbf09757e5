/* master.c: a read in two associated packets: the I/O manager counts the master's IrpCount down, and completes it at exactly 0.
   WRONG=1 forgets to set IrpCount: in Windows the read is never completed. */
#include "filter.h"

enum { PIECES = 2 };

static VOID FreePieces(PIRP *Pieces)
{
    for (int i = 0; i < PIECES; i++)
        if (Pieces[i])
            IoFreeIrp(Pieces[i]);
}

static NTSTATUS Read(PDEVICE_OBJECT DeviceObject, PIRP Irp)
{
    PIRP pieces[PIECES] = { NULL };
    for (int i = 0; i < PIECES; i++) {
        pieces[i] = IoMakeAssociatedIrp(Irp, LowerOf(DeviceObject)->StackSize); /* told 1: NoMaster */
        if (!pieces[i]) {
            FreePieces(pieces);
            return Complete(Irp, STATUS_INSUFFICIENT_RESOURCES, 0);
        }
        IoGetNextIrpStackLocation(pieces[i])->MajorFunction = IRP_MJ_FLUSH_BUFFERS;
    }
    IoMarkIrpPending(Irp);
    Irp->IoStatus.Status = STATUS_SUCCESS;
    Irp->IoStatus.Information = 0;
    if (WRONG != 1)
        Irp->AssociatedIrp.IrpCount = PIECES;
    for (int i = 0; i < PIECES; i++)
        IoCallDriver(LowerOf(DeviceObject), pieces[i]);
    return STATUS_PENDING;
}

int main(void)
{
    PDEVICE_OBJECT pdo = StartFilter(WDM_BOTTOM_LATE);
    IoGetAttachedDevice(pdo)->Flags &= ~(ULONG)DO_BUFFERED_IO; /* the master has no system buffer where it has a count */
    WDM_CHECK(WdmSend(IoGetAttachedDevice(pdo), IRP_MJ_READ, 0, 16) == STATUS_SUCCESS);
    WdmUnplug(pdo, FALSE);
    return WdmFinish();
}
