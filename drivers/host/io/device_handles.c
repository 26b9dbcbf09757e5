/* device_handles.c: handles of devices that drivers open by name: each is a file object. */
#include "io/io.h"
#include "ob/ob.h"
#include "pnp/pnp.h"

static const WDM_SITE nowhere;

/* Opens the device of that name. Returns false where there is none. */
bool open_by_name(PHANDLE handle, const OBJECT_ATTRIBUTES *attributes, NTSTATUS *status)
{
    PDEVICE_OBJECT device = attributes->ObjectName ? device_named(attributes->ObjectName) : NULL;
    PFILE_OBJECT file;
    if (!device)
        return false;
    *status = open_device(IoGetAttachedDevice(device), &file, nowhere);
    if (NT_SUCCESS(*status) && !(*handle = new_handle(*IoFileObjectType, file))) {
        WdmClose(file, nowhere);
        *status = STATUS_INSUFFICIENT_RESOURCES;
    }
    return true;
}

/* Reads or writes by a handle, and waits. Returns false where the handle isn't one of a device. */
bool transfer_by_handle(HANDLE handle, UCHAR major, PIO_STATUS_BLOCK iosb, PVOID buffer, ULONG length, PLARGE_INTEGER offset)
{
    PFILE_OBJECT file = handle_object(handle, *IoFileObjectType);
    KEVENT done;
    if (!file || file->Type != IO_TYPE_FILE || !file->DeviceObject)
        return false;
    PDEVICE_OBJECT top = IoGetRelatedDeviceObject(file);
    WdmKeInitializeEvent(&done, NotificationEvent, FALSE);
    PIRP irp = WdmBuildFsd(major, top, buffer, length, offset, &done, iosb, nowhere);
    NTSTATUS status = STATUS_INSUFFICIENT_RESOURCES;
    if (irp) {
        WdmIoGetNextIrpStackLocation(irp, nowhere)->FileObject = irp->Tail.Overlay.OriginalFileObject = file;
        status = WdmIoCallDriver(top, irp, nowhere);
    }
    if (status == STATUS_PENDING)
        WdmKeWaitForSingleObject(&done, NULL, nowhere);
    else
        iosb->Status = status;
    return true;
}

/* The mode of whoever asked this thread's outermost dispatch: a program, or the kernel. */
KPROCESSOR_MODE ExGetPreviousMode(VOID)
{
    const Frame *f = self.frames;
    while (f && f->up)
        f = f->up;
    return f && f->kind == DISPATCH ? f->p->mode : KernelMode;
}
