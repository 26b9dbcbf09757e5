/* usb.c: wineusb: a device with transfers; the library behind its Unix side is simulated. */
#include "common.h"
#include "ddk/usb.h"
#include "ddk/usbioctl.h"
#include "unixlib.h"

static struct usb_event queue[64];
static unsigned head, tail;
static BOOLEAN over;
static KEVENT some;
static KSPIN_LOCK lock;
static PIRP out[16];
struct unix_device { int number; } one;

static void push(struct usb_event event)
{
    KIRQL irql;
    KeAcquireSpinLock(&lock, &irql);
    queue[tail++ % 64] = event;
    KeReleaseSpinLock(&lock, irql);
    KeSetEvent(&some, 0, FALSE);
}

static void transfer_ends(PIRP irp) { push((struct usb_event){ .type = USB_EVENT_TRANSFER_COMPLETE, .u.completed_irp = irp }); }

static NTSTATUS next_event(struct usb_event *event)
{
    for (;;) {
        KIRQL irql;
        KeAcquireSpinLock(&lock, &irql);
        const BOOLEAN is_there = head != tail;
        if (is_there)
            *event = queue[head++ % 64];
        KeReleaseSpinLock(&lock, irql);
        if (is_there)
            return STATUS_PENDING;
        if (over)
            return STATUS_SUCCESS;
        KeWaitForSingleObject(&some, Executive, KernelMode, FALSE, NULL);
    }
}

NTSTATUS WdmUnixCall(unsigned code, void *parameters)
{
    int i = 0;
    PIRP irp;
    switch (code) {
    case unix_usb_main_loop: return next_event(((struct usb_main_loop_params *)parameters)->event);
    case unix_usb_submit_urb:
        irp = ((struct usb_submit_urb_params *)parameters)->irp;
        while (out[i])
            i++;
        out[i] = irp->Tail.Overlay.DriverContext[0] = irp;
        return STATUS_PENDING;
    case unix_usb_cancel_transfer:
        irp = ((struct usb_cancel_transfer_params *)parameters)->transfer;
        for (i = 0; i < 16; i++)
            if (out[i] == irp) {
                out[i] = NULL;
                transfer_ends(irp);
            }
        return STATUS_SUCCESS;
    case unix_usb_exit: over = TRUE, KeSetEvent(&some, 0, FALSE); return STATUS_SUCCESS;
    default: return STATUS_SUCCESS;
    }
}

static Request *send_urb(PDEVICE_OBJECT device, USHORT function)
{
    URB *urb = calloc(1, sizeof *urb);
    urb->UrbHeader.Function = function;
    urb->UrbHeader.Length = sizeof *urb;
    Request *r = Prepare(device, IRP_MJ_INTERNAL_DEVICE_CONTROL, IOCTL_INTERNAL_USB_SUBMIT_URB, NULL, 0, 0);
    IoGetNextIrpStackLocation(r->irp)->Parameters.Others.Argument1 = urb;
    IoCallDriver(device, r->irp);
    return r;
}

int main(int argc, char **argv)
{
    LARGE_INTEGER moment = { .QuadPart = -500000 };
    KeInitializeEvent(&some, SynchronizationEvent, FALSE);
    KeInitializeSpinLock(&lock);
    PDEVICE_OBJECT host = Add(WdmLoadByName("wineusb"), WdmCreateBottom(FALSE)), device = NULL;
    push((struct usb_event){ .type = USB_EVENT_ADD_DEVICE,
                             .u.added_device = { .device = &one, .vendor = 1, .product = 2 } });
    for (int i = 0; !device && i < 100; i++) {
        KeDelayExecutionThread(KernelMode, FALSE, &moment);
        device = Child(host, 0);
    }
    if (!device || Pnp(device, IRP_MN_START_DEVICE))
        return WdmFinish();
    if (Does(argc, argv, "transfer")) {
        Request *r = send_urb(device, URB_FUNCTION_BULK_OR_INTERRUPT_TRANSFER);
        out[0] = NULL;
        transfer_ends(r->irp);
        Wait(r, 500);
        r = send_urb(device, URB_FUNCTION_BULK_OR_INTERRUPT_TRANSFER);
        Wait(send_urb(device, URB_FUNCTION_ABORT_PIPE), 500);
        Wait(r, 500);
    }
    Request *late = Does(argc, argv, "unplug") ? send_urb(device, URB_FUNCTION_BULK_OR_INTERRUPT_TRANSFER) : NULL;
    push((struct usb_event){ .type = USB_EVENT_REMOVE_DEVICE, .u.removed_device = &one });
    KeDelayExecutionThread(KernelMode, FALSE, &moment);
    Pnp(device, IRP_MN_SURPRISE_REMOVAL);
    if (late) { /* the library tells of the transfer after that */
        transfer_ends(late->irp);
        KeDelayExecutionThread(KernelMode, FALSE, &moment);
    }
    Pnp(device, IRP_MN_REMOVE_DEVICE);
    Pnp(host, IRP_MN_REMOVE_DEVICE);
    return WdmFinish();
}
