/* configure.c: a client of usbd, which makes of a device's descriptors the request that selects its configuration; wineusb
   gets it. With `endless` one descriptor says that it has no length. The library behind the Unix side is simulated. */
#include "common.h"
#include "ddk/usb.h"
#include "ddk/usbdlib.h"
#include "ddk/usbioctl.h"
#include "unixlib.h"

static KEVENT gone, over;
struct unix_device { int number; } one;

/* The device comes at once, and goes when it is told to. */
static NTSTATUS next_event(struct usb_event *event)
{
    static int events;
    if (events == 1)
        KeWaitForSingleObject(&gone, Executive, KernelMode, FALSE, NULL);
    if (events == 2) {
        KeWaitForSingleObject(&over, Executive, KernelMode, FALSE, NULL);
        return STATUS_SUCCESS;
    }
    if (events++)
        *event = (struct usb_event){ .type = USB_EVENT_REMOVE_DEVICE, .u.removed_device = &one };
    else
        *event = (struct usb_event){ .type = USB_EVENT_ADD_DEVICE,
                                     .u.added_device = { .device = &one, .vendor = 1, .product = 2 } };
    return STATUS_PENDING;
}

NTSTATUS WdmUnixCall(unsigned code, void *parameters)
{
    switch (code) {
    case unix_usb_main_loop: return next_event(((struct usb_main_loop_params *)parameters)->event);
    case unix_usb_exit: KeSetEvent(&over, 0, FALSE); return STATUS_SUCCESS;
    default: return STATUS_SUCCESS; /* what is submitted is done at once */
    }
}

static struct {
    USB_CONFIGURATION_DESCRIPTOR whole;
    USB_INTERFACE_DESCRIPTOR interface;
    USB_ENDPOINT_DESCRIPTOR in, out;
} __attribute__((packed)) told = {
    { .bLength = 9, .bDescriptorType = USB_CONFIGURATION_DESCRIPTOR_TYPE, .wTotalLength = sizeof told, .bNumInterfaces = 1 },
    { .bLength = 9, .bDescriptorType = USB_INTERFACE_DESCRIPTOR_TYPE, .bNumEndpoints = 2 },
    { .bLength = 7, .bDescriptorType = USB_ENDPOINT_DESCRIPTOR_TYPE, .bEndpointAddress = 0x81, .bmAttributes = 2 },
    { .bLength = 7, .bDescriptorType = USB_ENDPOINT_DESCRIPTOR_TYPE, .bEndpointAddress = 2, .bmAttributes = 2 },
};

static void select_configuration(PDEVICE_OBJECT device)
{
    USHORT size;
    PURB urb = USBD_CreateConfigurationRequest(&told.whole, &size);
    WDM_CHECK(urb && size >= sizeof(struct _URB_SELECT_CONFIGURATION) &&
              urb->UrbSelectConfiguration.Interface.NumberOfPipes == 2 &&
              urb->UrbSelectConfiguration.Interface.Pipes[1].EndpointAddress == 2);
    Request *r = Prepare(device, IRP_MJ_INTERNAL_DEVICE_CONTROL, IOCTL_INTERNAL_USB_SUBMIT_URB, NULL, 0, 0);
    IoGetNextIrpStackLocation(r->irp)->Parameters.Others.Argument1 = urb;
    IoCallDriver(device, r->irp);
    WDM_CHECK(Wait(r, 500) && r->io.Status == STATUS_SUCCESS);
    ExFreePool(urb);
}

int main(int argc, char **argv)
{
    LARGE_INTEGER moment = { .QuadPart = -500000 };
    KeInitializeEvent(&gone, SynchronizationEvent, FALSE);
    KeInitializeEvent(&over, SynchronizationEvent, FALSE);
    if (Does(argc, argv, "endless"))
        told.in.bLength = 0;
    WdmLoadByName("usbd");
    PDEVICE_OBJECT host = Add(WdmLoadByName("wineusb"), WdmCreateBottom(FALSE));
    PDEVICE_OBJECT device = NULL;
    for (int i = 0; !device && i < 100; i++) {
        KeDelayExecutionThread(KernelMode, FALSE, &moment);
        device = Child(host, 0);
    }
    if (!device || Pnp(device, IRP_MN_START_DEVICE))
        return WdmFinish();
    select_configuration(device);
    KeSetEvent(&gone, 0, FALSE);
    KeDelayExecutionThread(KernelMode, FALSE, &moment);
    Pnp(device, IRP_MN_SURPRISE_REMOVAL);
    Pnp(device, IRP_MN_REMOVE_DEVICE);
    Pnp(host, IRP_MN_REMOVE_DEVICE);
    return WdmFinish();
}
