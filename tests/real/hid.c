/* hid.c: a joystick: Wine's test bus, its HID minidriver, hidclass. Words say what is done. */
#include "hid.h"

static const BYTE report[] = { 0x05, 0x01, 0x09, 0x05, 0xa1, 0x01, 0x15, 0x00, 0x25, 0x7f, 0x75, 0x08, 0x95, 0x02, 0x09,
                               0x30, 0x09, 0x31, 0x81, 0x02, 0x95, 0x01, 0x09, 0x32, 0xb1, 0x02, 0x09, 0x33, 0x91, 0x02,
                               0xc0 };

static void read_and_cancel(PDEVICE_OBJECT collection)
{
    Request *read = Prepare(collection, IRP_MJ_READ, 0, NULL, 0, 3);
    IoCallDriver(collection, read->irp);
    Input((BYTE[]){ 5, 5 }, 2);
    Wait(read, 500);
    read = Prepare(collection, IRP_MJ_READ, 0, NULL, 0, 3);
    IoCallDriver(collection, read->irp);
    IoCancelIrp(read->irp);
    Wait(read, 500);
}

static void read_cancelled_before(PDEVICE_OBJECT collection)
{
    Request *read = Prepare(collection, IRP_MJ_READ, 0, NULL, 0, 3);
    IoCancelIrp(read->irp);
    IoCallDriver(collection, read->irp);
    Wait(read, 200);
    Input((BYTE[]){ 6, 6 }, 2);
    Wait(read, 200);
}

/* A device is asked to wait until all that it expects has come, and something hasn't: the bus, or its child. */
static Request *prepare_wait(PDEVICE_OBJECT device)
{
    static struct { struct hid_device_desc device; struct hid_expect expect[1]; } message;
    static struct { struct hid_device_desc device; struct wait_expect_params wait; } params;
    message.device = params.device = description;
    message.expect[0].code = IOCTL_HID_SET_FEATURE;
    Control(bus, IOCTL_WINETEST_HID_SET_EXPECT, &message, sizeof message, 0);
    return Prepare(device, IRP_MJ_DEVICE_CONTROL, IOCTL_WINETEST_HID_WAIT_EXPECT, &params, sizeof params, 0);
}

static void wait_for_expected(void)
{
    Request *wait = prepare_wait(bus);
    IoCallDriver(bus, wait->irp);
    Wait(wait, 500);
}

static void wait_cancelled_before(PDEVICE_OBJECT child)
{
    Request *wait = prepare_wait(child);
    IoCancelIrp(wait->irp);
    IoCallDriver(child, wait->irp);
    Wait(wait, 200);
}

int main(int argc, char **argv)
{
    PDEVICE_OBJECT device = MakeDevice(report, sizeof report, 3);
    if (device && Does(argc, argv, "early")) {
        wait_cancelled_before(device);
        return WdmFinish();
    }
    PDRIVER_OBJECT driver = WdmLoadByName(Does(argc, argv, "poll") ? "driver_hid_poll" : "driver_hid");
    PDEVICE_OBJECT hid = Add(driver, device), collection = hid ? Child(hid, 0) : NULL;
    if (!collection || Pnp(collection, IRP_MN_START_DEVICE))
        return WdmFinish();
    PFILE_OBJECT file = WdmOpenFile(collection);
    if (Does(argc, argv, "read"))
        read_and_cancel(collection);
    if (Does(argc, argv, "before"))
        read_cancelled_before(collection);
    if (Does(argc, argv, "wait"))
        wait_for_expected();
    if (file && !Does(argc, argv, "before"))
        WdmCloseFile(file);
    if (Does(argc, argv, "surprise"))
        Pnp(hid, IRP_MN_SURPRISE_REMOVAL);
    if (Does(argc, argv, "remove")) {
        Pnp(collection, IRP_MN_SURPRISE_REMOVAL);
        Pnp(collection, IRP_MN_REMOVE_DEVICE);
        if (Does(argc, argv, "later")) { /* a report comes between the two removals, and is polled */
            Input((BYTE[]){ 7, 7 }, 2);
            KeDelayExecutionThread(KernelMode, FALSE, &(LARGE_INTEGER){ .QuadPart = -10000 * 500 });
        }
        Pnp(hid, IRP_MN_REMOVE_DEVICE);
        Pnp(bus, IRP_MN_REMOVE_DEVICE);
    }
    return WdmFinish();
}
