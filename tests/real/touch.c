/* touch.c: a touch screen: Wine's test bus, winehid, hidclass, and mouhid on the collection. */
#include "hid.h"

static const BYTE report[] = {
    0x05, 0x0d, 0x09, 0x04, 0xa1, 0x01, 0x09, 0x22, 0xa1, 0x02, 0x09, 0x42, 0x15, 0x00, 0x25, 0x01, 0x75, 0x01, 0x95, 0x01,
    0x81, 0x02, 0x95, 0x07, 0x81, 0x03, 0x75, 0x08, 0x95, 0x01, 0x25, 0x7f, 0x09, 0x51, 0x81, 0x02, 0x05, 0x01, 0x09, 0x30,
    0x09, 0x31, 0x95, 0x02, 0x81, 0x02, 0xc0, 0x05, 0x0d, 0x09, 0x54, 0x95, 0x01, 0x81, 0x02, 0x09, 0x55, 0xb1, 0x02, 0xc0 };

int main(int argc, char **argv)
{
    LARGE_INTEGER moment = { .QuadPart = -1000000 };
    description.expect_size = sizeof description.expect[0];
    description.expect[0] = (struct hid_expect){ .code = IOCTL_HID_GET_FEATURE, .report_len = 1, .ret_length = 1,
                                                 .report_buf = { 5 } };
    PDEVICE_OBJECT device = MakeDevice(report, sizeof report, 6), hid = Add(WdmLoadByName("winehid"), device);
    PDEVICE_OBJECT top = hid ? Add(WdmLoadByName("mouhid"), Child(hid, 0)) : NULL;
    if (!top)
        return WdmFinish();
    for (BYTE i = 0; i < 3 && Does(argc, argv, "read"); i++)
        Input((BYTE[]){ 1, 1, 5 + i, 5 + i, 1 }, 5);
    KeDelayExecutionThread(KernelMode, FALSE, &moment);
    if (Does(argc, argv, "surprise"))
        Pnp(top, IRP_MN_SURPRISE_REMOVAL);
    return WdmFinish();
}
