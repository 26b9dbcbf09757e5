/* gamepad.c: a game pad: Wine's test bus, winexinput with two children, winehid and hidclass on each. */
#include "hid.h"

static const BYTE report[] = {
    0x05, 0x01, 0x09, 0x05, 0xa1, 0x01, 0x15, 0x00, 0x26, 0xff, 0x00, 0x75, 0x08, 0x95, 0x06, 0x09, 0x30, 0x09, 0x31, 0x09,
    0x32, 0x09, 0x33, 0x09, 0x34, 0x09, 0x35, 0x81, 0x02, 0x05, 0x09, 0x19, 0x01, 0x29, 0x0a, 0x15, 0x00, 0x25, 0x01, 0x75,
    0x01, 0x95, 0x0a, 0x81, 0x02, 0x95, 0x06, 0x81, 0x03, 0x05, 0x01, 0x09, 0x39, 0x15, 0x01, 0x25, 0x08, 0x75, 0x08, 0x95,
    0x01, 0x81, 0x02, 0xc0 };
static PDEVICE_OBJECT child[2], hid[2], collection[2];

static void start_child(PDRIVER_OBJECT winehid, PDEVICE_OBJECT pad, int i)
{
    child[i] = Child(pad, (ULONG)i);
    Pnp(child[i], IRP_MN_START_DEVICE);
    hid[i] = Add(winehid, child[i]);
    collection[i] = hid[i] ? Child(hid[i], 0) : NULL;
    if (collection[i]) {
        Pnp(collection[i], IRP_MN_START_DEVICE);
        WdmOpenFile(collection[i]);
    }
}

int main(int argc, char **argv)
{
    PDEVICE_OBJECT device = MakeDevice(report, sizeof report, 10), pad = Add(WdmLoadByName("winexinput"), device);
    PDRIVER_OBJECT winehid = WdmLoadByName("winehid");
    for (int i = 0; i < 2 && pad; i++)
        start_child(winehid, pad, i);
    for (BYTE n = 0; n < 3 && collection[0] && collection[1]; n++) {
        Request *read[2];
        for (int i = 0; i < 2; i++) {
            read[i] = Prepare(collection[i], IRP_MJ_READ, 0, NULL, 0, 64);
            IoCallDriver(collection[i], read[i]->irp);
        }
        Input((BYTE[9]){ 5 + n }, 9);
        Wait(read[0], 500);
        Wait(read[1], 500);
    }
    for (int i = 0; i < 2 && Does(argc, argv, "disable"); i++) {
        Pnp(collection[i], IRP_MN_REMOVE_DEVICE);
        Pnp(hid[i], IRP_MN_REMOVE_DEVICE);
    }
    if (Does(argc, argv, "disable"))
        Pnp(pad, IRP_MN_REMOVE_DEVICE);
    return WdmFinish();
}
