/* create.c: see player.h. */
#include "player.h"

PDEVICE_OBJECT PlayCreateDevice(PDRIVER_OBJECT Driver, ULONG ExtensionBytes)
{
    PDEVICE_OBJECT device;
    if (!NT_SUCCESS(IoCreateDevice(Driver, ExtensionBytes, NULL, FILE_DEVICE_UNKNOWN, 0, FALSE, &device)))
        return NULL;
    device->Flags &= ~DO_DEVICE_INITIALIZING;
    return device;
}
