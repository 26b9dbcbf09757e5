/* test.c: reads and writes at a client, whose packets the transport sends, at once and later. */
#include "../common.h"

int main(void)
{
    PDRIVER_OBJECT transport = WdmLoadByName("transport"), client = WdmLoadByName("client");
    PDEVICE_OBJECT bottom = WdmCreateBottom(TRUE);
    if (!client || !NT_SUCCESS(WdmAddDevice(transport, bottom))) { /* there is no memory */
        IoDeleteDevice(bottom);
        return WdmFinish();
    }
    WdmPlugIn(bottom);
    for (ULONG i = 0; i < WdmRounds(3); i++)
        for (ULONG length = 8; length < 12; length++) {
            WDM_CHECK(WdmSend(client->DeviceObject, IRP_MJ_READ, 0, length) == STATUS_SUCCESS);
            WDM_CHECK(WdmSend(client->DeviceObject, IRP_MJ_WRITE, 0, length) == STATUS_SUCCESS);
        }
    WdmUnloadDriver(client);
    WdmUnplug(bottom, FALSE);
    IoDeleteDevice(bottom);
    WdmExpectEntries(100);
    return WdmFinish();
}
