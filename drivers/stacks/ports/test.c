/* test.c: reads at a port whose class driver and minidriver are two files; the last one is on its way when it goes. */
#include "../common.h"

int main(void)
{
    PDRIVER_OBJECT class = WdmLoadByName("portclass"), mini = WdmLoadByName("portmini");
    PDEVICE_OBJECT bottom = WdmCreateBottom(FALSE);
    REQUEST first, second;
    if (!class || !mini || !NT_SUCCESS(WdmAddDevice(mini, bottom))) { /* there is no memory */
        IoDeleteDevice(bottom);
        return WdmFinish();
    }
    WdmPlugIn(bottom);
    PDEVICE_OBJECT top = IoGetAttachedDevice(bottom);
    for (ULONG i = 0; i < WdmRounds(4); i++) {
        Start(&first, top, IRP_MJ_READ, 4);
        Start(&second, top, IRP_MJ_READ, 4);
        Finish(&second);
        Finish(&first);
    }
    Start(&first, top, IRP_MJ_READ, 4);
    WdmUnplug(bottom, TRUE);
    Finish(&first);
    IoDeleteDevice(bottom);
    WdmExpectEntries(30);
    return WdmFinish();
}
