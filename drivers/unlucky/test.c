/* test.c DRIVER..: the drivers of these names on each other, over a bottom that completes reads and writes later; few
   requests, so that there are few runs. Reads are on their way while a write comes, and are cancelled then. */
#include <wdm.h>
#include "wdm_test.h"

typedef struct { PIRP Irp; KEVENT Done; IO_STATUS_BLOCK Iosb; } READ;

static void start(READ *read, PDEVICE_OBJECT top)
{
    KeInitializeEvent(&read->Done, NotificationEvent, FALSE);
    read->Irp = WdmBuildIrp(top, IRP_MJ_READ, 0, 16, &read->Iosb, &read->Done);
    IoCallDriver(top, read->Irp);
}

static void end(READ *read)
{
    WdmCancelRequest(read->Irp);
    KeWaitForSingleObject(&read->Done, Executive, KernelMode, FALSE, NULL);
}

static void use(PDEVICE_OBJECT top)
{
    READ first, second;
    WdmSend(top, IRP_MJ_CREATE, 0, 0);
    start(&first, top);
    start(&second, top);
    WdmSend(top, IRP_MJ_WRITE, 0, 16);
    end(&second);
    end(&first);
    WdmSend(top, IRP_MJ_FLUSH_BUFFERS, 0, 0);
    WdmControl(top, 0x222440, 16);
    WdmSend(top, IRP_MJ_CLEANUP, 0, 0);
    WdmSend(top, IRP_MJ_CLOSE, 0, 0);
}

int main(int argc, char **argv)
{
    PDEVICE_OBJECT bottom = WdmCreateBottom(TRUE);
    for (int i = 1; i < argc; i++)
        WdmAddDevice(WdmLoadByName(argv[i]), bottom);
    if (IoGetAttachedDevice(bottom) != bottom) { /* else there was no memory */
        WdmPlugIn(bottom);
        use(IoGetAttachedDevice(bottom));
        WdmRemove(bottom);
    }
    IoDeleteDevice(bottom);
    WdmExpectEntries(20);
    return WdmFinish();
}
