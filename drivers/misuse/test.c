/* test.c CASE: runs a case of misuse.c, or one of the test's own. `names` prints the names of all but Stuck, which only a
   run by a schedule comes out of. */
#include "misuse.h"
#include "wdm_test.h"
#include <pthread.h>
#include <stdio.h>

DRIVER_INITIALIZE DriverEntry;
static pthread_mutex_t never_unlocked = PTHREAD_MUTEX_INITIALIZER;

static PDEVICE_OBJECT make_stack(void)
{
    PDRIVER_OBJECT driver = WdmLoadDriver("misuse", DriverEntry);
    PDEVICE_OBJECT bottom = WdmCreateBottom(FALSE);
    WdmAddDevice(driver, bottom);
    return IoGetAttachedDevice(bottom);
}

/* Skips a location of a packet in which the test has none. */
static void skip_as_originator(PDEVICE_OBJECT top)
{
    PIRP irp = WdmBuildIrp(top, IRP_MJ_FLUSH_BUFFERS, 0, 0, NULL, NULL);
    IoSkipCurrentIrpStackLocation(irp); /* told: NoLocation */
    IoFreeIrp(irp);
}

static void *wait_for_ever(void *context)
{
    pthread_mutex_lock(&never_unlocked);
    return context;
}

static void stand_still(void)
{
    pthread_t thread;
    pthread_mutex_lock(&never_unlocked);
    pthread_create(&thread, NULL, wait_for_ever, NULL);
    pthread_join(thread, NULL);
}

static void run_case(PDEVICE_OBJECT top, ULONG n)
{
    IO_STATUS_BLOCK iosb;
    KEVENT done;
    MisuseChoose(n);
    KeInitializeEvent(&done, NotificationEvent, FALSE);
    PIRP read = WdmBuildIrp(top, IRP_MJ_READ, 0, 8, &iosb, &done);
    IoCallDriver(top, read);
    WdmCancelRequest(read);
    WdmSend(top, IRP_MJ_WRITE, 0, 8);
    KeWaitForSingleObject(&done, Executive, KernelMode, FALSE, NULL);
}

int main(int argc, char **argv)
{
    const char *const wanted = argc > 1 ? argv[1] : "names", *name;
    const BOOLEAN tells_names = strcmp(wanted, "names") == 0;
    PDEVICE_OBJECT top = tells_names ? NULL : make_stack();
    for (ULONG n = 0; (name = MisuseName(n)); n++)
        if (tells_names)
            puts(name);
        else if (strcmp(wanted, name) == 0)
            run_case(top, n);
    if (tells_names)
        puts("NoLocation\nCheck");
    else if (strcmp(wanted, "Check") == 0)
        WDM_CHECK(top == NULL); /* told: Check */
    else if (strcmp(wanted, "NoLocation") == 0)
        skip_as_originator(top);
    else if (strcmp(wanted, "Stuck") == 0)
        stand_still();
    return tells_names ? 0 : WdmFinish();
}
