/*
 * test.c NAME|all [ENDING|all [THREADS ROUNDS]]: a shape of the middle driver over a way in which the lower one ends;
 * `all`: all the right ones, one after the other. `names` prints the names, the right ones first.
 */
#include "shapes.h"
#include "wdm_test.h"
#include <pthread.h>
#include <stdio.h>

DRIVER_INITIALIZE lower_DriverEntry, middle_DriverEntry;
static PDEVICE_OBJECT top;
static int shape = -1, ending = -1, rounds = 1, n_right;

static void *sender(void *context)
{
    (void)context;
    for (int i = 0; i < rounds; i++) {
        IO_STATUS_BLOCK iosb;
        KEVENT done;
        KeInitializeEvent(&done, NotificationEvent, FALSE);
        PIRP irp = WdmBuildIrp(top, IRP_MJ_DEVICE_CONTROL, 0, ROOM + ENDINGS, &iosb, &done);
        PIO_STACK_LOCATION next = IoGetNextIrpStackLocation(irp);
        next->Parameters.DeviceIoControl.InputBufferLength = 10;
        next->Parameters.DeviceIoControl.OutputBufferLength = ROOM + (ULONG)(ending < 0 ? i % ENDINGS : ending);
        next->Parameters.DeviceIoControl.IoControlCode = (ULONG)(shape < 0 ? i / ENDINGS % n_right : shape);
        IoCallDriver(top, irp);
        KeWaitForSingleObject(&done, Executive, KernelMode, FALSE, NULL);
    }
    return NULL;
}

static void count(const char *name)
{
    const NAMED_SHAPE *s;
    for (ULONG i = 0; (s = ShapeOf(i)); i++) {
        if (!strcmp(name, s->name))
            shape = (int)i;
        if (s == WrongShapes)
            n_right = (int)i;
        if (!strcmp(name, "names"))
            puts(s->name);
    }
}

int main(int argc, char **argv)
{
    PDEVICE_OBJECT pdo;
    pthread_t t[16];
    count(argc > 1 ? argv[1] : "all");
    if (argc > 1 && !strcmp(argv[1], "names"))
        return 0;
    ending = argc > 2 && strcmp(argv[2], "all") ? atoi(argv[2]) : -1;
    const int threads = argc > 4 ? atoi(argv[3]) : 1;
    rounds = argc > 4 ? atoi(argv[4]) : (shape < 0 ? n_right : 1) * (ending < 0 ? ENDINGS : 1);
    PDRIVER_OBJECT lower = WdmLoadDriver("lower", lower_DriverEntry);
    PDRIVER_OBJECT middle = WdmLoadDriver("middle", middle_DriverEntry);
    if (!NT_SUCCESS(IoCreateDevice(lower, 0, NULL, FILE_DEVICE_UNKNOWN, 0, FALSE, &pdo)) ||
        !NT_SUCCESS(IoCreateDevice(lower, 0, NULL, FILE_DEVICE_UNKNOWN, 0, FALSE, &MiddleElsewhere)))
        return WdmFinish();
    pdo->Flags &= ~(ULONG)DO_DEVICE_INITIALIZING;
    if (!NT_SUCCESS(middle->DriverExtension->AddDevice(middle, pdo)) ||
        !NT_SUCCESS(middle->DriverExtension->AddDevice(middle, pdo)))
        return WdmFinish();
    top = IoGetAttachedDevice(pdo);
    for (int i = 0; i < threads && i < 16; i++)
        pthread_create(&t[i], NULL, sender, NULL);
    for (int i = 0; i < threads && i < 16; i++)
        pthread_join(t[i], NULL);
    return WdmFinish();
}
