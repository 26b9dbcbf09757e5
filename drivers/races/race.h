/* race.h: what the drivers of this folder repeat. Each has one fault, which shows only where its threads meet in one way;
   with -DRIGHT it has none. The first comment says how many preemptions or early timers that needs at least, and why. */
#ifndef RACES_RACE_H
#define RACES_RACE_H

#include "../stacks/common.h"

enum { ROUNDS = 2 };

/* The one device of a driver that has no stack, with its extension of zeros. */
static inline PDEVICE_OBJECT MakeDevice(PDRIVER_OBJECT DriverObject, ULONG ExtensionSize, PDRIVER_DISPATCH Read)
{
    PDEVICE_OBJECT device = NULL;
    DriverObject->MajorFunction[IRP_MJ_READ] = Read;
    IoCreateDevice(DriverObject, ExtensionSize, NULL, FILE_DEVICE_UNKNOWN, 0, FALSE, &device);
    return device;
}

/* For a race in which a read looks at what another thread changes, waits until it is told, and acts by what it saw. */
static KEVENT changed;

static inline VOID TellOfChange(VOID)
{
    KeSetEvent(&changed, IO_NO_INCREMENT, FALSE);
    Pause(1);
}

static inline VOID AwaitChange(VOID)
{
    KeWaitForSingleObject(&changed, Executive, KernelMode, FALSE, NULL);
    KeClearEvent(&changed);
}

static void *send_read(void *device)
{
    WdmSend(device, IRP_MJ_READ, 0, 4);
    return NULL;
}

static void *do_nothing(void *context) { return context; }

/* Usually the change comes first. The first thread is there so that it isn't the only order that needs no choice. */
static inline int ReadWhile(void *(*change)(void *), PDEVICE_OBJECT Device)
{
    pthread_t one, two, three;
    KeInitializeEvent(&changed, NotificationEvent, FALSE);
    pthread_create(&one, NULL, do_nothing, NULL);
    pthread_create(&two, NULL, change, Device);
    pthread_create(&three, NULL, send_read, Device);
    pthread_join(one, NULL);
    pthread_join(two, NULL);
    pthread_join(three, NULL);
    return WdmFinish();
}

#endif
