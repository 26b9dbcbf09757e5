/*
 * lesson_test.h: what the tests of lessons have in common: requests, and a device below that answers when it is told.
 *
 * DRIVER is the name of the student's file, which `check` hands over.
 */
#ifndef LESSON_TEST_H
#define LESSON_TEST_H

#include <pthread.h>
#include <wdm.h>
#include <wdm_test.h>

/* A request that the I/O manager frees at its end. */
typedef struct { PIRP Irp; PDEVICE_OBJECT Top; IO_STATUS_BLOCK Iosb; KEVENT Done; volatile LONG HasReturned; } REQUEST;

static inline PIRP build(REQUEST *r, PDEVICE_OBJECT top, UCHAR major, ULONG length)
{
    KeInitializeEvent(&r->Done, NotificationEvent, FALSE);
    r->Top = top;
    r->HasReturned = FALSE;
    r->Irp = WdmBuildIrp(top, major, 0, length, &r->Iosb, &r->Done);
    return r->Irp;
}

static inline void send(REQUEST *r, PDEVICE_OBJECT top, UCHAR major, ULONG length)
{
    build(r, top, major, length);
    IoCallDriver(top, r->Irp);
}

static inline BOOLEAN is_done(REQUEST *r) { return KeReadStateEvent(&r->Done) != 0; }
static inline BOOLEAN has_status(REQUEST *r, NTSTATUS status) { return is_done(r) && r->Iosb.Status == status; }
static inline void wait_for(REQUEST *r) { KeWaitForSingleObject(&r->Done, Executive, KernelMode, FALSE, NULL); }

/* For threads. */
static inline void *send_it(void *request)
{
    REQUEST *r = request;
    IoCallDriver(r->Top, r->Irp);
    return NULL;
}

static inline void *cancel_it(void *request)
{
    WdmCancelRequest(((REQUEST *)request)->Irp);
    return NULL;
}

static inline void *write_once(void *device)
{
    WdmSend(device, IRP_MJ_WRITE, 0, 4);
    return NULL;
}

/* Two threads, each with one thing to do. */
static inline void meet(void *(*one)(void *), void *its, void *(*other)(void *), void *others)
{
    pthread_t t;
    pthread_create(&t, NULL, one, its);
    other(others);
    pthread_join(t, NULL);
}

/* Unloads a driver, with the only device that DriverEntry may have created: what it has left is told then. */
static inline VOID delete_its_device(PDRIVER_OBJECT driver)
{
    if (driver->DeviceObject)
        IoDeleteDevice(driver->DeviceObject);
}

static inline void unload(PDRIVER_OBJECT driver)
{
    if (!driver->DriverUnload)
        driver->DriverUnload = delete_its_device;
    WdmUnloadDriver(driver);
}

/* The device below. It holds each request of the kind (a major, or a minor of PNP) that `holds` tells, until `answer`; and it
   answers others at once: reads with `Information`, all with `Status`. */
static struct {
    KSPIN_LOCK Lock;
    NTSTATUS Status;
    ULONG_PTR Information;
    BOOLEAN HoldsReads, HoldsStarts;
    PIRP Held[8];
    int NHeld, NReads;
    KEVENT Holds, GotRemove;
} below;

static inline NTSTATUS end_below(PIRP irp, NTSTATUS status, ULONG_PTR information)
{
    irp->IoStatus.Status = status;
    irp->IoStatus.Information = information;
    IoCompleteRequest(irp, IO_NO_INCREMENT);
    return status;
}

static inline NTSTATUS hold_below(PIRP irp)
{
    KIRQL irql;
    IoMarkIrpPending(irp);
    KeAcquireSpinLock(&below.Lock, &irql);
    below.Held[below.NHeld++] = irp;
    KeReleaseSpinLock(&below.Lock, irql);
    KeSetEvent(&below.Holds, IO_NO_INCREMENT, FALSE);
    return STATUS_PENDING;
}

/* Ends the request that is held longest. Returns FALSE where none is. */
static inline BOOLEAN answer(NTSTATUS status, ULONG_PTR information)
{
    PIRP irp = NULL;
    KIRQL irql;
    KeAcquireSpinLock(&below.Lock, &irql);
    if (below.NHeld) {
        irp = below.Held[0];
        memmove(below.Held, below.Held + 1, (size_t)--below.NHeld * sizeof irp);
    }
    KeReleaseSpinLock(&below.Lock, irql);
    if (irp)
        end_below(irp, status, information);
    return irp != NULL;
}

static inline NTSTATUS below_read(PDEVICE_OBJECT device, PIRP irp)
{
    UNREFERENCED_PARAMETER(device);
    below.NReads++;
    return below.HoldsReads ? hold_below(irp) : end_below(irp, below.Status, below.Information);
}

static inline NTSTATUS below_pnp(PDEVICE_OBJECT device, PIRP irp)
{
    const UCHAR minor = IoGetCurrentIrpStackLocation(irp)->MinorFunction;
    UNREFERENCED_PARAMETER(device);
    if (minor == IRP_MN_START_DEVICE)
        return below.HoldsStarts ? hold_below(irp) : end_below(irp, below.Status, 0);
    if (minor == IRP_MN_REMOVE_DEVICE)
        KeSetEvent(&below.GotRemove, IO_NO_INCREMENT, FALSE);
    return end_below(irp, STATUS_SUCCESS, 0);
}

static inline NTSTATUS below_other(PDEVICE_OBJECT device, PIRP irp)
{
    UNREFERENCED_PARAMETER(device);
    return end_below(irp, STATUS_SUCCESS, 0);
}

static inline NTSTATUS below_entry(PDRIVER_OBJECT driver, PUNICODE_STRING path)
{
    PDEVICE_OBJECT device;
    UNREFERENCED_PARAMETER(path);
    for (int i = 0; i <= IRP_MJ_MAXIMUM_FUNCTION; i++)
        driver->MajorFunction[i] = below_other;
    driver->MajorFunction[IRP_MJ_READ] = below_read;
    driver->MajorFunction[IRP_MJ_PNP] = below_pnp;
    return IoCreateDevice(driver, 0, NULL, FILE_DEVICE_UNKNOWN, 0, FALSE, &device);
}

/* A device of this test's, and the student's driver on it. Returns the student's device. */
static inline PDEVICE_OBJECT stack(PDEVICE_OBJECT *bottom)
{
    KeInitializeSpinLock(&below.Lock);
    KeInitializeEvent(&below.Holds, SynchronizationEvent, FALSE);
    KeInitializeEvent(&below.GotRemove, NotificationEvent, FALSE);
    *bottom = WdmLoadDriver("below", below_entry)->DeviceObject;
    (*bottom)->Flags &= ~(ULONG)DO_DEVICE_INITIALIZING;
    WdmAddDevice(WdmLoadByName(DRIVER), *bottom);
    return IoGetAttachedDevice(*bottom);
}

static inline NTSTATUS pnp(PDEVICE_OBJECT top, UCHAR minor) { return WdmSend(top, IRP_MJ_PNP, minor, 0); }

static inline void *send_and_tell(void *request)
{
    send_it(request);
    InterlockedExchange(&((REQUEST *)request)->HasReturned, TRUE);
    KeSetEvent(&below.Holds, IO_NO_INCREMENT, FALSE);
    return NULL;
}

/* Sends a request on a thread of its own, since a dispatch may wait. Returns when the device below holds it, or the
   call has returned. */
static inline pthread_t send_until_held(REQUEST *r, PDEVICE_OBJECT top, UCHAR major, UCHAR minor)
{
    pthread_t sender;
    const int before = below.NHeld;
    build(r, top, major, 8);
    IoGetNextIrpStackLocation(r->Irp)->MinorFunction = minor;
    pthread_create(&sender, NULL, send_and_tell, r);
    do
        KeWaitForSingleObject(&below.Holds, Executive, KernelMode, FALSE, NULL);
    while (below.NHeld == before && !r->HasReturned);
    return sender;
}

static inline void take_away(PDEVICE_OBJECT top, PDEVICE_OBJECT bottom)
{
    pnp(top, IRP_MN_REMOVE_DEVICE);
    IoDeleteDevice(bottom);
}

#endif
