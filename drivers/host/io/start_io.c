/*
 * start_io.c: device queues, and IoStartPacket and IoStartNextPacket with them.
 *
 * The driver's StartIo runs at DISPATCH_LEVEL, one packet at a time, on the thread that starts it. In the record the
 * packet is held by its device meanwhile: its dispatch has marked it.
 */
#include "io/own.h"
#include "explore/explore.h"
#include "ke/ke.h"
#include "mm/mm.h"
#include "record/record.h"

static const WDM_SITE nowhere;

VOID KeInitializeDeviceQueue(PKDEVICE_QUEUE Queue)
{
    *Queue = (KDEVICE_QUEUE){ .Type = 20, .Size = sizeof *Queue };
    InitializeListHead(&Queue->DeviceListHead);
    KeInitializeSpinLock(&Queue->Lock);
}

/* Returns FALSE, and makes the queue busy, where it wasn't: then the entry isn't in it. */
static BOOLEAN insert(PKDEVICE_QUEUE queue, PKDEVICE_QUEUE_ENTRY entry, const ULONG *key)
{
    const KIRQL irql = WdmKeAcquireSpinLock(&queue->Lock, nowhere);
    const BOOLEAN was_busy = queue->Busy;
    queue->Busy = TRUE;
    entry->Inserted = was_busy;
    entry->SortKey = key ? *key : 0;
    if (was_busy) {
        PLIST_ENTRY after = &queue->DeviceListHead;
        while (key && after->Blink != &queue->DeviceListHead &&
               CONTAINING_RECORD(after->Blink, KDEVICE_QUEUE_ENTRY, DeviceListEntry)->SortKey > *key)
            after = after->Blink;
        InsertTailList(after, &entry->DeviceListEntry);
    }
    WdmKeReleaseSpinLock(&queue->Lock, irql, nowhere);
    return was_busy;
}

BOOLEAN KeInsertDeviceQueue(PKDEVICE_QUEUE Queue, PKDEVICE_QUEUE_ENTRY Entry) { return insert(Queue, Entry, NULL); }

BOOLEAN KeInsertByKeyDeviceQueue(PKDEVICE_QUEUE Queue, PKDEVICE_QUEUE_ENTRY Entry, ULONG Key)
{
    return insert(Queue, Entry, &Key);
}

static PKDEVICE_QUEUE_ENTRY take(PKDEVICE_QUEUE queue, const ULONG *key)
{
    const KIRQL irql = WdmKeAcquireSpinLock(&queue->Lock, nowhere);
    PLIST_ENTRY at = queue->DeviceListHead.Flink;
    while (key && at != &queue->DeviceListHead &&
           CONTAINING_RECORD(at, KDEVICE_QUEUE_ENTRY, DeviceListEntry)->SortKey < *key)
        at = at->Flink;
    if (at == &queue->DeviceListHead)
        at = at->Flink; /* none with such a key: the first one */
    PKDEVICE_QUEUE_ENTRY found = NULL;
    if (at == &queue->DeviceListHead)
        queue->Busy = FALSE;
    else {
        found = CONTAINING_RECORD(at, KDEVICE_QUEUE_ENTRY, DeviceListEntry);
        RemoveEntryList(at);
        found->Inserted = FALSE;
    }
    WdmKeReleaseSpinLock(&queue->Lock, irql, nowhere);
    return found;
}

PKDEVICE_QUEUE_ENTRY KeRemoveDeviceQueue(PKDEVICE_QUEUE Queue) { return take(Queue, NULL); }
PKDEVICE_QUEUE_ENTRY KeRemoveByKeyDeviceQueue(PKDEVICE_QUEUE Queue, ULONG Key) { return take(Queue, &Key); }

BOOLEAN KeRemoveEntryDeviceQueue(PKDEVICE_QUEUE Queue, PKDEVICE_QUEUE_ENTRY Entry)
{
    const KIRQL irql = WdmKeAcquireSpinLock(&Queue->Lock, nowhere);
    const BOOLEAN was_in = Entry->Inserted;
    if (was_in) {
        RemoveEntryList(&Entry->DeviceListEntry);
        Entry->Inserted = FALSE;
    }
    WdmKeReleaseSpinLock(&Queue->Lock, irql, nowhere);
    return was_in;
}

/* Runs the driver's StartIo in a frame of its own, at DISPATCH_LEVEL. */
static void start_io(PDEVICE_OBJECT device, PIRP irp, WDM_SITE at)
{
    Call c;
    PDRIVER_STARTIO routine = device->DriverObject->DriverStartIo;
    enter_host(&c, "IoStartPacket", at);
    if (!routine) {
        fault("NoStartIo", NULL, "a packet is started, and %s has no StartIo", who(device->HostNumber));
        leave_host();
        return;
    }
    Frame f = { .kind = WORK, .fn = (void *)routine, .device = device->HostNumber, .settled = true,
                .irql = DISPATCH_LEVEL };
    enter_frame(&f);
    let_driver_run();
    routine(device, irp);
    driver_came_back();
    leave_frame();
    tell_waiters(&host_settled);
    leave_host();
}

static void tell_unmarked(PIRP irp, WDM_SITE at)
{
    Call c;
    enter_host(&c, "IoStartPacket", at);
    Packet *p = find(irp);
    Frame *f = dispatching(p);
    if (f && !f->marked) {
        fault("MarkedLate", p, "is started by a dispatch that hasn't marked it: call IoMarkIrpPending before");
        f->marked = true;
        set_pending_bit(p, f->location, true);
    }
    leave_host();
}

VOID WdmIoStartPacket(PDEVICE_OBJECT Device, PIRP Irp, PULONG Key, PDRIVER_CANCEL Cancel, WDM_SITE at)
{
    KIRQL irql = PASSIVE_LEVEL;
    tell_unmarked(Irp, at);
    if (Cancel) {
        WdmIoAcquireCancelSpinLock(&irql, at);
        WdmIoSetCancelRoutine(Irp, Cancel, at);
    }
    const BOOLEAN is_queued = insert(&Device->DeviceQueue, &Irp->Tail.Overlay.DeviceQueueEntry, Key);
    if (!is_queued) {
        Device->CurrentIrp = Irp;
        touch_memory(&Device->CurrentIrp, sizeof Device->CurrentIrp, WRITES);
    }
    if (is_queued && Cancel && Irp->Cancel && WdmIoSetCancelRoutine(Irp, NULL, at)) {
        Irp->CancelIrql = irql;
        Cancel(Device, Irp); /* it was cancelled before: its routine gives the lock back */
        return;
    }
    if (Cancel)
        WdmIoReleaseCancelSpinLock(irql, at);
    if (!is_queued)
        start_io(Device, Irp, at);
}

VOID WdmIoStartNextPacket(PDEVICE_OBJECT Device, BOOLEAN Cancelable, PULONG Key, WDM_SITE at)
{
    KIRQL irql;
    if (Cancelable)
        WdmIoAcquireCancelSpinLock(&irql, at);
    Device->CurrentIrp = NULL;
    touch_memory(&Device->CurrentIrp, sizeof Device->CurrentIrp, WRITES);
    PKDEVICE_QUEUE_ENTRY entry = take(&Device->DeviceQueue, Key);
    PIRP irp = entry ? CONTAINING_RECORD(entry, IRP, Tail.Overlay.DeviceQueueEntry) : NULL;
    Device->CurrentIrp = irp;
    touch_memory(&Device->CurrentIrp, sizeof Device->CurrentIrp, WRITES);
    if (Cancelable)
        WdmIoReleaseCancelSpinLock(irql, at);
    if (irp)
        start_io(Device, irp, at);
}
