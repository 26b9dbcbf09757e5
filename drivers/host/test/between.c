/*
 * between.c: forced pending. With WDM_PEND=all, a device of the host's stands between any two devices of drivers; with
 * WDM_PEND=N only below the N-th one that a driver attaches. What passes through it is marked pending, and completed
 * later, from another thread. It is written as a driver.
 */
#include <wdm.h>
#include "test/own.h"
#include "record/record.h"

enum { MOMENT = 5, MOST_MOMENTS = 200 }; /* milliseconds; and how many of them */
typedef struct { PDEVICE_OBJECT Self, Lower; } BETWEEN, *PBETWEEN;
typedef struct { int seat; uint64_t called, caller; } Sender; /* its thread, and the frames of Pend and of who called that */
typedef struct { PIO_WORKITEM Item; PIRP Irp; BOOLEAN IsOwn; Sender Sender; } LATE, *PLATE;

static _Atomic bool keeps_own;

/* What drivers have allocated is kept from now on until it is cancelled, but not for long; or it isn't any more. */
void keep_own_packets(BOOLEAN keeps) { keeps_own = keeps; }

static Sender this_sender(void)
{
    const Frame *f = self.frames;
    return (Sender){ self.seat, f ? f->number : 0, f && f->up ? f->up->number : 0 };
}

static bool is_behind(const Sender *s)
{
    pthread_mutex_lock(&host_lock);
    const bool is = has_gone_on(s->seat, s->called, s->caller);
    pthread_mutex_unlock(&host_lock);
    return is;
}

/* Once the driver above has gone on behind IoCallDriver: to where it waits, or to its return. One that does neither isn't
   waited for. */
static VOID CompleteLate(PDEVICE_OBJECT DeviceObject, PVOID Context)
{
    PLATE late = Context;
    LARGE_INTEGER moment = { .QuadPart = -10 * 1000 * MOMENT };
    UNREFERENCED_PARAMETER(DeviceObject);
    KeDelayExecutionThread(KernelMode, FALSE, &moment);
    for (int i = 0; !is_behind(&late->Sender) && i < MOST_MOMENTS; i++)
        KeDelayExecutionThread(KernelMode, FALSE, &moment);
    for (int i = 0; late->IsOwn && keeps_own && !late->Irp->Cancel && i < MOST_MOMENTS; i++)
        KeDelayExecutionThread(KernelMode, FALSE, &moment);
    IoFreeWorkItem(late->Item);
    IoCompleteRequest(late->Irp, IO_NO_INCREMENT);
    free(late);
}

static NTSTATUS LowerIsDone(PDEVICE_OBJECT DeviceObject, PIRP Irp, PVOID Context)
{
    PLATE late = Context;
    UNREFERENCED_PARAMETER(DeviceObject);
    late->Irp = Irp;
    IoQueueWorkItem(late->Item, CompleteLate, DelayedWorkQueue, late);
    return STATUS_MORE_PROCESSING_REQUIRED;
}

static NTSTATUS Pend(PDEVICE_OBJECT DeviceObject, PIRP Irp)
{
    PBETWEEN ext = DeviceObject->DeviceExtension;
    PLATE late = malloc(sizeof *late);
    if (late && !(late->Item = IoAllocateWorkItem(DeviceObject))) {
        free(late);
        late = NULL;
    }
    if (!late) {
        IoSkipCurrentIrpStackLocation(Irp);
        return IoCallDriver(ext->Lower, Irp);
    }
    late->IsOwn = is_drivers_own(Irp);
    late->Sender = this_sender();
    IoMarkIrpPending(Irp);
    IoCopyCurrentIrpStackLocationToNext(Irp);
    IoSetCompletionRoutine(Irp, LowerIsDone, late, TRUE, TRUE, TRUE);
    IoCallDriver(ext->Lower, Irp);
    return STATUS_PENDING;
}

static VOID Leave(PBETWEEN Ext)
{
    PDEVICE_OBJECT lower = Ext->Lower;
    Ext->Lower = NULL;
    IoDetachDevice(lower);
    IoDeleteDevice(Ext->Self);
}

static NTSTATUS Pnp(PDEVICE_OBJECT DeviceObject, PIRP Irp)
{
    PBETWEEN ext = DeviceObject->DeviceExtension;
    if (IoGetCurrentIrpStackLocation(Irp)->MinorFunction != IRP_MN_REMOVE_DEVICE)
        return Pend(DeviceObject, Irp);
    IoSkipCurrentIrpStackLocation(Irp);
    const NTSTATUS status = IoCallDriver(ext->Lower, Irp);
    Leave(ext);
    return status;
}

static NTSTATUS BetweenEntry(PDRIVER_OBJECT DriverObject, PUNICODE_STRING RegistryPath)
{
    UNREFERENCED_PARAMETER(RegistryPath);
    for (int i = 0; i <= IRP_MJ_MAXIMUM_FUNCTION; i++)
        DriverObject->MajorFunction[i] = Pend;
    DriverObject->MajorFunction[IRP_MJ_PNP] = Pnp;
    return STATUS_SUCCESS;
}

static PDRIVER_OBJECT driver;
static int n_attached;

bool is_between(PDEVICE_OBJECT device) { return driver && device->DriverObject == driver; }

/* How many devices drivers attached so far. */
int count_attached(void) { return n_attached; }

/* Whether this call, by a driver, gets a device of the host's between it and what is below. */
static bool is_chosen(PDEVICE_OBJECT target, WDM_SITE at)
{
    const char *wish = options.pend;
    pthread_mutex_lock(&host_lock);
    const bool is_drivers = !is_hosts_file(at.file) && devices[target->HostNumber].live;
    const int n = n_attached += is_drivers;
    pthread_mutex_unlock(&host_lock);
    return wish && is_drivers && (!strcmp(wish, "all") || atoi(wish) == n);
}

/* Before a device is attached. */
void put_between(PDEVICE_OBJECT target, WDM_SITE at)
{
    PDEVICE_OBJECT device;
    if (!is_chosen(target, at))
        return;
    if (!driver)
        driver = WdmLoadDriver("between", BetweenEntry);
    if (!NT_SUCCESS(IoCreateDevice(driver, sizeof(BETWEEN), NULL, target->DeviceType, target->Characteristics, FALSE,
                                   &device)))
        return;
    PBETWEEN ext = device->DeviceExtension;
    ext->Self = device;
    ext->Lower = IoAttachDeviceToDeviceStack(device, target);
    device->Flags |= ext->Lower->Flags & (DO_BUFFERED_IO | DO_DIRECT_IO | DO_POWER_PAGABLE);
    device->Flags &= ~(ULONG)DO_DEVICE_INITIALIZING;
}

/* After a device was detached from this one, which goes if no removal has come this way. */
void take_from_between(PDEVICE_OBJECT device)
{
    if (is_between(device) && ((PBETWEEN)device->DeviceExtension)->Lower)
        Leave(device->DeviceExtension);
}
