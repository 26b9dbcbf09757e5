/* tracing.c: stops, event logs, WMI and event tracing. What is taken goes nowhere, and that is told once. */
#include "explore/explore.h"
#include "ke/ke.h"
#include "record/record.h"

static const WDM_SITE nowhere;

static void tell_nowhere(const char *what)
{
    pthread_mutex_lock(&host_lock);
    note("not there", "%s: what it is given goes nowhere", what);
    pthread_mutex_unlock(&host_lock);
}

VOID WdmKeBugCheck(ULONG Code, ULONG_PTR A, ULONG_PTR B, ULONG_PTR C, ULONG_PTR D, WDM_SITE at)
{
    Call c;
    enter_host(&c, "KeBugCheckEx", at);
    fault("BugCheck", NULL, "the driver stops the machine with %#x (%#lx, %#lx, %#lx, %#lx)", Code, (unsigned long)A,
          (unsigned long)B, (unsigned long)C, (unsigned long)D);
    give_up("a driver called KeBugCheckEx");
}

/* An entry for the event log lies behind the object that it is of. */
typedef struct { PVOID object; char entry[ERROR_LOG_MAXIMUM_SIZE + 16]; } LogEntry;

PVOID IoAllocateErrorLogEntry(PVOID Object, UCHAR Size)
{
    LogEntry *made = Size <= ERROR_LOG_MAXIMUM_SIZE ? calloc(1, sizeof *made) : NULL;
    if (!made)
        return NULL;
    made->object = Object;
    return made->entry;
}

VOID IoFreeErrorLogEntry(PVOID Entry) { free(CONTAINING_RECORD(Entry, LogEntry, entry)); }

VOID IoWriteErrorLogEntry(PVOID Entry)
{
    const IO_ERROR_LOG_PACKET *packet = Entry;
    fprintf(stderr, "host: the event log gets %#x, final status %#x\n", (unsigned)packet->ErrorCode,
            (unsigned)packet->FinalStatus);
    IoFreeErrorLogEntry(Entry);
}

NTSTATUS IoWMIRegistrationControl(PDEVICE_OBJECT Device, ULONG Action)
{
    (void)Device, (void)Action;
    tell_nowhere("IoWMIRegistrationControl");
    return STATUS_SUCCESS;
}

NTSTATUS IoWMIWriteEvent(PVOID Event)
{
    (void)Event;
    tell_nowhere("IoWMIWriteEvent");
    return STATUS_SUCCESS;
}

/* Every request is passed on by the driver: nobody here knows its blocks of data. */
NTSTATUS WmiSystemControl(PWMILIB_CONTEXT Context, PDEVICE_OBJECT Device, PIRP Irp, PSYSCTL_IRP_DISPOSITION Told)
{
    (void)Context, (void)Device, (void)Irp;
    tell_nowhere("WmiSystemControl");
    *Told = IrpForward;
    return STATUS_SUCCESS;
}

NTSTATUS WdmWmiCompleteRequest(PDEVICE_OBJECT Device, PIRP Irp, NTSTATUS Status, ULONG Used, WDM_SITE at)
{
    (void)Device;
    Irp->IoStatus.Status = Status;
    Irp->IoStatus.Information = Used;
    WdmIoCompleteRequest(Irp, at);
    return Status;
}

NTSTATUS EtwRegister(const GUID *Provider, PETWENABLECALLBACK Enabled, PVOID Context, PREGHANDLE Handle)
{
    (void)Provider, (void)Enabled, (void)Context;
    tell_nowhere("EtwRegister");
    *Handle = 1;
    return STATUS_SUCCESS;
}

NTSTATUS EtwUnregister(REGHANDLE Handle) { return Handle ? STATUS_SUCCESS : STATUS_INVALID_HANDLE; }

NTSTATUS EtwWrite(REGHANDLE Handle, PCEVENT_DESCRIPTOR Event, const GUID *Activity, ULONG Count,
                  PEVENT_DATA_DESCRIPTOR Data)
{
    (void)Handle, (void)Event, (void)Activity, (void)Count, (void)Data;
    return STATUS_SUCCESS;
}

BOOLEAN EtwEventEnabled(REGHANDLE Handle, PCEVENT_DESCRIPTOR Event) { return (void)Handle, (void)Event, FALSE; }

/* Extensions of drivers, and what they ask for after DriverEntry. */
static struct { PDRIVER_OBJECT driver; PVOID id, data; } extensions[64];
static struct { PDRIVER_OBJECT driver; PDRIVER_REINITIALIZE routine; PVOID context; } later[64];
static int n_extensions, n_later;

static PVOID find_extension(PDRIVER_OBJECT driver, PVOID id)
{
    for (int i = 0; i < n_extensions; i++)
        if (extensions[i].driver == driver && extensions[i].id == id)
            return extensions[i].data;
    return NULL;
}

PVOID IoGetDriverObjectExtension(PDRIVER_OBJECT Driver, PVOID Id)
{
    hold_host("IoGetDriverObjectExtension", &extensions, READS);
    PVOID found = find_extension(Driver, Id);
    pthread_mutex_unlock(&host_lock);
    return found;
}

NTSTATUS WdmIoAllocateDriverObjectExtension(PDRIVER_OBJECT Driver, PVOID Id, ULONG Bytes, PVOID *Extension)
{
    Call c;
    enter_host(&c, "IoAllocateDriverObjectExtension", nowhere);
    touch(&extensions, WRITES);
    const bool is_there = find_extension(Driver, Id) != NULL;
    *Extension = is_there || n_extensions == 64 ? NULL : host_memory(Bytes ? Bytes : 1);
    if (*Extension) {
        extensions[n_extensions].driver = Driver;
        extensions[n_extensions].id = Id;
        extensions[n_extensions++].data = *Extension;
    }
    leave_host();
    return *Extension ? STATUS_SUCCESS : is_there ? STATUS_OBJECT_NAME_COLLISION : STATUS_INSUFFICIENT_RESOURCES;
}

VOID IoRegisterDriverReinitialization(PDRIVER_OBJECT Driver, PDRIVER_REINITIALIZE Routine, PVOID Context)
{
    pthread_mutex_lock(&host_lock);
    if (n_later < 64) {
        later[n_later].driver = Driver;
        later[n_later].routine = Routine;
        later[n_later++].context = Context;
    }
    pthread_mutex_unlock(&host_lock);
}

/* DriverEntry has returned: what it asked to be called later. */
void reinitialize(PDRIVER_OBJECT driver)
{
    for (int i = 0; i < n_later; i++)
        if (later[i].driver == driver) {
            later[i].driver = NULL;
            later[i].routine(driver, later[i].context, ++driver->DriverExtension->Count);
        }
}
