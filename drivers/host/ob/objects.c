/* objects.c: references to objects, handles, events by handle. */
#include "ob/own.h"
#include "explore/explore.h"
#include "io/io.h"
#include "ke/ke.h"
#include "record/record.h"
#include "rtl/rtl.h"
#include "rules/rules.h"

struct _OBJECT_TYPE { const char *name; };
static struct _OBJECT_TYPE event_type = { "event" }, file_type = { "file" }, thread_type = { "thread" },
                           process_type = { "process" }, driver_type = { "driver" }, device_type = { "device" };
static POBJECT_TYPE events = &event_type, files = &file_type, threads = &thread_type, processes = &process_type,
                    driver_objects = &driver_type, device_objects = &device_type;
POBJECT_TYPE *ExEventObjectType = &events, *IoFileObjectType = &files, *PsThreadType = &threads,
             *PsProcessType = &processes, *IoDriverObjectType = &driver_objects, *IoDeviceObjectType = &device_objects;

enum { MAX_REFERENCES = 1024, MAX_HANDLES = 1024 };
static struct { PVOID object; LONG count; WDM_SITE taken; } references[MAX_REFERENCES];
static int n_references;
static struct { POBJECT_TYPE type; PVOID object; } handles[MAX_HANDLES];

/* Names an object for a message: a device by its driver. Under G. */
static const char *object_name(PVOID object)
{
    for (int d = 0; d < n_devices; d++)
        if (devices[d].raw == object)
            return who(d);
    return "an object";
}

/* Counts a reference, or takes one off. Returns how many there are then, or -1 where there was none. Under G. */
static LONG count_reference(PVOID object, LONG more, WDM_SITE at)
{
    int i = 0;
    touch(object, WRITES);
    while (i < n_references && references[i].object != object)
        i++;
    if (i == n_references) {
        if (more < 0 || n_references == MAX_REFERENCES)
            return -1;
        references[n_references].count = 0;
        references[n_references++].object = object;
    }
    if (references[i].count + more < 0)
        return -1;
    if (more > 0)
        references[i].taken = at;
    references[i].count += more;
    return references[i].count;
}

/* Whether a reference to the object is left. Under G. */
bool is_referenced(PVOID object)
{
    for (int i = 0; i < n_references; i++)
        if (references[i].object == object)
            return references[i].count > 0;
    return false;
}

/* Under G. */
WDM_SITE reference_of(const void *object)
{
    for (int i = 0; object && i < n_references; i++)
        if (references[i].object == object && references[i].count > 0)
            return references[i].taken;
    return (WDM_SITE){ 0 };
}

LONG_PTR WdmObReferenceObject(PVOID Object, WDM_SITE at)
{
    Call c;
    enter_host(&c, "ObReferenceObject", at);
    const LONG count = count_reference(Object, 1, at);
    leave_host();
    return count + 1;
}

LONG_PTR WdmObDereferenceObject(PVOID Object, WDM_SITE at)
{
    Call c;
    enter_host(&c, "ObDereferenceObject", at);
    const LONG count = count_reference(Object, -1, at);
    if (count < 0)
        fault("NotReferenced", NULL, "%s is dereferenced, and no reference to it is left: it may be gone already",
              object_name(Object));
    for (int d = 0; !count && d < n_devices; d++)
        if (devices[d].raw == Object)
            may_go(d);
    leave_host();
    if (!count)
        tell_files_dereferenced(Object);
    return count + 1;
}

PDEVICE_OBJECT WdmIoGetAttachedDeviceReference(PDEVICE_OBJECT Device, WDM_SITE at)
{
    PDEVICE_OBJECT top = IoGetAttachedDevice(Device);
    WdmObReferenceObject(top, at);
    return top;
}

PDEVICE_OBJECT WdmIoGetLowerDeviceObject(PDEVICE_OBJECT Device, WDM_SITE at)
{
    hold_host("IoGetLowerDeviceObject", &devices, READS);
    const int lower = devices[Device->HostNumber].lower;
    pthread_mutex_unlock(&host_lock);
    if (lower < 0)
        return NULL;
    WdmObReferenceObject(devices[lower].raw, at);
    return devices[lower].raw;
}

/* At the end: references to devices that were never given back. Under G. */
void tell_references(void)
{
    for (int i = 0; i < n_references; i++)
        for (int d = 0; references[i].count > 0 && d < n_devices; d++)
            if (devices[d].raw == references[i].object)
                note("at the end", "a reference to %s, taken at %s, was never given back", who(d),
                     place(references[i].taken));
}

/* Handles. */
HANDLE new_handle(POBJECT_TYPE type, PVOID object)
{
    int i = 0;
    hold_host("a handle is made", &handles, SYNCS);
    while (i < MAX_HANDLES && handles[i].object)
        i++;
    if (i < MAX_HANDLES) {
        handles[i].type = type;
        handles[i].object = object;
    }
    pthread_mutex_unlock(&host_lock);
    return i < MAX_HANDLES ? (HANDLE)(ULONG_PTR)(4 * (i + 1)) : NULL;
}

/* The type of an object, by its handles; or NULL. */
POBJECT_TYPE type_by_handles(const void *object)
{
    POBJECT_TYPE type = NULL;
    hold_host("a handle is looked up", &handles, ACQUIRES);
    for (int i = 0; i < MAX_HANDLES && !type; i++)
        type = handles[i].object == object ? handles[i].type : NULL;
    pthread_mutex_unlock(&host_lock);
    return type;
}

/* Under G. */
static bool has_handle(const void *object)
{
    for (int i = 0; i < MAX_HANDLES; i++)
        if (handles[i].object == object)
            return true;
    return false;
}

PVOID handle_object(HANDLE handle, POBJECT_TYPE type)
{
    const ULONG_PTR i = (ULONG_PTR)handle / 4 - 1;
    hold_host("a handle is looked up", &handles, ACQUIRES);
    const bool is_good = i < MAX_HANDLES && (!type || !handles[i].type || handles[i].type == type);
    PVOID object = is_good ? handles[i].object : NULL;
    pthread_mutex_unlock(&host_lock);
    return object;
}

void forget_handle(HANDLE handle)
{
    const ULONG_PTR i = (ULONG_PTR)handle / 4 - 1;
    hold_host("a handle is closed", &handles, SYNCS);
    if (i < MAX_HANDLES)
        handles[i].object = NULL;
    pthread_mutex_unlock(&host_lock);
}

NTSTATUS WdmZwClose(HANDLE Handle, WDM_SITE at)
{
    Call c;
    enter_host(&c, "ZwClose", at);
    touch(&handles, SYNCS);
    const ULONG_PTR i = (ULONG_PTR)Handle / 4 - 1;
    const bool is_open = i < MAX_HANDLES && handles[i].object;
    PVOID file = is_open && handles[i].type == files ? handles[i].object : NULL;
    take_handle_back(Handle);
    if (is_open) {
        const PVOID object = handles[i].object;
        handles[i].object = NULL;
        if (has_handle(object))
            file = NULL; /* closed with the last one */
        else
            drop_directory(object);
    } else
        fault("NotOpen", NULL, "a handle is closed that isn't open");
    leave_host();
    if (file)
        WdmClose(file, at);
    return is_open ? STATUS_SUCCESS : STATUS_INVALID_HANDLE;
}

NTSTATUS WdmObReferenceObjectByHandle(HANDLE Handle, POBJECT_TYPE Type, PVOID *Object, WDM_SITE at)
{
    PVOID object = handle_object(Handle, Type);
    NTSTATUS status = object ? STATUS_SUCCESS : handle_object(Handle, NULL) ? STATUS_OBJECT_TYPE_MISMATCH : STATUS_INVALID_HANDLE;
    *Object = NULL;
    if (is_sent_handle(object)) {
        Call c;
        enter_host(&c, "ObReferenceObjectByHandle", at);
        status = check_sent_handle(object, Type);
        leave_host();
    }
    if (NT_SUCCESS(status)) {
        *Object = object;
        WdmObReferenceObject(object, at);
    }
    return status;
}

NTSTATUS WdmZwDuplicateObject(HANDLE Handle, PHANDLE Other, BOOLEAN Closes, WDM_SITE at)
{
    PVOID object = handle_object(Handle, NULL);
    if (!object)
        return STATUS_INVALID_HANDLE;
    *Other = new_handle(handles[(ULONG_PTR)Handle / 4 - 1].type, object);
    if (*Other && Closes)
        WdmZwClose(Handle, at);
    return *Other ? STATUS_SUCCESS : STATUS_INSUFFICIENT_RESOURCES;
}

static KEVENT process = { { .Type = 3 } }; /* as Windows numbers it; nobody sees its end */
PEPROCESS PsInitialSystemProcess = (PEPROCESS)&process;
PEPROCESS PsGetCurrentProcess(VOID) { return PsInitialSystemProcess; }

NTSTATUS WdmPsLookupProcess(HANDLE Number, PEPROCESS *Process, WDM_SITE at)
{
    if (Number != PsGetCurrentProcessId())
        return STATUS_INVALID_PARAMETER;
    *Process = PsInitialSystemProcess;
    WdmObReferenceObject(*Process, at);
    return STATUS_SUCCESS;
}

HANDLE PsGetThreadId(PETHREAD Thread) { return (HANDLE)Thread; }
HANDLE PsGetCurrentThreadId(VOID) { return (HANDLE)KeGetCurrentThread(); }

/* Events: those with a name are found again by it. */
static struct { UNICODE_STRING name; PKEVENT event; } named[64];
static int n_named;

/* Under G. */
static PKEVENT event_named(PUNICODE_STRING name)
{
    for (int i = 0; i < n_named; i++)
        if (RtlEqualUnicodeString(&named[i].name, name, TRUE))
            return named[i].event;
    return NULL;
}

/* The name of an event, or NULL. Under G. */
PCUNICODE_STRING name_of_event(const void *object)
{
    for (int i = 0; i < n_named; i++)
        if (named[i].event == object)
            return &named[i].name;
    return NULL;
}

static PKEVENT find_event(PUNICODE_STRING name)
{
    hold_host("a named event", &named, READS);
    PKEVENT found = event_named(name);
    pthread_mutex_unlock(&host_lock);
    return found;
}

/* Returns the event of that name where there is one, else a new one. */
static PKEVENT make_event(PUNICODE_STRING name, EVENT_TYPE type, BOOLEAN state)
{
    PKEVENT event = host_memory(sizeof *event), other = NULL;
    if (event)
        WdmKeInitializeEvent(event, type, state);
    if (!event || !name)
        return event;
    hold_host("a named event", &named, WRITES);
    other = event_named(name);
    if (!other && n_named < 64 && copy_text(&named[n_named].name, name))
        named[n_named++].event = event;
    pthread_mutex_unlock(&host_lock);
    if (other)
        free_host_memory(event);
    return other ? other : event;
}

NTSTATUS ZwCreateEvent(PHANDLE Handle, ACCESS_MASK Access, POBJECT_ATTRIBUTES Attributes, EVENT_TYPE Type,
                       BOOLEAN State)
{
    (void)Access;
    PKEVENT event = make_event(Attributes ? Attributes->ObjectName : NULL, Type, State);
    *Handle = event ? new_handle(&event_type, event) : NULL;
    return *Handle ? STATUS_SUCCESS : STATUS_INSUFFICIENT_RESOURCES;
}

NTSTATUS ZwOpenEvent(PHANDLE Handle, ACCESS_MASK Access, POBJECT_ATTRIBUTES Attributes)
{
    (void)Access;
    PKEVENT event = Attributes && Attributes->ObjectName ? find_event(Attributes->ObjectName) : NULL;
    *Handle = event ? new_handle(&event_type, event) : NULL;
    return event ? STATUS_SUCCESS : STATUS_OBJECT_NAME_NOT_FOUND;
}

PKEVENT IoCreateNotificationEvent(PUNICODE_STRING Name, PHANDLE Handle)
{
    PKEVENT event = make_event(Name, NotificationEvent, TRUE);
    *Handle = event ? new_handle(&event_type, event) : NULL;
    return event;
}

PKEVENT IoCreateSynchronizationEvent(PUNICODE_STRING Name, PHANDLE Handle)
{
    PKEVENT event = make_event(Name, SynchronizationEvent, TRUE);
    *Handle = event ? new_handle(&event_type, event) : NULL;
    return event;
}

NTSTATUS WdmZwSetEvent(HANDLE Handle, PLONG Before, WDM_SITE at)
{
    PKEVENT event = handle_object(Handle, &event_type);
    if (!event)
        return STATUS_INVALID_HANDLE;
    const LONG before = WdmKeSetEvent(event, at);
    if (Before)
        *Before = before;
    return STATUS_SUCCESS;
}

NTSTATUS ZwResetEvent(HANDLE Handle, PLONG Before)
{
    PKEVENT event = handle_object(Handle, &event_type);
    const LONG before = event ? KeResetEvent(event) : 0;
    if (Before)
        *Before = before;
    return event ? STATUS_SUCCESS : STATUS_INVALID_HANDLE;
}

NTSTATUS ZwClearEvent(HANDLE Handle) { return ZwResetEvent(Handle, NULL); }

NTSTATUS WdmZwWaitForSingleObject(HANDLE Handle, PLARGE_INTEGER Timeout, WDM_SITE at)
{
    PVOID object = handle_object(Handle, NULL);
    return object ? WdmKeWaitForSingleObject(object, Timeout, at) : STATUS_INVALID_HANDLE;
}
