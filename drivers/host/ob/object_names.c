/* object_names.c: what objects are called, and what kind they are; drivers by their names; directories of objects. */
#include "ob/own.h"
#include "explore/explore.h"
#include "ke/ke.h"
#include "pnp/pnp.h"
#include "record/record.h"
#include "rtl/rtl.h"

typedef struct { UNICODE_STRING name; bool is_permanent, is_there; } Directory;
static struct _OBJECT_TYPE { const char *name; } directory_type = { "directory" };
static Directory directories[64];
static int n_directories;

UNICODE_STRING driver_name(const char *name)
{
    WCHAR text[160];
    UNICODE_STRING wide, kept = { 0 };
    WdmSwprintf(text, ARRAYSIZE(text), L"\\Driver\\%S", name);
    RtlInitUnicodeString(&wide, text);
    copy_text(&kept, &wide);
    return kept;
}

/* Under G. */
static PDRIVER_OBJECT driver_that_is(const void *object)
{
    for (int i = 0; i < n_drivers; i++)
        if (drivers[i] == object)
            return drivers[i];
    return NULL;
}

/* Under G. */
static bool is_device(const void *object)
{
    for (int i = 0; i < n_devices; i++)
        if (devices[i].raw == object)
            return true;
    return false;
}

/* Under G. */
static Directory *directory_that_is(const void *object)
{
    for (int i = 0; i < n_directories; i++)
        if (&directories[i] == object)
            return &directories[i];
    return NULL;
}

/* NULL of what has no type here. */
POBJECT_TYPE ObGetObjectType(PVOID Object)
{
    hold_host("ObGetObjectType", &devices, READS);
    const POBJECT_TYPE type = is_device(Object) ? *IoDeviceObjectType : driver_that_is(Object) ? *IoDriverObjectType :
        is_thread_of_driver(Object) || Object == self.thread ? *PsThreadType :
        Object == PsInitialSystemProcess ? *PsProcessType : NULL;
    pthread_mutex_unlock(&host_lock);
    return type ? type : type_by_handles(Object);
}

/* Under G. */
static UNICODE_STRING name_of(const void *object)
{
    const PDRIVER_OBJECT driver = driver_that_is(object);
    const Directory *directory = directory_that_is(object);
    PCUNICODE_STRING name = driver ? &driver->DriverName : directory ? &directory->name :
        is_device(object) ? name_of_device(object) : name_of_event(object);
    return name ? *name : (UNICODE_STRING){ 0 };
}

/* The name stands behind the structure, with a zero after it. What has no name has none of this. */
NTSTATUS (ObQueryNameString)(PVOID Object, POBJECT_NAME_INFORMATION Information, ULONG Length, PULONG Needed)
{
    hold_host("ObQueryNameString", &devices, READS);
    const UNICODE_STRING name = name_of(Object);
    pthread_mutex_unlock(&host_lock);
    const USHORT bytes = name.Buffer ? (USHORT)(name.Length + sizeof(WCHAR)) : 0;
    *Needed = sizeof *Information + bytes;
    if (Length < *Needed)
        return STATUS_INFO_LENGTH_MISMATCH;
    PWSTR text = (PWSTR)(Information + 1);
    Information->Name = (UNICODE_STRING){ name.Length, bytes, bytes ? text : NULL };
    if (bytes) {
        memcpy(text, name.Buffer, name.Length);
        text[name.Length / sizeof(WCHAR)] = 0;
    }
    return STATUS_SUCCESS;
}

/* Of drivers alone. */
NTSTATUS WdmObReferenceByName(PUNICODE_STRING Name, POBJECT_TYPE Type, PVOID *Object, WDM_SITE at)
{
    PDRIVER_OBJECT found = NULL;
    if (Type != *IoDriverObjectType)
        return STATUS_NOT_SUPPORTED;
    hold_host("ObReferenceObjectByName", &devices, READS);
    for (int i = 0; i < n_drivers && !found; i++)
        if (RtlEqualUnicodeString(&drivers[i]->DriverName, Name, TRUE))
            found = drivers[i];
    pthread_mutex_unlock(&host_lock);
    if (!found)
        return STATUS_OBJECT_NAME_NOT_FOUND;
    WdmObReferenceObject(found, at);
    *Object = found;
    return STATUS_SUCCESS;
}

/* The directory of that name, or a new one. Under G. */
static Directory *directory_named(PCUNICODE_STRING name, bool may_be_new)
{
    for (int i = 0; name && i < n_directories; i++)
        if (directories[i].is_there && RtlEqualUnicodeString(&directories[i].name, name, TRUE))
            return &directories[i];
    if (!may_be_new)
        return NULL;
    if (n_directories == ARRAYSIZE(directories))
        reach_limit("more than 64 directories of objects");
    Directory *d = &directories[n_directories++];
    *d = (Directory){ .is_there = true };
    if (name)
        copy_text(&d->name, name);
    return d;
}

NTSTATUS (ZwCreateDirectoryObject)(PHANDLE Handle, ACCESS_MASK Access, POBJECT_ATTRIBUTES Attributes)
{
    const PUNICODE_STRING name = Attributes ? Attributes->ObjectName : NULL;
    const ULONG flags = Attributes ? Attributes->Attributes : 0;
    (void)Access;
    hold_host("ZwCreateDirectoryObject", &directories, WRITES);
    Directory *found = directory_named(name, false), *d = found ? found : directory_named(name, true);
    if (!found)
        d->is_permanent = (flags & OBJ_PERMANENT) != 0;
    pthread_mutex_unlock(&host_lock);
    *Handle = found && !(flags & OBJ_OPENIF) ? NULL : new_handle(&directory_type, d);
    if (found && !(flags & OBJ_OPENIF))
        return STATUS_OBJECT_NAME_COLLISION;
    return !*Handle ? STATUS_INSUFFICIENT_RESOURCES : found ? STATUS_OBJECT_NAME_EXISTS : STATUS_SUCCESS;
}

NTSTATUS (ZwOpenDirectoryObject)(PHANDLE Handle, ACCESS_MASK Access, POBJECT_ATTRIBUTES Attributes)
{
    (void)Access;
    hold_host("ZwOpenDirectoryObject", &directories, READS);
    Directory *d = Attributes ? directory_named(Attributes->ObjectName, false) : NULL;
    pthread_mutex_unlock(&host_lock);
    *Handle = d ? new_handle(&directory_type, d) : NULL;
    return !d ? STATUS_OBJECT_NAME_NOT_FOUND : *Handle ? STATUS_SUCCESS : STATUS_INSUFFICIENT_RESOURCES;
}

void drop_directory(const void *object)
{
    Directory *d = directory_that_is(object);
    if (!d)
        return;
    touch(&directories, WRITES);
    d->is_there = d->is_permanent;
}

/* Of a directory: it goes with its last handle. */
NTSTATUS ZwMakeTemporaryObject(HANDLE Handle)
{
    Directory *d = handle_object(Handle, &directory_type);
    if (!d)
        return handle_object(Handle, NULL) ? STATUS_SUCCESS : STATUS_INVALID_HANDLE;
    hold_host("ZwMakeTemporaryObject", &directories, WRITES);
    d->is_permanent = false;
    pthread_mutex_unlock(&host_lock);
    return STATUS_SUCCESS;
}
