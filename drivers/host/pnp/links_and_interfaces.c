/* links_and_interfaces.c: names of devices, links, interfaces, notifications: what Plug and Play keeps of devices. */
#include "explore/explore.h"
#include "io/io.h"
#include "ke/ke.h"
#include "mm/mm.h"
#include "record/record.h"
#include "rtl/rtl.h"
#include "rules/rules.h"

enum { MAX_NAMES = 256, MAX_LINK = 200, MAX_INSTANCES = 64 };
typedef struct { UNICODE_STRING name, target; PDEVICE_OBJECT device; const GUID *class; bool is_enabled, leads_nowhere;
                 WDM_SITE made; int driver; } Name; /* made: of an interface, where it was enabled */
typedef struct { IO_NOTIFICATION_EVENT_CATEGORY category; GUID class; PFILE_OBJECT file;
                 PDRIVER_NOTIFICATION_CALLBACK_ROUTINE routine; PVOID context; int driver; WDM_SITE made; } Listener;
static Name names[MAX_NAMES];
static struct { PDEVICE_OBJECT device; WCHAR path[MAX_LINK / 2]; } instances[MAX_INSTANCES]; /* that the manager asked */
static Listener registrations[64];
static int n_names;

/* The place of a name, or -1. Under G. */
static int find_name(PCUNICODE_STRING name)
{
    for (int i = 0; i < n_names; i++)
        if (names[i].name.Buffer && RtlEqualUnicodeString(&names[i].name, name, TRUE))
            return i;
    return -1;
}

/* The links that lead to this name lead nowhere from now on, or lead to a device again. */
static void mark_links(PCUNICODE_STRING name, bool lead_nowhere)
{
    for (int i = 0; i < n_names; i++)
        if (names[i].name.Buffer && names[i].target.Buffer && RtlEqualUnicodeString(&names[i].target, name, TRUE))
            names[i].leads_nowhere = lead_nowhere;
}

static NTSTATUS add_name(PCUNICODE_STRING name, PCUNICODE_STRING target, PDEVICE_OBJECT device)
{
    NTSTATUS status = STATUS_OBJECT_NAME_COLLISION;
    hold_host("a name is made", &names, WRITES);
    if (find_name(name) < 0 && n_names < MAX_NAMES) {
        Name *n = &names[n_names++];
        *n = (Name){ .device = device };
        status = copy_text(&n->name, name) ? STATUS_SUCCESS : STATUS_INSUFFICIENT_RESOURCES;
        if (target)
            copy_text(&n->target, target);
        else
            mark_links(name, false);
    }
    pthread_mutex_unlock(&host_lock);
    return status;
}

NTSTATUS WdmIoCreateNamedDevice(PDRIVER_OBJECT Driver, ULONG Extension, PUNICODE_STRING Name, DEVICE_TYPE Type,
                                ULONG Characteristics, BOOLEAN Exclusive, PDEVICE_OBJECT *Device, WDM_SITE at)
{
    const bool is_named = Name && Name->Length;
    if (is_named && add_name(Name, NULL, NULL) == STATUS_OBJECT_NAME_COLLISION)
        return STATUS_OBJECT_NAME_COLLISION;
    const NTSTATUS status = WdmIoCreateDevice(Driver, Extension, Type, Characteristics, Device, at);
    if (NT_SUCCESS(status) && Exclusive)
        (*Device)->Flags |= DO_EXCLUSIVE;
    if (!is_named)
        return status;
    hold_host("IoCreateDevice", &names, WRITES);
    const int i = find_name(Name);
    if (i >= 0 && NT_SUCCESS(status))
        names[i].device = *Device;
    else if (i >= 0)
        names[i].name.Buffer = NULL;
    pthread_mutex_unlock(&host_lock);
    if (NT_SUCCESS(status))
        (*Device)->Flags |= DO_DEVICE_HAS_NAME;
    return status;
}

/* The name of a device, or NULL. Under G. */
PCUNICODE_STRING name_of_device(const void *device)
{
    for (int i = 0; i < n_names; i++)
        if (names[i].device == device && names[i].name.Buffer && !names[i].class)
            return &names[i].name;
    return NULL;
}

/* The device is gone: so is its name. Under G. */
void forget_names(PDEVICE_OBJECT device)
{
    touch(&names, WRITES);
    for (int i = 0; i < MAX_INSTANCES; i++)
        if (instances[i].device == device)
            instances[i].device = NULL;
    for (int i = 0; i < n_names; i++)
        if (names[i].device == device && names[i].class)
            names[i].leads_nowhere = true;
        else if (names[i].device == device && names[i].name.Buffer) {
            mark_links(&names[i].name, true);
            names[i].name.Buffer = NULL;
        }
}

static void tell_enabled(const Name *n)
{
    if (n->is_enabled)
        broken_at("InterfaceEnabled", "IoSetDeviceInterfaceState", n->made, "the device is gone, and its interface "
                  "is still enabled");
}

/* At the end, since a driver may end them after its device: links and interfaces of devices that are gone. Under G. */
void tell_links_to_nothing(void)
{
    for (int i = 0; i < n_names; i++)
        if (!names[i].name.Buffer || !names[i].leads_nowhere || !names[i].made.file)
            continue;
        else if (!names[i].class)
            fault_at("LeftBehind", NULL, "IoCreateSymbolicLink", names[i].made, "the device that the link leads to is deleted");
        else
            tell_enabled(&names[i]);
}

NTSTATUS WdmIoCreateSymbolicLink(PUNICODE_STRING Link, PUNICODE_STRING Device, WDM_SITE at)
{
    Call c;
    const NTSTATUS status = Link && Device && Link->Length ? add_name(Link, Device, NULL) : STATUS_INVALID_PARAMETER;
    enter_host(&c, "IoCreateSymbolicLink", at);
    touch(&names, READS);
    const int i = NT_SUCCESS(status) ? find_name(Link) : -1;
    if (i >= 0) {
        names[i].made = at;
        names[i].driver = calling_driver();
    }
    leave_host();
    return status;
}

void tell_links_left(int driver)
{
    for (int i = 0; i < n_names; i++)
        if (names[i].name.Buffer && names[i].made.file && !names[i].class && names[i].driver == driver) {
            left_behind("the symbolic link", "IoCreateSymbolicLink", names[i].made);
            names[i].leads_nowhere = false;
        }
    touch(&registrations, WRITES);
    for (int i = 0; i < 64; i++)
        if (registrations[i].routine && registrations[i].driver == driver) {
            left_behind("the notification", "IoRegisterPlugPlayNotification", registrations[i].made);
            registrations[i].routine = NULL;
        }
}

NTSTATUS IoDeleteSymbolicLink(PUNICODE_STRING Link)
{
    if (!Link || !Link->Length)
        return STATUS_INVALID_PARAMETER;
    hold_host("IoDeleteSymbolicLink", &names, WRITES);
    const int i = find_name(Link);
    if (i >= 0)
        names[i].name.Buffer = NULL;
    pthread_mutex_unlock(&host_lock);
    return i < 0 ? STATUS_OBJECT_NAME_NOT_FOUND : STATUS_SUCCESS;
}

/* The device that a name leads to, by links too. */
PDEVICE_OBJECT device_named(PCUNICODE_STRING name)
{
    PDEVICE_OBJECT device = NULL;
    hold_host("a name is looked up", &names, READS);
    int i = find_name(name);
    for (int hops = 0; i >= 0 && !names[i].device && names[i].target.Buffer && hops < 8; hops++)
        i = find_name(&names[i].target);
    if (i >= 0)
        device = names[i].device;
    pthread_mutex_unlock(&host_lock);
    return device;
}

NTSTATUS WdmIoGetDeviceObjectPointer(PUNICODE_STRING Name, PFILE_OBJECT *File, PDEVICE_OBJECT *Device, WDM_SITE at)
{
    PDEVICE_OBJECT device = device_named(Name);
    if (!device)
        return STATUS_OBJECT_NAME_NOT_FOUND;
    *Device = IoGetAttachedDevice(device);
    const NTSTATUS status = open_device(*Device, File, at);
    if (!NT_SUCCESS(status))
        return status;
    WdmObReferenceObject(*File, at);
    clean_up(*File, at); /* its handle is closed, and the reference stays */
    (*File)->HostCloses = TRUE;
    return STATUS_SUCCESS;
}

NTSTATUS WdmIoAttachDeviceByName(PDEVICE_OBJECT Device, PUNICODE_STRING Name, PDEVICE_OBJECT *Lower, WDM_SITE at)
{
    PDEVICE_OBJECT target = device_named(Name);
    *Lower = target ? WdmIoAttachDevice(Device, target, at) : NULL;
    return *Lower ? STATUS_SUCCESS : target ? STATUS_NO_SUCH_DEVICE : STATUS_OBJECT_NAME_NOT_FOUND;
}

/* The device's id and that of its instance become its path: `#` stands where a backslash was. */
void name_instance(PDEVICE_OBJECT device, const char *id, const char *instance)
{
    int i = 0;
    pthread_mutex_lock(&host_lock);
    touch(&instances, WRITES);
    while (i < MAX_INSTANCES - 1 && instances[i].device && instances[i].device != device)
        i++;
    WCHAR *to = instances[i].path, *end = to + ARRAYSIZE(instances[i].path) - 1;
    instances[i].device = device;
    for (; *id && to < end; id++)
        *to++ = *id == '\\' ? L'#' : (WCHAR)*id;
    if (to < end)
        *to++ = L'#';
    for (; *instance && to < end; instance++)
        *to++ = *instance == '\\' ? L'#' : (WCHAR)*instance;
    *to = 0;
    pthread_mutex_unlock(&host_lock);
}

/* The path of a device: what the manager asked for, else `WDM` and its number. */
static void find_path(PDEVICE_OBJECT device, WCHAR *path, size_t size)
{
    WdmSwprintf(path, size, L"WDM#%d", device->HostNumber);
    pthread_mutex_lock(&host_lock);
    touch(&instances, READS);
    for (int i = 0; i < MAX_INSTANCES; i++)
        if (instances[i].device == device)
            memcpy(path, instances[i].path, sizeof instances[i].path);
    pthread_mutex_unlock(&host_lock);
}

/* Interfaces. */
NTSTATUS WdmIoRegisterDeviceInterface(PDEVICE_OBJECT Device, const GUID *Class, PUNICODE_STRING Reference,
                                      PUNICODE_STRING Link, WDM_SITE at)
{
    WCHAR text[MAX_LINK], path[MAX_LINK / 2];
    UNICODE_STRING class, name;
    find_path(Device, path, ARRAYSIZE(path));
    RtlStringFromGUID(Class, &class);
    for (size_t i = 0; i < class.Length / sizeof(WCHAR); i++)
        class.Buffer[i] = (WCHAR)WdmTowlower(class.Buffer[i]);
    WdmSwprintf(text, ARRAYSIZE(text), L"\\??\\%s#%wZ%s%wZ", path, &class,
                Reference && Reference->Length ? L"\\" : L"", Reference ? Reference : &(UNICODE_STRING){ 0 });
    RtlFreeUnicodeString(&class);
    RtlInitUnicodeString(&name, text);
    add_name(&name, NULL, Device);
    hold_host("IoRegisterDeviceInterface", &names, WRITES);
    const int i = find_name(&name);
    if (i >= 0)
        names[i].class = Class;
    if (i >= 0 && names[i].leads_nowhere) { /* the device came again */
        tell_enabled(&names[i]);
        names[i].device = Device;
        names[i].is_enabled = names[i].leads_nowhere = false;
    }
    pthread_mutex_unlock(&host_lock);
    return WdmRtlDuplicate(&name, Link, at);
}

/* Who is to be called, if anyone. */
static Listener registration_at(int i)
{
    pthread_mutex_lock(&host_lock);
    touch(&registrations, READS);
    const Listener r = registrations[i];
    pthread_mutex_unlock(&host_lock);
    if (r.routine)
        point("a notification", (WDM_SITE){ 0 });
    return r;
}

/* Calls whoever wants to know of a device's interface. */
static void tell_interface(const GUID *class, PUNICODE_STRING link, const GUID *event)
{
    DEVICE_INTERFACE_CHANGE_NOTIFICATION change = { 1, sizeof change, *event, *class, link };
    for (int i = 0; i < 64; i++) {
        const Listener r = registration_at(i);
        if (r.routine && r.category == EventCategoryDeviceInterfaceChange && !memcmp(&r.class, class, sizeof *class))
            r.routine(&change, r.context);
    }
}

NTSTATUS WdmIoSetInterfaceState(PUNICODE_STRING Link, BOOLEAN Enable, WDM_SITE at)
{
    if (!Link || !Link->Buffer)
        return STATUS_INVALID_PARAMETER;
    hold_host("IoSetDeviceInterfaceState", &names, WRITES);
    const int i = find_name(Link);
    const bool changes = i >= 0 && names[i].class && names[i].is_enabled != (Enable != 0);
    if (changes) {
        names[i].is_enabled = Enable != 0;
        names[i].made = is_hosts_file(at.file) ? (WDM_SITE){ 0 } : at;
    }
    pthread_mutex_unlock(&host_lock);
    if (changes)
        tell_interface(names[i].class, Link, Enable ? &GUID_DEVICE_INTERFACE_ARRIVAL : &GUID_DEVICE_INTERFACE_REMOVAL);
    return i >= 0 && names[i].class && (changes || Enable) ? STATUS_SUCCESS : STATUS_OBJECT_NAME_NOT_FOUND;
}

NTSTATUS WdmIoGetDeviceInterfaces(const GUID *Class, PDEVICE_OBJECT Device, ULONG Flags, PWSTR *Links, WDM_SITE at)
{
    size_t used = 0;
    (void)Flags;
    PWSTR text = WdmAllocatePool(WDM_POOL_ZERO, (MAX_NAMES * MAX_LINK + 1) * sizeof(WCHAR), 0, at);
    hold_host("IoGetDeviceInterfaces", &names, READS);
    for (int i = 0; text && i < n_names; i++)
        if (names[i].name.Buffer && names[i].class && names[i].is_enabled && (!Device || names[i].device == Device) &&
            !memcmp(names[i].class, Class, sizeof *Class)) {
            memcpy(text + used, names[i].name.Buffer, names[i].name.Length);
            used += names[i].name.Length / sizeof(WCHAR) + 1;
        }
    pthread_mutex_unlock(&host_lock);
    *Links = text;
    return text ? STATUS_SUCCESS : STATUS_INSUFFICIENT_RESOURCES;
}

NTSTATUS WdmRegisterNotification(IO_NOTIFICATION_EVENT_CATEGORY Category, ULONG Flags, PVOID Data, PDRIVER_OBJECT Driver,
                                 PDRIVER_NOTIFICATION_CALLBACK_ROUTINE Routine, PVOID Context, PVOID *Entry, WDM_SITE at)
{
    Call c;
    int i = 0;
    enter_host(&c, "IoRegisterPlugPlayNotification", at);
    touch(&registrations, WRITES);
    touch(&names, READS);
    while (i < 64 && registrations[i].routine)
        i++;
    if (i < 64) {
        registrations[i] = (Listener){ .category = Category, .routine = Routine, .context = Context,
                                           .driver = Driver->HostNumber, .made = at };
        if (Category == EventCategoryDeviceInterfaceChange)
            registrations[i].class = *(const GUID *)Data;
        else
            registrations[i].file = Data;
        *Entry = &registrations[i];
    }
    leave_host();
    if (i == 64)
        return STATUS_INSUFFICIENT_RESOURCES;
    for (int i = 0; i < n_names && (Flags & PNPNOTIFY_DEVICE_INTERFACE_INCLUDE_EXISTING_INTERFACES); i++)
        if (names[i].is_enabled && names[i].class && !memcmp(names[i].class, Data, sizeof(GUID))) {
            DEVICE_INTERFACE_CHANGE_NOTIFICATION change = { 1, sizeof change, GUID_DEVICE_INTERFACE_ARRIVAL,
                                                            *(const GUID *)Data, &names[i].name };
            Routine(&change, Context);
        }
    return STATUS_SUCCESS;
}

NTSTATUS WdmUnregisterNotification(PVOID Entry, WDM_SITE at)
{
    Call c;
    Listener *r = Entry;
    enter_host(&c, "IoUnregisterPlugPlayNotification", at);
    touch(&registrations, WRITES);
    if (r < registrations || r >= registrations + 64 || !r->routine)
        fault("NotRegistered", NULL, "this notification isn't registered, or not any more");
    else
        r->routine = NULL;
    leave_host();
    return STATUS_SUCCESS;
}

/* Whether the file was opened on a device of this one's stack. */
static bool is_on_stack(const FILE_OBJECT *file, PDEVICE_OBJECT device)
{
    int a = device_number(file->DeviceObject), b = device_number(device);
    while (devices[a].lower >= 0)
        a = devices[a].lower;
    while (devices[b].lower >= 0)
        b = devices[b].lower;
    return a == b;
}

NTSTATUS IoReportTargetDeviceChange(PDEVICE_OBJECT Device, PVOID Notification)
{
    for (int i = 0; i < 64; i++) {
        const Listener r = registration_at(i);
        if (r.routine && r.category == EventCategoryTargetDeviceChange && r.file && is_on_stack(r.file, Device))
            r.routine(Notification, r.context);
    }
    return STATUS_SUCCESS;
}

NTSTATUS IoReportTargetDeviceChangeAsynchronous(PDEVICE_OBJECT Device, PVOID Notification,
                                                PDEVICE_CHANGE_COMPLETE_CALLBACK Callback, PVOID Context)
{
    IoReportTargetDeviceChange(Device, Notification);
    if (Callback)
        Callback(Context);
    return STATUS_PENDING;
}
