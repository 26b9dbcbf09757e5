/* device_properties.c: properties of devices: those of the registry, and those with keys of their own. */
#include "ke/ke.h"

enum { MAX_PROPERTIES = 256 };
typedef struct { PDEVICE_OBJECT device; DEVPROPKEY key; DEVICE_REGISTRY_PROPERTY property; DEVPROPTYPE type; ULONG size;
                 PVOID data; bool is_keyed; } Property;
static Property properties[MAX_PROPERTIES];
static int n_properties;

static Property *find_property(PDEVICE_OBJECT device, DEVICE_REGISTRY_PROPERTY property, const DEVPROPKEY *key)
{
    for (int i = 0; i < n_properties; i++) {
        Property *p = &properties[i];
        if (p->device == device && (key ? p->is_keyed && !memcmp(&p->key, key, sizeof *key)
                                        : !p->is_keyed && p->property == property))
            return p;
    }
    return NULL;
}

static NTSTATUS set_property(Property wanted, const void *data)
{
    NTSTATUS status = STATUS_INSUFFICIENT_RESOURCES;
    hold_host("IoSetDevicePropertyData", &properties, WRITES);
    Property *p = find_property(wanted.device, wanted.property, wanted.is_keyed ? &wanted.key : NULL);
    if (!p && n_properties < MAX_PROPERTIES)
        p = &properties[n_properties++];
    PVOID copy = p ? malloc(wanted.size ? wanted.size : 1) : NULL;
    if (copy) {
        *p = wanted;
        p->data = copy;
        memcpy(copy, data, wanted.size);
        status = STATUS_SUCCESS;
    }
    pthread_mutex_unlock(&host_lock);
    return status;
}

VOID WdmSetDeviceProperty(PDEVICE_OBJECT Device, DEVICE_REGISTRY_PROPERTY Which, const VOID *Data, ULONG Size)
{
    set_property((Property){ .device = Device, .property = Which, .size = Size }, Data);
}

NTSTATUS IoSetDevicePropertyData(PDEVICE_OBJECT Device, const DEVPROPKEY *Key, LCID Locale, ULONG Flags,
                                 DEVPROPTYPE Type, ULONG Size, PVOID Data)
{
    (void)Locale, (void)Flags;
    return set_property((Property){ .device = Device, .key = *Key, .type = Type, .size = Size, .is_keyed = true }, Data);
}

static NTSTATUS read_property(const Property *p, ULONG room, PVOID to, PULONG needed)
{
    if (needed)
        *needed = p ? p->size : 0;
    if (!p)
        return STATUS_OBJECT_NAME_NOT_FOUND;
    if (room < p->size)
        return STATUS_BUFFER_TOO_SMALL;
    memcpy(to, p->data, p->size);
    return STATUS_SUCCESS;
}

NTSTATUS IoGetDeviceProperty(PDEVICE_OBJECT Device, DEVICE_REGISTRY_PROPERTY Property, ULONG Length, PVOID Buffer,
                             PULONG Needed)
{
    hold_host("IoGetDeviceProperty", &properties, READS);
    const NTSTATUS status = read_property(find_property(Device, Property, NULL), Length, Buffer, Needed);
    pthread_mutex_unlock(&host_lock);
    return status;
}

NTSTATUS IoGetDevicePropertyData(PDEVICE_OBJECT Device, const DEVPROPKEY *Key, LCID Locale, ULONG Flags, ULONG Size,
                                 PVOID Data, PULONG Needed, PDEVPROPTYPE Type)
{
    (void)Locale, (void)Flags;
    hold_host("IoGetDevicePropertyData", &properties, READS);
    const Property *p = find_property(Device, 0, Key);
    if (p && Type)
        *Type = p->type;
    const NTSTATUS status = read_property(p, Size, Data, Needed);
    pthread_mutex_unlock(&host_lock);
    return status;
}
