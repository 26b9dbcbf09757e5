/* plug_and_play_asks.c: the requests by which the Plug and Play manager learns of a device. */
#include "pnp/own.h"

typedef const IO_STACK_LOCATION *Like;

/* Sends a request with the parameters of `like`, where there is one, and waits. Its Information goes to `information`. */
static NTSTATUS ask_device(PDEVICE_OBJECT pdo, UCHAR minor, Like like, ULONG_PTR *information)
{
    PDEVICE_OBJECT top = IoGetAttachedDevice(pdo);
    IO_STATUS_BLOCK iosb = { 0 };
    KEVENT ended;
    KeInitializeEvent(&ended, NotificationEvent, FALSE);
    PIRP irp = WdmBuildIrp(top, IRP_MJ_PNP, minor, 0, &iosb, &ended);
    if (!irp)
        return STATUS_INSUFFICIENT_RESOURCES;
    if (like)
        IoGetNextIrpStackLocation(irp)->Parameters = like->Parameters;
    IoCallDriver(top, irp);
    KeWaitForSingleObject(&ended, Executive, KernelMode, FALSE, NULL);
    if (information)
        *information = NT_SUCCESS(iosb.Status) ? iosb.Information : 0;
    return iosb.Status;
}

NTSTATUS ask_stack(PDEVICE_OBJECT pdo, UCHAR minor) { return ask_device(pdo, minor, NULL, NULL); }

/* Asks for a block of pool, which the manager frees. */
static void ask_for_block(PDEVICE_OBJECT pdo, UCHAR minor, Like like)
{
    ULONG_PTR block = 0;
    ask_device(pdo, minor, like, &block);
    if (block)
        ExFreePool((PVOID)block);
}

static void ask_id(PDEVICE_OBJECT pdo, BUS_QUERY_ID_TYPE type, char *id, size_t size)
{
    const IO_STACK_LOCATION like = { .Parameters.QueryId.IdType = type };
    ULONG_PTR text = 0;
    ask_device(pdo, IRP_MN_QUERY_ID, &like, &text);
    if (!text)
        return;
    const WCHAR *c = (const WCHAR *)text;
    size_t n = 0;
    for (; id && n + 1 < size && c[n]; n++)
        id[n] = c[n] < 0x80 ? (char)c[n] : '?';
    if (id)
        id[n] = 0;
    ExFreePool((PVOID)text);
}

/* Returns whether the instance is unique in the system. */
static bool ask_capabilities(PDEVICE_OBJECT pdo)
{
    DEVICE_CAPABILITIES capabilities = { .Size = sizeof capabilities, .Version = 1, .Address = (ULONG)-1,
                                         .UINumber = (ULONG)-1 };
    const IO_STACK_LOCATION like = { .Parameters.DeviceCapabilities.Capabilities = &capabilities };
    return NT_SUCCESS(ask_device(pdo, IRP_MN_QUERY_CAPABILITIES, &like, NULL)) && capabilities.UniqueID;
}

static void ask_text(PDEVICE_OBJECT pdo, DEVICE_TEXT_TYPE type)
{
    const IO_STACK_LOCATION like = { .Parameters.QueryDeviceText = { .DeviceTextType = type, .LocaleId = 0x409 } };
    ask_for_block(pdo, IRP_MN_QUERY_DEVICE_TEXT, &like);
}

/* An instance that is unique on its bus alone has more before it. */
static void ask_instance(PDEVICE_OBJECT pdo, const char *id, bool is_unique)
{
    char instance[60] = "", path[80];
    ask_id(pdo, BusQueryInstanceID, instance, sizeof instance);
    snprintf(path, sizeof path, "%d&%s", pdo->HostNumber, instance);
    if (*id)
        name_instance(pdo, id, is_unique && *instance ? instance : path);
}

void ask_new_child(PDEVICE_OBJECT pdo, char *id, size_t size)
{
    ask_id(pdo, BusQueryDeviceID, id, size);
    const bool is_unique = ask_capabilities(pdo);
    ask_text(pdo, DeviceTextDescription);
    ask_text(pdo, DeviceTextLocationInformation);
    ask_instance(pdo, id, is_unique);
    ask_id(pdo, BusQueryHardwareIDs, NULL, 0);
    ask_id(pdo, BusQueryCompatibleIDs, NULL, 0);
    ask_for_block(pdo, IRP_MN_QUERY_RESOURCES, NULL);
    ask_for_block(pdo, IRP_MN_QUERY_RESOURCE_REQUIREMENTS, NULL);
    ask_for_block(pdo, IRP_MN_QUERY_BUS_INFORMATION, NULL);
}

void ask_before_start(PDEVICE_OBJECT pdo)
{
    ask_for_block(pdo, IRP_MN_FILTER_RESOURCE_REQUIREMENTS, NULL);
}

void ask_after_start(PDEVICE_OBJECT pdo)
{
    ask_capabilities(pdo);
    ask_stack(pdo, IRP_MN_QUERY_PNP_DEVICE_STATE);
}

PDEVICE_RELATIONS ask_relations(PDEVICE_OBJECT pdo, bool *answered)
{
    const IO_STACK_LOCATION like = { .Parameters.QueryDeviceRelations.Type = BusRelations };
    ULONG_PTR relations = 0;
    *answered = NT_SUCCESS(ask_device(pdo, IRP_MN_QUERY_DEVICE_RELATIONS, &like, &relations));
    return (PDEVICE_RELATIONS)relations;
}
