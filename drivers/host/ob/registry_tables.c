/* registry_tables.c: RtlQueryRegistryValues and the like, over the calls of registry.c; and a device's own keys. */
#include "host.h"

/* Makes the whole path of a place in the registry, or opens it by its handle. */
static NTSTATUS open_place(ULONG where, PCWSTR path, bool makes, PHANDLE key)
{
    static PCWSTR const roots[] = { L"", L"\\Registry\\Machine\\System\\CurrentControlSet\\Services\\",
        L"\\Registry\\Machine\\System\\CurrentControlSet\\Control\\", L"",
        L"\\Registry\\Machine\\Hardware\\DeviceMap\\" };
    WCHAR room[512];
    UNICODE_STRING name = { 0, sizeof room, room };
    OBJECT_ATTRIBUTES attributes;
    if (where & RTL_REGISTRY_HANDLE) {
        *key = (HANDLE)path;
        return STATUS_SUCCESS;
    }
    if ((where & 0xff) > RTL_REGISTRY_DEVICEMAP)
        return STATUS_NOT_SUPPORTED;
    RtlAppendUnicodeToString(&name, roots[where & 0xff]);
    RtlAppendUnicodeToString(&name, path);
    InitializeObjectAttributes(&attributes, &name, OBJ_CASE_INSENSITIVE, NULL, NULL);
    return makes ? ZwCreateKey(key, KEY_ALL_ACCESS, &attributes, 0, NULL, 0, NULL) : ZwOpenKey(key, KEY_READ, &attributes);
}

static void close_place(ULONG where, HANDLE key)
{
    if (!(where & RTL_REGISTRY_HANDLE))
        ZwClose(key);
}

/* A value straight into a driver's variable, as RTL_QUERY_REGISTRY_DIRECT asks. */
static NTSTATUS store_directly(const RTL_QUERY_REGISTRY_TABLE *t, ULONG type, PVOID data, ULONG size)
{
    const ULONG wanted = t->DefaultType >> RTL_QUERY_REGISTRY_TYPECHECK_SHIFT;
    if ((t->Flags & RTL_QUERY_REGISTRY_TYPECHECK) && type != wanted)
        return STATUS_OBJECT_TYPE_MISMATCH;
    if (type == REG_SZ || type == REG_EXPAND_SZ || type == REG_MULTI_SZ) {
        PUNICODE_STRING to = t->EntryContext;
        const USHORT length = (USHORT)(size - (size >= sizeof(WCHAR) ? sizeof(WCHAR) : 0));
        const UNICODE_STRING from = { length, (USHORT)size, data };
        if (!to->Buffer)
            return WdmRtlDuplicate(&from, to, (WDM_SITE){ 0 });
        RtlCopyUnicodeString(to, &from);
        return to->Length < length ? STATUS_BUFFER_TOO_SMALL : STATUS_SUCCESS;
    }
    if (size <= sizeof(ULONG)) {
        memcpy(t->EntryContext, data, size);
        return STATUS_SUCCESS;
    }
    const LONG room = *(PLONG)t->EntryContext; /* a negative number of bytes, or a buffer with length and type */
    if (room < 0 && (ULONG)-room < size)
        return STATUS_BUFFER_TOO_SMALL;
    memcpy(t->EntryContext, data, size);
    return STATUS_SUCCESS;
}

static NTSTATUS hand_over(const RTL_QUERY_REGISTRY_TABLE *t, PWSTR name, ULONG type, PVOID data, ULONG size,
                          PVOID context)
{
    if (t->Flags & RTL_QUERY_REGISTRY_DIRECT)
        return store_directly(t, type, data, size);
    return t->QueryRoutine ? t->QueryRoutine(name, type, data, size, context, t->EntryContext) : STATUS_SUCCESS;
}

static NTSTATUS query_one(HANDLE key, const RTL_QUERY_REGISTRY_TABLE *t, PVOID context)
{
    UNICODE_STRING name;
    ULONG needed = 0;
    char room[2048];
    KEY_VALUE_PARTIAL_INFORMATION *value = (void *)room;
    RtlInitUnicodeString(&name, t->Name);
    NTSTATUS status = ZwQueryValueKey(key, &name, KeyValuePartialInformation, value, sizeof room, &needed);
    if (NT_SUCCESS(status)) {
        status = hand_over(t, t->Name, value->Type, value->Data, value->DataLength, context);
        if (NT_SUCCESS(status) && (t->Flags & RTL_QUERY_REGISTRY_DELETE))
            ZwDeleteValueKey(key, &name);
        return status;
    }
    if (status == STATUS_OBJECT_NAME_NOT_FOUND && (t->DefaultType & 0xff)) {
        PVOID data = t->DefaultData;
        const ULONG type = t->DefaultType & 0xff;
        const ULONG size = t->DefaultLength ? t->DefaultLength : type == REG_SZ && data
            ? (ULONG)((WdmWcslen(data) + 1) * sizeof(WCHAR)) : (ULONG)sizeof(ULONG);
        return data ? hand_over(t, t->Name, type, data, size, context) : STATUS_SUCCESS;
    }
    return status == STATUS_OBJECT_NAME_NOT_FOUND && !(t->Flags & RTL_QUERY_REGISTRY_REQUIRED) ? STATUS_SUCCESS : status;
}

/* All values of a key, for an entry without a name. */
static NTSTATUS query_all(HANDLE key, const RTL_QUERY_REGISTRY_TABLE *t, PVOID context)
{
    char room[2048];
    WCHAR name[128];
    KEY_VALUE_FULL_INFORMATION *value = (void *)room;
    ULONG needed;
    for (ULONG i = 0;; i++) {
        NTSTATUS status = ZwEnumerateValueKey(key, i, KeyValueFullInformation, value, sizeof room, &needed);
        if (status == STATUS_NO_MORE_ENTRIES)
            return STATUS_SUCCESS;
        if (!NT_SUCCESS(status))
            return status;
        const size_t n = min(value->NameLength / sizeof(WCHAR), ARRAYSIZE(name) - 1);
        memcpy(name, value->Name, n * sizeof(WCHAR));
        name[n] = 0;
        status = hand_over(t, name, value->Type, (char *)value + value->DataOffset, value->DataLength, context);
        if (!NT_SUCCESS(status))
            return status;
    }
}

NTSTATUS RtlQueryRegistryValues(ULONG Where, PCWSTR Path, PRTL_QUERY_REGISTRY_TABLE Table, PVOID Context,
                                PVOID Environment)
{
    HANDLE top, key, below = NULL;
    (void)Environment;
    NTSTATUS status = open_place(Where, Path, false, &top);
    if (!NT_SUCCESS(status))
        return (Where & RTL_REGISTRY_OPTIONAL) ? STATUS_SUCCESS : status;
    key = top;
    for (const RTL_QUERY_REGISTRY_TABLE *t = Table; NT_SUCCESS(status) && (t->QueryRoutine || t->Name); t++) {
        if ((t->Flags & RTL_QUERY_REGISTRY_TOPKEY) || (t->Flags & RTL_QUERY_REGISTRY_SUBKEY)) {
            if (below)
                ZwClose(below);
            below = NULL;
            key = top;
        }
        if (t->Flags & RTL_QUERY_REGISTRY_SUBKEY) {
            UNICODE_STRING name;
            OBJECT_ATTRIBUTES attributes;
            RtlInitUnicodeString(&name, t->Name);
            InitializeObjectAttributes(&attributes, &name, OBJ_CASE_INSENSITIVE, top, NULL);
            status = ZwOpenKey(&below, KEY_READ, &attributes);
            key = below;
        } else
            status = t->Name ? query_one(key, t, Context) : query_all(key, t, Context);
    }
    if (below)
        ZwClose(below);
    close_place(Where, top);
    return status;
}

NTSTATUS RtlWriteRegistryValue(ULONG Where, PCWSTR Path, PCWSTR Name, ULONG Type, PVOID Data, ULONG Length)
{
    HANDLE key;
    UNICODE_STRING name;
    NTSTATUS status = open_place(Where, Path, true, &key);
    if (!NT_SUCCESS(status))
        return status;
    RtlInitUnicodeString(&name, Name);
    status = ZwSetValueKey(key, &name, 0, Type, Data, Length);
    close_place(Where, key);
    return status;
}

NTSTATUS RtlDeleteRegistryValue(ULONG Where, PCWSTR Path, PCWSTR Name)
{
    HANDLE key;
    UNICODE_STRING name;
    NTSTATUS status = open_place(Where, Path, false, &key);
    if (!NT_SUCCESS(status))
        return status;
    RtlInitUnicodeString(&name, Name);
    status = ZwDeleteValueKey(key, &name);
    close_place(Where, key);
    return status;
}

NTSTATUS RtlCheckRegistryKey(ULONG Where, PWSTR Path)
{
    HANDLE key;
    const NTSTATUS status = open_place(Where, Path, false, &key);
    if (NT_SUCCESS(status))
        close_place(Where, key);
    return status;
}

NTSTATUS RtlCreateRegistryKey(ULONG Where, PWSTR Path)
{
    HANDLE key;
    const NTSTATUS status = open_place(Where, Path, true, &key);
    if (NT_SUCCESS(status))
        close_place(Where, key);
    return status;
}

/* A device's own key is made when it is first opened. */
NTSTATUS IoOpenDeviceRegistryKey(PDEVICE_OBJECT Device, ULONG Which, ACCESS_MASK Access, PHANDLE Key)
{
    WCHAR text[120];
    UNICODE_STRING path;
    OBJECT_ATTRIBUTES attributes;
    WdmSwprintf(text, ARRAYSIZE(text), L"\\Registry\\Machine\\System\\CurrentControlSet\\%s\\WDM\\%d",
                Which & PLUGPLAY_REGKEY_DRIVER ? L"Control\\Class" : L"Enum", Device->HostNumber);
    RtlInitUnicodeString(&path, text);
    InitializeObjectAttributes(&attributes, &path, OBJ_CASE_INSENSITIVE, NULL, NULL);
    return ZwCreateKey(Key, Access, &attributes, 0, NULL, 0, NULL);
}

NTSTATUS IoOpenDeviceInterfaceRegistryKey(PUNICODE_STRING Link, ACCESS_MASK Access, PHANDLE Key)
{
    WCHAR room[300];
    UNICODE_STRING path = { 0, sizeof room, room };
    OBJECT_ATTRIBUTES attributes;
    RtlAppendUnicodeToString(&path, L"\\Registry\\Machine\\System\\CurrentControlSet\\Control\\DeviceClasses\\");
    for (USHORT i = 0; i < Link->Length / sizeof(WCHAR); i++) {
        WCHAR one[2] = { Link->Buffer[i] == '\\' ? '#' : Link->Buffer[i], 0 };
        RtlAppendUnicodeToString(&path, one);
    }
    InitializeObjectAttributes(&attributes, &path, OBJ_CASE_INSENSITIVE, NULL, NULL);
    return ZwCreateKey(Key, Access, &attributes, 0, NULL, 0, NULL);
}

/* Time: days since 1601, by the calendar. */
VOID RtlTimeToTimeFields(PLARGE_INTEGER Time, PTIME_FIELDS Fields)
{
    const LONGLONG milliseconds = Time->QuadPart / 10000, days = milliseconds / 86400000;
    const time_t t = (time_t)(Time->QuadPart / 10000000 - 11644473600);
    struct tm tm;
    gmtime_r(&t, &tm);
    *Fields = (TIME_FIELDS){ (CSHORT)(tm.tm_year + 1900), (CSHORT)(tm.tm_mon + 1), (CSHORT)tm.tm_mday,
                             (CSHORT)tm.tm_hour, (CSHORT)tm.tm_min, (CSHORT)tm.tm_sec, (CSHORT)(milliseconds % 1000),
                             (CSHORT)((days + 1) % 7) };
}

BOOLEAN RtlTimeFieldsToTime(PTIME_FIELDS Fields, PLARGE_INTEGER Time)
{
    struct tm tm = { .tm_year = Fields->Year - 1900, .tm_mon = Fields->Month - 1, .tm_mday = Fields->Day,
                     .tm_hour = Fields->Hour, .tm_min = Fields->Minute, .tm_sec = Fields->Second };
    if (Fields->Year < 1601 || Fields->Month < 1 || Fields->Month > 12 || Fields->Day < 1 || Fields->Day > 31)
        return FALSE;
    Time->QuadPart = ((LONGLONG)timegm(&tm) + 11644473600) * 10000000 + Fields->Milliseconds * 10000;
    return TRUE;
}
