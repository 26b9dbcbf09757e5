/* win32_registry.c: what win32/winreg.h has: the registry of Win32 over the host's own. */
#include "win32/winreg.h"

enum { MOST_NAME = 256, MOST_DATA = 1024 };
typedef union { KEY_VALUE_FULL_INFORMATION value; UCHAR room[sizeof(KEY_VALUE_FULL_INFORMATION) + MOST_DATA + MOST_NAME]; }
    Told;

static LSTATUS error_of(NTSTATUS status)
{
    return NT_SUCCESS(status)                  ? ERROR_SUCCESS
        : status == STATUS_BUFFER_OVERFLOW     ? ERROR_MORE_DATA
        : status == STATUS_NO_MORE_ENTRIES     ? ERROR_NO_MORE_ITEMS
        : status == STATUS_INVALID_HANDLE      ? ERROR_INVALID_HANDLE
        : status == STATUS_INSUFFICIENT_RESOURCES ? ERROR_NOT_ENOUGH_MEMORY
                                               : ERROR_FILE_NOT_FOUND;
}

static bool is_root(HKEY key) { return (ULONG_PTR)key >> 31 == 1; }

/* Opens a key below a root or an open key. */
LSTATUS WdmRegOpen(HKEY Root, LPCWSTR Path, BOOLEAN Makes, HKEY *Key)
{
    WCHAR room[MOST_NAME];
    UNICODE_STRING name = { 0, sizeof room, room };
    OBJECT_ATTRIBUTES attributes;
    HANDLE handle = NULL;
    if (is_root(Root))
        RtlAppendUnicodeToString(&name, Root == HKEY_LOCAL_MACHINE ? L"\\Registry\\Machine\\" : L"\\Registry\\User\\");
    if (!Root || !NT_SUCCESS(RtlAppendUnicodeToString(&name, Path)))
        return ERROR_INVALID_HANDLE;
    InitializeObjectAttributes(&attributes, &name, OBJ_CASE_INSENSITIVE, is_root(Root) ? NULL : Root, NULL);
    const NTSTATUS status = Makes ? ZwCreateKey(&handle, KEY_ALL_ACCESS, &attributes, 0, NULL, 0, NULL)
                                  : ZwOpenKey(&handle, KEY_ALL_ACCESS, &attributes);
    *Key = handle;
    return error_of(status);
}

LSTATUS RegCloseKey(HKEY Key)
{
    if (!Key || is_root(Key))
        return Key ? ERROR_SUCCESS : ERROR_INVALID_HANDLE;
    return error_of(WdmZwClose(Key, (WDM_SITE){ 0 }));
}

LSTATUS RegSetValueExW(HKEY Key, LPCWSTR Name, DWORD Reserved, DWORD Type, const BYTE *Data, DWORD Size)
{
    UNICODE_STRING name;
    (void)Reserved;
    RtlInitUnicodeString(&name, Name);
    return Key ? error_of(ZwSetValueKey(Key, &name, 0, Type, (PVOID)(ULONG_PTR)Data, Size)) : ERROR_INVALID_HANDLE;
}

LSTATUS RegDeleteValueW(HKEY Key, LPCWSTR Name)
{
    UNICODE_STRING name;
    RtlInitUnicodeString(&name, Name);
    return Key ? error_of(ZwDeleteValueKey(Key, &name)) : ERROR_INVALID_HANDLE;
}

/* Gives a value's type, and its data where there is room; Size is its bytes then. */
static LSTATUS give(const Told *told, LPDWORD type, LPBYTE data, LPDWORD size)
{
    const DWORD room = size ? *size : 0;
    if (type)
        *type = told->value.Type;
    if (size)
        *size = told->value.DataLength;
    if (data && room < told->value.DataLength)
        return ERROR_MORE_DATA;
    if (data)
        memcpy(data, told->room + told->value.DataOffset, told->value.DataLength);
    return ERROR_SUCCESS;
}

LSTATUS RegQueryValueExW(HKEY Key, LPCWSTR Name, LPDWORD Reserved, LPDWORD Type, LPBYTE Data, LPDWORD Size)
{
    UNICODE_STRING name;
    ULONG needed;
    Told told;
    (void)Reserved;
    RtlInitUnicodeString(&name, Name);
    const NTSTATUS status = Key ? ZwQueryValueKey(Key, &name, KeyValueFullInformation, &told, sizeof told, &needed)
                                : STATUS_INVALID_HANDLE;
    return NT_SUCCESS(status) ? give(&told, Type, Data, Size) : error_of(status);
}

LSTATUS RegEnumValueW(HKEY Key, DWORD Index, LPWSTR Name, LPDWORD Count, LPDWORD Reserved, LPDWORD Type, LPBYTE Data,
                      LPDWORD Size)
{
    ULONG needed;
    Told told;
    (void)Reserved;
    const NTSTATUS status = Key ? ZwEnumerateValueKey(Key, Index, KeyValueFullInformation, &told, sizeof told, &needed)
                                : STATUS_INVALID_HANDLE;
    if (!NT_SUCCESS(status))
        return error_of(status);
    const DWORD letters = told.value.NameLength / sizeof(WCHAR);
    if (letters >= *Count)
        return ERROR_MORE_DATA;
    memcpy(Name, told.value.Name, told.value.NameLength);
    Name[letters] = 0;
    *Count = letters;
    return give(&told, Type, Data, Size);
}
