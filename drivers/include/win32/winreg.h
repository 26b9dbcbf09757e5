/* winreg.h: the registry of Win32, over the host's own (registry.c). */
#ifndef WDM_WIN32_WINREG_H
#define WDM_WIN32_WINREG_H

#include "win32.h"

#define REG_OPTION_CREATE_LINK 2
#define ERROR_INVALID_HANDLE 6
#define ERROR_NO_MORE_ITEMS 259
typedef LONG LSTATUS;
LSTATUS WdmRegOpen(HKEY Root, LPCWSTR Path, BOOLEAN Makes, HKEY *Key);
LSTATUS RegCloseKey(HKEY Key);
LSTATUS RegSetValueExW(HKEY Key, LPCWSTR Name, DWORD Reserved, DWORD Type, const BYTE *Data, DWORD Size);
LSTATUS RegDeleteValueW(HKEY Key, LPCWSTR Name);
LSTATUS RegQueryValueExW(HKEY Key, LPCWSTR Name, LPDWORD Reserved, LPDWORD Type, LPBYTE Data, LPDWORD Size);
LSTATUS RegEnumValueW(HKEY Key, DWORD Index, LPWSTR Name, LPDWORD Count, LPDWORD Reserved, LPDWORD Type, LPBYTE Data,
                      LPDWORD Size);
#define RegCreateKeyExW(root, path, reserved, class, options, access, security, key, disposition) \
    ((void)(access), (void)(disposition), WdmRegOpen((root), (path), TRUE, (key)))
#define RegOpenKeyExW(root, path, options, access, key) ((void)(access), WdmRegOpen((root), (path), FALSE, (key)))
#define RegCreateKeyW(root, path, key) WdmRegOpen((root), (path), TRUE, (key))
#define RegOpenKeyW(root, path, key) WdmRegOpen((root), (path), FALSE, (key))

#endif
