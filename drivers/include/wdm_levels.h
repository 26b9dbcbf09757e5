/* wdm_levels.h: calls that a driver makes at PASSIVE_LEVEL alone, and of which the host checks nothing else. Each has
   its level checked first (host/rules/levels.c), and one that takes memory may be refused (host/mm/low_memory.c). `wdm.h` includes
   this last, and the host's files that define them don't. */
#ifndef WDM_LEVELS_H
#define WDM_LEVELS_H

#include "wdm_base.h"

VOID WdmAtLevel(const char *Name, WDM_SITE at);
#define WDM_LOW(name, ...) (WdmAtLevel(#name, WDM_HERE), name(__VA_ARGS__))
/* One that takes memory, too. */
#define WDM_TAKES(name, ...) \
    (WdmAtLevel(#name, WDM_HERE), WdmIsRefused(#name, WDM_HERE) ? STATUS_INSUFFICIENT_RESOURCES : name(__VA_ARGS__))

#define ZwCreateEvent(...) WDM_TAKES(ZwCreateEvent, __VA_ARGS__)
#define ZwOpenEvent(...) WDM_TAKES(ZwOpenEvent, __VA_ARGS__)
#define ZwCreateDirectoryObject(...) WDM_TAKES(ZwCreateDirectoryObject, __VA_ARGS__)
#define ZwOpenDirectoryObject(...) WDM_TAKES(ZwOpenDirectoryObject, __VA_ARGS__)
#define ObQueryNameString(...) WDM_LOW(ObQueryNameString, __VA_ARGS__)
#define ZwOpenKey(...) WDM_TAKES(ZwOpenKey, __VA_ARGS__)
#define ZwCreateKey(...) WDM_TAKES(ZwCreateKey, __VA_ARGS__)
#define ZwQueryKey(...) WDM_LOW(ZwQueryKey, __VA_ARGS__)
#define ZwQueryValueKey(...) WDM_LOW(ZwQueryValueKey, __VA_ARGS__)
#define ZwSetValueKey(...) WDM_TAKES(ZwSetValueKey, __VA_ARGS__)
#define ZwDeleteKey(...) WDM_LOW(ZwDeleteKey, __VA_ARGS__)
#define ZwDeleteValueKey(...) WDM_LOW(ZwDeleteValueKey, __VA_ARGS__)
#define ZwEnumerateKey(...) WDM_LOW(ZwEnumerateKey, __VA_ARGS__)
#define ZwEnumerateValueKey(...) WDM_LOW(ZwEnumerateValueKey, __VA_ARGS__)
#define ZwFlushKey(...) WDM_LOW(ZwFlushKey, __VA_ARGS__)
#define ZwCreateFile(...) WDM_TAKES(ZwCreateFile, __VA_ARGS__)
#define ZwOpenFile(...) WDM_TAKES(ZwOpenFile, __VA_ARGS__)
#define ZwReadFile(...) WDM_LOW(ZwReadFile, __VA_ARGS__)
#define ZwWriteFile(...) WDM_LOW(ZwWriteFile, __VA_ARGS__)
#define ZwOpenSection(...) WDM_TAKES(ZwOpenSection, __VA_ARGS__)
#define ZwCreateSection(...) WDM_TAKES(ZwCreateSection, __VA_ARGS__)
#define ZwMapViewOfSection(...) WDM_TAKES(ZwMapViewOfSection, __VA_ARGS__)
#define ZwUnmapViewOfSection(...) WDM_LOW(ZwUnmapViewOfSection, __VA_ARGS__)
#define RtlQueryRegistryValues(...) WDM_TAKES(RtlQueryRegistryValues, __VA_ARGS__)
#define RtlWriteRegistryValue(...) WDM_TAKES(RtlWriteRegistryValue, __VA_ARGS__)
#define RtlDeleteRegistryValue(...) WDM_LOW(RtlDeleteRegistryValue, __VA_ARGS__)
#define IoOpenDeviceRegistryKey(...) WDM_TAKES(IoOpenDeviceRegistryKey, __VA_ARGS__)
#define IoGetDeviceProperty(...) WDM_LOW(IoGetDeviceProperty, __VA_ARGS__)
#define IoReportTargetDeviceChange(...) WDM_LOW(IoReportTargetDeviceChange, __VA_ARGS__)
#define IoDeleteSymbolicLink(...) WDM_LOW(IoDeleteSymbolicLink, __VA_ARGS__)
#define IoInitializeTimer(...) WDM_LOW(IoInitializeTimer, __VA_ARGS__)
#define RtlUnicodeStringToInteger(...) WDM_LOW(RtlUnicodeStringToInteger, __VA_ARGS__)
#define RtlIntegerToUnicodeString(...) WDM_LOW(RtlIntegerToUnicodeString, __VA_ARGS__)
#define RtlCompareUnicodeString(...) WDM_LOW(RtlCompareUnicodeString, __VA_ARGS__)
#define RtlEqualUnicodeString(...) WDM_LOW(RtlEqualUnicodeString, __VA_ARGS__)

#endif
