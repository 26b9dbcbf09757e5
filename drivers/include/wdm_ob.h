/* wdm_ob.h: objects, their references and names, handles, the registry (WdmSetRegistry fills it), events by name or handle,
   threads. Files and sections are refused, but for those that a test made. */
#ifndef WDM_OB_H
#define WDM_OB_H

#include "wdm_ke.h"
#include "wdm_text.h"

typedef struct _OBJECT_ATTRIBUTES {
    ULONG Length;
    HANDLE RootDirectory;
    PUNICODE_STRING ObjectName;
    ULONG Attributes;
    PVOID SecurityDescriptor, SecurityQualityOfService;
} OBJECT_ATTRIBUTES, *POBJECT_ATTRIBUTES;
typedef const OBJECT_ATTRIBUTES *PCOBJECT_ATTRIBUTES;
#define OBJ_INHERIT 0x02
#define OBJ_PERMANENT 0x10
#define OBJ_EXCLUSIVE 0x20
#define OBJ_CASE_INSENSITIVE 0x40
#define OBJ_OPENIF 0x80
#define OBJ_OPENLINK 0x100
#define OBJ_KERNEL_HANDLE 0x200
#define OBJ_FORCE_ACCESS_CHECK 0x400
#define InitializeObjectAttributes(o, name, attributes, root, security) \
    ((void)(*(o) = (OBJECT_ATTRIBUTES){ sizeof(OBJECT_ATTRIBUTES), (root), (name), (attributes), (security), NULL }))
#define RTL_CONSTANT_OBJECT_ATTRIBUTES(name, attributes) \
    { sizeof(OBJECT_ATTRIBUTES), NULL, (PUNICODE_STRING)(name), (attributes), NULL, NULL }
#define EVENT_QUERY_STATE 1
#define EVENT_MODIFY_STATE 2
#define EVENT_ALL_ACCESS 0x1f0003
#define THREAD_ALL_ACCESS 0x1fffff
#define DIRECTORY_ALL_ACCESS 0xf000f
#define INVALID_HANDLE_VALUE ((HANDLE)(LONG_PTR)-1)

/* References are counted: a dereference with no reference left is told. */
typedef struct _OBJECT_TYPE *POBJECT_TYPE;
typedef struct _OBJECT_HANDLE_INFORMATION { ULONG HandleAttributes, GrantedAccess; } OBJECT_HANDLE_INFORMATION,
    *POBJECT_HANDLE_INFORMATION;
extern POBJECT_TYPE *ExEventObjectType, *IoFileObjectType, *PsThreadType, *PsProcessType, *IoDriverObjectType,
    *IoDeviceObjectType;
LONG_PTR WdmObReferenceObject(PVOID Object, WDM_SITE at);
LONG_PTR WdmObDereferenceObject(PVOID Object, WDM_SITE at);
#define ObReferenceObject(object) WdmObReferenceObject((object), WDM_HERE)
#define ObfReferenceObject(object) WdmObReferenceObject((object), WDM_HERE)
#define ObReferenceObjectWithTag(object, tag) ((void)(tag), WdmObReferenceObject((object), WDM_HERE))
#define ObDereferenceObject(object) WdmObDereferenceObject((object), WDM_HERE)
#define ObfDereferenceObject(object) WdmObDereferenceObject((object), WDM_HERE)
#define ObDereferenceObjectDeferDelete(object) ((void)WdmObDereferenceObject((object), WDM_HERE))
#define ObDereferenceObjectWithTag(object, tag) ((void)(tag), WdmObDereferenceObject((object), WDM_HERE))
#define ObReferenceObjectByPointer(object, access, type, mode) \
    ((void)(access), (void)(type), (void)(mode), WdmObReferenceObject((object), WDM_HERE), STATUS_SUCCESS)
NTSTATUS WdmObReferenceObjectByHandle(HANDLE Handle, POBJECT_TYPE Type, PVOID *Object, WDM_SITE at);
#define ObReferenceObjectByHandle(handle, access, type, mode, object, information) \
    ((void)(access), (void)(mode), (void)(information), \
     WdmObReferenceObjectByHandle((handle), (POBJECT_TYPE)(type), (PVOID *)(object), WDM_HERE))
NTSTATUS WdmZwClose(HANDLE Handle, WDM_SITE at);
#define ZwClose(handle) WdmZwClose((handle), WDM_HERE)
#define NtClose ZwClose
#define ObCloseHandle(handle, mode) ((void)(mode), WdmZwClose((handle), WDM_HERE))
NTSTATUS ZwMakeTemporaryObject(HANDLE Handle);
#define DUPLICATE_CLOSE_SOURCE 1
#define DUPLICATE_SAME_ACCESS 2
#define DUPLICATE_SAME_ATTRIBUTES 4
NTSTATUS WdmZwDuplicateObject(HANDLE Handle, PHANDLE Other, BOOLEAN Closes, WDM_SITE at);
#define ZwDuplicateObject(from, handle, to, other, access, attributes, options) \
    ((void)(from), (void)(to), (void)(access), (void)(attributes), \
     WdmZwDuplicateObject((handle), (other), ((options) & DUPLICATE_CLOSE_SOURCE) != 0, WDM_HERE))

/* What objects are called: devices, drivers, events, directories. Directories hold no names but their own. */
typedef struct _OBJECT_NAME_INFORMATION { UNICODE_STRING Name; } OBJECT_NAME_INFORMATION, *POBJECT_NAME_INFORMATION;
NTSTATUS ObQueryNameString(PVOID Object, POBJECT_NAME_INFORMATION Information, ULONG Length, PULONG Needed);
POBJECT_TYPE ObGetObjectType(PVOID Object);
NTSTATUS WdmObReferenceByName(PUNICODE_STRING Name, POBJECT_TYPE Type, PVOID *Object, WDM_SITE at);
#define ObReferenceObjectByName(name, attributes, state, access, type, mode, parse, object) \
    ((void)(attributes), (void)(state), (void)(access), (void)(mode), (void)(parse), \
     WdmObReferenceByName((name), (type), (PVOID *)(object), WDM_HERE))

/* Threads and processes: there is one process. */
NTSTATUS WdmPsCreateSystemThread(PHANDLE Handle, PKSTART_ROUTINE Start, PVOID Context, WDM_SITE at);
#define PsCreateSystemThread(handle, access, attributes, process, client, start, context) \
    ((void)(access), (void)(attributes), (void)(process), (void)(client), \
     WdmPsCreateSystemThread((handle), (PKSTART_ROUTINE)(start), (context), WDM_HERE))
typedef struct _EPROCESS *PEPROCESS, *PKPROCESS;
PEPROCESS PsGetCurrentProcess(VOID);
#define IoGetCurrentProcess PsGetCurrentProcess
HANDLE PsGetCurrentThreadId(VOID);
HANDLE PsGetThreadId(PETHREAD Thread);
NTSTATUS WdmPsLookupThread(HANDLE Number, PETHREAD *Thread, WDM_SITE at);
#define PsLookupThreadByThreadId(number, thread) WdmPsLookupThread((number), (thread), WDM_HERE)
NTSTATUS WdmPsLookupProcess(HANDLE Number, PEPROCESS *Process, WDM_SITE at);
#define PsLookupProcessByProcessId(number, process) WdmPsLookupProcess((number), (process), WDM_HERE)
extern PEPROCESS PsInitialSystemProcess;
#define PsGetCurrentProcessId() ((HANDLE)(ULONG_PTR)4)
#define PsGetProcessId(process) ((void)(process), PsGetCurrentProcessId())
#define PsGetThreadProcessId(thread) ((void)(thread), PsGetCurrentProcessId())
BOOLEAN PsIsSystemThread(PETHREAD Thread);
KPROCESSOR_MODE ExGetPreviousMode(VOID);
#define ZwCurrentProcess() ((HANDLE)(LONG_PTR)-1)
#define NtCurrentProcess ZwCurrentProcess
#define ZwCurrentThread() ((HANDLE)(LONG_PTR)-2)
#define NtCurrentThread ZwCurrentThread

/* Events. */
NTSTATUS ZwCreateEvent(PHANDLE Handle, ACCESS_MASK Access, POBJECT_ATTRIBUTES Attributes, EVENT_TYPE Type,
                       BOOLEAN State);
NTSTATUS ZwOpenEvent(PHANDLE Handle, ACCESS_MASK Access, POBJECT_ATTRIBUTES Attributes);
NTSTATUS WdmZwSetEvent(HANDLE Handle, PLONG Before, WDM_SITE at);
#define ZwSetEvent(handle, before) WdmZwSetEvent((handle), (before), WDM_HERE)
NTSTATUS ZwClearEvent(HANDLE Handle);
NTSTATUS ZwResetEvent(HANDLE Handle, PLONG Before);
NTSTATUS WdmZwWaitForSingleObject(HANDLE Handle, PLARGE_INTEGER Timeout, WDM_SITE at);
#define ZwWaitForSingleObject(handle, alertable, timeout) \
    ((void)(alertable), WdmZwWaitForSingleObject((handle), (PLARGE_INTEGER)(timeout), WDM_HERE))
PKEVENT IoCreateNotificationEvent(PUNICODE_STRING Name, PHANDLE Handle);
PKEVENT IoCreateSynchronizationEvent(PUNICODE_STRING Name, PHANDLE Handle);

/* The registry. */
#define KEY_QUERY_VALUE 0x01
#define KEY_SET_VALUE 0x02
#define KEY_CREATE_SUB_KEY 0x04
#define KEY_ENUMERATE_SUB_KEYS 0x08
#define KEY_NOTIFY 0x10
#define KEY_READ 0x20019
#define KEY_WRITE 0x20006
#define KEY_ALL_ACCESS 0xf003f
enum { REG_NONE, REG_SZ, REG_EXPAND_SZ, REG_BINARY, REG_DWORD, REG_DWORD_BIG_ENDIAN, REG_LINK, REG_MULTI_SZ,
       REG_RESOURCE_LIST, REG_FULL_RESOURCE_DESCRIPTOR, REG_RESOURCE_REQUIREMENTS_LIST, REG_QWORD,
       REG_DWORD_LITTLE_ENDIAN = 4 };
enum { REG_OPTION_NON_VOLATILE, REG_OPTION_VOLATILE, REG_CREATED_NEW_KEY = 1, REG_OPENED_EXISTING_KEY = 2 };
typedef enum _KEY_INFORMATION_CLASS { KeyBasicInformation, KeyNodeInformation, KeyFullInformation, KeyNameInformation }
    KEY_INFORMATION_CLASS;
typedef enum _KEY_VALUE_INFORMATION_CLASS { KeyValueBasicInformation, KeyValueFullInformation,
                                            KeyValuePartialInformation } KEY_VALUE_INFORMATION_CLASS;
typedef struct _KEY_BASIC_INFORMATION {
    LARGE_INTEGER LastWriteTime;
    ULONG TitleIndex, NameLength;
    WCHAR Name[1];
} KEY_BASIC_INFORMATION, *PKEY_BASIC_INFORMATION;
typedef struct _KEY_FULL_INFORMATION {
    LARGE_INTEGER LastWriteTime;
    ULONG TitleIndex, ClassOffset, ClassLength, SubKeys, MaxNameLen, MaxClassLen, Values, MaxValueNameLen,
        MaxValueDataLen;
    WCHAR Class[1];
} KEY_FULL_INFORMATION, *PKEY_FULL_INFORMATION;
typedef struct _KEY_NAME_INFORMATION { ULONG NameLength; WCHAR Name[1]; } KEY_NAME_INFORMATION, *PKEY_NAME_INFORMATION;
typedef struct _KEY_VALUE_BASIC_INFORMATION {
    ULONG TitleIndex, Type, NameLength;
    WCHAR Name[1];
} KEY_VALUE_BASIC_INFORMATION, *PKEY_VALUE_BASIC_INFORMATION;
typedef struct _KEY_VALUE_FULL_INFORMATION {
    ULONG TitleIndex, Type, DataOffset, DataLength, NameLength;
    WCHAR Name[1];
} KEY_VALUE_FULL_INFORMATION, *PKEY_VALUE_FULL_INFORMATION;
typedef struct _KEY_VALUE_PARTIAL_INFORMATION {
    ULONG TitleIndex, Type, DataLength;
    UCHAR Data[1];
} KEY_VALUE_PARTIAL_INFORMATION, *PKEY_VALUE_PARTIAL_INFORMATION;
NTSTATUS ZwOpenKey(PHANDLE Handle, ACCESS_MASK Access, POBJECT_ATTRIBUTES Attributes);
NTSTATUS ZwCreateKey(PHANDLE Handle, ACCESS_MASK Access, POBJECT_ATTRIBUTES Attributes, ULONG Index,
                     PUNICODE_STRING Class, ULONG Options, PULONG Disposition);
NTSTATUS ZwQueryValueKey(HANDLE Key, PUNICODE_STRING Name, KEY_VALUE_INFORMATION_CLASS Class, PVOID Information,
                         ULONG Length, PULONG Needed);
NTSTATUS ZwSetValueKey(HANDLE Key, PUNICODE_STRING Name, ULONG Index, ULONG Type, PVOID Data, ULONG Size);
NTSTATUS ZwDeleteValueKey(HANDLE Key, PUNICODE_STRING Name);
NTSTATUS ZwDeleteKey(HANDLE Key);
NTSTATUS ZwEnumerateKey(HANDLE Key, ULONG Index, KEY_INFORMATION_CLASS Class, PVOID Information, ULONG Length,
                        PULONG Needed);
NTSTATUS ZwEnumerateValueKey(HANDLE Key, ULONG Index, KEY_VALUE_INFORMATION_CLASS Class, PVOID Information,
                             ULONG Length, PULONG Needed);
NTSTATUS ZwQueryKey(HANDLE Key, KEY_INFORMATION_CLASS Class, PVOID Information, ULONG Length, PULONG Needed);
NTSTATUS ZwFlushKey(HANDLE Key);
#define ZwOpenKeyEx(handle, access, attributes, options) ((void)(options), ZwOpenKey((handle), (access), (attributes)))

typedef NTSTATUS RTL_QUERY_REGISTRY_ROUTINE(PWSTR Name, ULONG Type, PVOID Data, ULONG Length, PVOID Context,
                                            PVOID EntryContext);
typedef RTL_QUERY_REGISTRY_ROUTINE *PRTL_QUERY_REGISTRY_ROUTINE;
typedef struct _RTL_QUERY_REGISTRY_TABLE {
    PRTL_QUERY_REGISTRY_ROUTINE QueryRoutine;
    ULONG Flags;
    PWSTR Name;
    PVOID EntryContext;
    ULONG DefaultType;
    PVOID DefaultData;
    ULONG DefaultLength;
} RTL_QUERY_REGISTRY_TABLE, *PRTL_QUERY_REGISTRY_TABLE;
#define RTL_QUERY_REGISTRY_SUBKEY 0x01
#define RTL_QUERY_REGISTRY_TOPKEY 0x02
#define RTL_QUERY_REGISTRY_REQUIRED 0x04
#define RTL_QUERY_REGISTRY_NOVALUE 0x08
#define RTL_QUERY_REGISTRY_NOEXPAND 0x10
#define RTL_QUERY_REGISTRY_DIRECT 0x20
#define RTL_QUERY_REGISTRY_DELETE 0x40
#define RTL_QUERY_REGISTRY_TYPECHECK 0x100
#define RTL_QUERY_REGISTRY_TYPECHECK_SHIFT 24
#define RTL_REGISTRY_ABSOLUTE 0
#define RTL_REGISTRY_SERVICES 1
#define RTL_REGISTRY_CONTROL 2
#define RTL_REGISTRY_DEVICEMAP 4
#define RTL_REGISTRY_HANDLE 0x40000000
#define RTL_REGISTRY_OPTIONAL 0x80000000
NTSTATUS RtlQueryRegistryValues(ULONG Where, PCWSTR Path, PRTL_QUERY_REGISTRY_TABLE Table, PVOID Context,
                                PVOID Environment);
NTSTATUS RtlWriteRegistryValue(ULONG Where, PCWSTR Path, PCWSTR Name, ULONG Type, PVOID Data, ULONG Length);
NTSTATUS RtlDeleteRegistryValue(ULONG Where, PCWSTR Path, PCWSTR Name);
NTSTATUS RtlCheckRegistryKey(ULONG Where, PWSTR Path);
NTSTATUS RtlCreateRegistryKey(ULONG Where, PWSTR Path);

/* Files, sections, directories. */
typedef struct _IO_STATUS_BLOCK IO_STATUS_BLOCK, *PIO_STATUS_BLOCK;
typedef VOID IO_APC_ROUTINE(PVOID Context, PIO_STATUS_BLOCK Iosb, ULONG Reserved);
typedef IO_APC_ROUTINE *PIO_APC_ROUTINE;
typedef enum _SECTION_INHERIT { ViewShare = 1, ViewUnmap = 2 } SECTION_INHERIT;
#define SECTION_QUERY 1
#define SECTION_MAP_WRITE 2
#define SECTION_MAP_READ 4
#define SECTION_ALL_ACCESS 0xf001f
#define SEC_COMMIT 0x8000000
NTSTATUS ZwCreateFile(PHANDLE File, ACCESS_MASK Access, POBJECT_ATTRIBUTES Attributes, PIO_STATUS_BLOCK Iosb,
                      PLARGE_INTEGER Size, ULONG FileAttributes, ULONG Share, ULONG Disposition, ULONG Options,
                      PVOID Ea, ULONG EaLength);
NTSTATUS ZwOpenFile(PHANDLE File, ACCESS_MASK Access, POBJECT_ATTRIBUTES Attributes, PIO_STATUS_BLOCK Iosb, ULONG Share,
                    ULONG Options);
NTSTATUS ZwReadFile(HANDLE File, HANDLE Event, PIO_APC_ROUTINE Apc, PVOID Context, PIO_STATUS_BLOCK Iosb, PVOID Buffer,
                    ULONG Length, PLARGE_INTEGER Offset, PULONG Key);
NTSTATUS ZwWriteFile(HANDLE File, HANDLE Event, PIO_APC_ROUTINE Apc, PVOID Context, PIO_STATUS_BLOCK Iosb, PVOID Buffer,
                     ULONG Length, PLARGE_INTEGER Offset, PULONG Key);
NTSTATUS ZwQueryInformationFile(HANDLE File, PIO_STATUS_BLOCK Iosb, PVOID Information, ULONG Length, ULONG Class);
NTSTATUS ZwSetInformationFile(HANDLE File, PIO_STATUS_BLOCK Iosb, PVOID Information, ULONG Length, ULONG Class);
NTSTATUS ZwCreateSection(PHANDLE Section, ACCESS_MASK Access, POBJECT_ATTRIBUTES Attributes, PLARGE_INTEGER Size,
                         ULONG Protection, ULONG Allocation, HANDLE File);
NTSTATUS ZwOpenSection(PHANDLE Section, ACCESS_MASK Access, POBJECT_ATTRIBUTES Attributes);
NTSTATUS ZwMapViewOfSection(HANDLE Section, HANDLE Process, PVOID *Base, ULONG_PTR ZeroBits, SIZE_T Commit,
                            PLARGE_INTEGER Offset, PSIZE_T Size, SECTION_INHERIT Inherit, ULONG Allocation,
                            ULONG Protection);
NTSTATUS ZwUnmapViewOfSection(HANDLE Process, PVOID Base);
NTSTATUS ZwCreateDirectoryObject(PHANDLE Directory, ACCESS_MASK Access, POBJECT_ATTRIBUTES Attributes);
NTSTATUS ZwOpenDirectoryObject(PHANDLE Directory, ACCESS_MASK Access, POBJECT_ATTRIBUTES Attributes);

/* Time. */
typedef struct _TIME_FIELDS {
    CSHORT Year, Month, Day, Hour, Minute, Second, Milliseconds, Weekday;
} TIME_FIELDS, *PTIME_FIELDS;
VOID RtlTimeToTimeFields(PLARGE_INTEGER Time, PTIME_FIELDS Fields);
BOOLEAN RtlTimeFieldsToTime(PTIME_FIELDS Fields, PLARGE_INTEGER Time);
#define ExSystemTimeToLocalTime(system, local) ((void)(*(local) = *(system)))
#define ExLocalTimeToSystemTime(local, system) ((void)(*(system) = *(local)))

#endif
