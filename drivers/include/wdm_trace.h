/* wdm_trace.h: stops, event logs, WMI and event tracing. A stop ends the run and says so; the others take what they get,
   say once that it goes nowhere, and return success. */
#ifndef WDM_TRACE_H
#define WDM_TRACE_H

#include "wdm_io.h"

VOID DECLSPEC_NORETURN WdmKeBugCheck(ULONG Code, ULONG_PTR A, ULONG_PTR B, ULONG_PTR C, ULONG_PTR D, WDM_SITE at);
#define KeBugCheckEx(code, a, b, c, d) \
    WdmKeBugCheck((code), (ULONG_PTR)(a), (ULONG_PTR)(b), (ULONG_PTR)(c), (ULONG_PTR)(d), WDM_HERE)
#define KeBugCheck(code) WdmKeBugCheck((code), 0, 0, 0, 0, WDM_HERE)
typedef struct _IO_ERROR_LOG_PACKET {
    UCHAR MajorFunctionCode, RetryCount;
    USHORT DumpDataSize, NumberOfStrings, StringOffset, EventCategory;
    NTSTATUS ErrorCode;
    ULONG UniqueErrorValue;
    NTSTATUS FinalStatus;
    ULONG SequenceNumber, IoControlCode;
    LARGE_INTEGER DeviceOffset;
    ULONG DumpData[1];
} IO_ERROR_LOG_PACKET, *PIO_ERROR_LOG_PACKET;
#define ERROR_LOG_MAXIMUM_SIZE 240
#define PORT_MAXIMUM_MESSAGE_LENGTH 512
PVOID IoAllocateErrorLogEntry(PVOID Object, UCHAR Size);
VOID IoWriteErrorLogEntry(PVOID Entry);
VOID IoFreeErrorLogEntry(PVOID Entry);

enum { WMIREG_ACTION_REGISTER = 1, WMIREG_ACTION_DEREGISTER = 2, WMIREG_ACTION_UPDATE_GUIDS = 4 };
NTSTATUS IoWMIRegistrationControl(PDEVICE_OBJECT Device, ULONG Action);
NTSTATUS IoWMIWriteEvent(PVOID Event);
typedef struct _WMIGUIDREGINFO { LPCGUID Guid; ULONG InstanceCount, Flags; } WMIGUIDREGINFO, *PWMIGUIDREGINFO;
enum { WMIREG_FLAG_INSTANCE_PDO = 0x20, WMIREG_FLAG_INSTANCE_BASENAME = 0x10 };
typedef enum { IrpProcessed, IrpNotCompleted, IrpNotWmi, IrpForward } SYSCTL_IRP_DISPOSITION, *PSYSCTL_IRP_DISPOSITION;
typedef enum { WmiEventControl, WmiDataBlockControl } WMIENABLEDISABLECONTROL;
typedef NTSTATUS WMI_QUERY_REGINFO_CALLBACK(PDEVICE_OBJECT Device, ULONG *Flags, PUNICODE_STRING Instance,
                                            PUNICODE_STRING *Path, PUNICODE_STRING Resource, PDEVICE_OBJECT *Pdo);
typedef NTSTATUS WMI_QUERY_DATABLOCK_CALLBACK(PDEVICE_OBJECT Device, PIRP Irp, ULONG Guid, ULONG Instance, ULONG Count,
                                              PULONG Lengths, ULONG Room, PUCHAR Buffer);
typedef NTSTATUS WMI_SET_DATABLOCK_CALLBACK(PDEVICE_OBJECT Device, PIRP Irp, ULONG Guid, ULONG Instance, ULONG Size,
                                            PUCHAR Buffer);
typedef NTSTATUS WMI_SET_DATAITEM_CALLBACK(PDEVICE_OBJECT Device, PIRP Irp, ULONG Guid, ULONG Instance, ULONG Item,
                                           ULONG Size, PUCHAR Buffer);
typedef NTSTATUS WMI_EXECUTE_METHOD_CALLBACK(PDEVICE_OBJECT Device, PIRP Irp, ULONG Guid, ULONG Instance, ULONG Method,
                                             ULONG In, ULONG Out, PUCHAR Buffer);
typedef NTSTATUS WMI_FUNCTION_CONTROL_CALLBACK(PDEVICE_OBJECT Device, PIRP Irp, ULONG Guid,
                                               WMIENABLEDISABLECONTROL Function, BOOLEAN Enable);
typedef struct _WMILIB_CONTEXT {
    ULONG GuidCount;
    PWMIGUIDREGINFO GuidList;
    WMI_QUERY_REGINFO_CALLBACK *QueryWmiRegInfo;
    WMI_QUERY_DATABLOCK_CALLBACK *QueryWmiDataBlock;
    WMI_SET_DATABLOCK_CALLBACK *SetWmiDataBlock;
    WMI_SET_DATAITEM_CALLBACK *SetWmiDataItem;
    WMI_EXECUTE_METHOD_CALLBACK *ExecuteWmiMethod;
    WMI_FUNCTION_CONTROL_CALLBACK *WmiFunctionControl;
} WMILIB_CONTEXT, *PWMILIB_CONTEXT;
NTSTATUS WmiSystemControl(PWMILIB_CONTEXT Context, PDEVICE_OBJECT Device, PIRP Irp, PSYSCTL_IRP_DISPOSITION Told);
NTSTATUS WdmWmiCompleteRequest(PDEVICE_OBJECT Device, PIRP Irp, NTSTATUS Status, ULONG Used, WDM_SITE at);
#define WmiCompleteRequest(device, irp, status, used, boost) \
    ((void)(boost), WdmWmiCompleteRequest((device), (irp), (status), (used), WDM_HERE))

typedef ULONGLONG REGHANDLE, *PREGHANDLE;
typedef VOID ETW_ENABLE_CALLBACK(const GUID *Source, ULONG Enabled, UCHAR Level, ULONGLONG Any, ULONGLONG All,
                                 PVOID Filter, PVOID Context);
typedef ETW_ENABLE_CALLBACK *PETWENABLECALLBACK;
typedef struct _EVENT_DESCRIPTOR {
    USHORT Id;
    UCHAR Version, Channel, Level, Opcode;
    USHORT Task;
    ULONGLONG Keyword;
} EVENT_DESCRIPTOR, *PEVENT_DESCRIPTOR;
typedef const EVENT_DESCRIPTOR *PCEVENT_DESCRIPTOR;
typedef struct _EVENT_DATA_DESCRIPTOR { ULONGLONG Ptr; ULONG Size, Reserved; } EVENT_DATA_DESCRIPTOR,
    *PEVENT_DATA_DESCRIPTOR;
NTSTATUS EtwRegister(const GUID *Provider, PETWENABLECALLBACK Enabled, PVOID Context, PREGHANDLE Handle);
NTSTATUS EtwUnregister(REGHANDLE Handle);
NTSTATUS EtwWrite(REGHANDLE Handle, PCEVENT_DESCRIPTOR Event, const GUID *Activity, ULONG Count,
                  PEVENT_DATA_DESCRIPTOR Data);
BOOLEAN EtwEventEnabled(REGHANDLE Handle, PCEVENT_DESCRIPTOR Event);

#endif
