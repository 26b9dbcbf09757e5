/* wdm_io.h: devices, packets, cancelling, remove locks, cancel-safe queues, work items. */
#ifndef WDM_IO_H
#define WDM_IO_H

#include "wdm_structures.h"

/* Devices. */
NTSTATUS WdmIoCreateDevice(PDRIVER_OBJECT Driver, ULONG Extension, DEVICE_TYPE Type, ULONG Characteristics,
                           PDEVICE_OBJECT *Device, WDM_SITE at);
NTSTATUS WdmIoCreateNamedDevice(PDRIVER_OBJECT Driver, ULONG Extension, PUNICODE_STRING Name, DEVICE_TYPE Type,
                                ULONG Characteristics, BOOLEAN Exclusive, PDEVICE_OBJECT *Device, WDM_SITE at);
#define IoCreateDevice(driver, extension, name, type, characteristics, exclusive, device) \
    WdmIoCreateNamedDevice((driver), (extension), (PUNICODE_STRING)(name), (type), (characteristics), \
                           (BOOLEAN)(exclusive), (device), WDM_HERE)
#define IoCreateDeviceSecure(driver, extension, name, type, characteristics, exclusive, sddl, guid, device) \
    ((void)(sddl), (void)(guid), IoCreateDevice(driver, extension, name, type, characteristics, exclusive, device))
PDEVICE_OBJECT WdmIoAttachDevice(PDEVICE_OBJECT Device, PDEVICE_OBJECT Target, WDM_SITE at);
NTSTATUS WdmIoAttachDeviceSafe(PDEVICE_OBJECT Device, PDEVICE_OBJECT Target, PDEVICE_OBJECT *Lower, WDM_SITE at);
VOID WdmIoDetachDevice(PDEVICE_OBJECT Lower, WDM_SITE at);
VOID WdmIoDeleteDevice(PDEVICE_OBJECT Device, WDM_SITE at);
PDEVICE_OBJECT IoGetAttachedDevice(PDEVICE_OBJECT Device);
#define IoAttachDeviceToDeviceStack(device, target) WdmIoAttachDevice((device), (target), WDM_HERE)
#define IoAttachDeviceToDeviceStackSafe(device, target, lower) \
    WdmIoAttachDeviceSafe((device), (target), (lower), WDM_HERE)
#define IoDetachDevice(lower) WdmIoDetachDevice((lower), WDM_HERE)
#define IoDeleteDevice(device) WdmIoDeleteDevice((device), WDM_HERE)
PDEVICE_OBJECT WdmIoGetAttachedDeviceReference(PDEVICE_OBJECT Device, WDM_SITE at);
#define IoGetAttachedDeviceReference(device) WdmIoGetAttachedDeviceReference((device), WDM_HERE)
PDEVICE_OBJECT WdmIoGetLowerDeviceObject(PDEVICE_OBJECT Device, WDM_SITE at);
PDEVICE_OBJECT IoGetRelatedDeviceObject(PFILE_OBJECT File);
#define IoGetLowerDeviceObject(device) WdmIoGetLowerDeviceObject((device), WDM_HERE)
#define IoAttachDevice(device, name, lower) WdmIoAttachDeviceByName((device), (name), (lower), WDM_HERE)
NTSTATUS WdmIoAttachDeviceByName(PDEVICE_OBJECT Device, PUNICODE_STRING Name, PDEVICE_OBJECT *Lower, WDM_SITE at);
#define IoIsWdmVersionAvailable(major, minor) ((BOOLEAN)((major) < 6 || ((major) == 6 && (minor) <= 0x10)))
#define WDM_MAJORVERSION 0x06
#define WDM_MINORVERSION 0x00
NTSTATUS WdmIoAllocateDriverObjectExtension(PDRIVER_OBJECT Driver, PVOID Id, ULONG Bytes, PVOID *Extension);
#define IoAllocateDriverObjectExtension(driver, id, bytes, extension) \
    WdmIoAllocateDriverObjectExtension((driver), (PVOID)(id), (bytes), (PVOID *)(extension))
PVOID IoGetDriverObjectExtension(PDRIVER_OBJECT Driver, PVOID Id);
VOID IoRegisterDriverReinitialization(PDRIVER_OBJECT Driver, PDRIVER_REINITIALIZE Routine, PVOID Context);
#define IoRegisterBootDriverReinitialization IoRegisterDriverReinitialization
#define IoRegisterShutdownNotification(device) ((void)(device), STATUS_SUCCESS)
#define IoRegisterLastChanceShutdownNotification(device) ((void)(device), STATUS_SUCCESS)
#define IoUnregisterShutdownNotification(device) ((void)(device))
#define IoGetInitialStack() ((PVOID)0)
VOID IoGetStackLimits(PULONG_PTR Low, PULONG_PTR High);
ULONG_PTR IoGetRemainingStackSize(VOID);

/* Names, links, interfaces, properties: what Plug and Play keeps of devices. */
NTSTATUS WdmIoCreateSymbolicLink(PUNICODE_STRING Link, PUNICODE_STRING Device, WDM_SITE at);
#define IoCreateSymbolicLink(link, device) WdmIoCreateSymbolicLink((link), (device), WDM_HERE)
#define IoCreateUnprotectedSymbolicLink IoCreateSymbolicLink
NTSTATUS WdmIoCreateDriver(PUNICODE_STRING Name, PDRIVER_INITIALIZE Entry, WDM_SITE at);
#define IoCreateDriver(name, entry) WdmIoCreateDriver((name), (entry), WDM_HERE)
NTSTATUS IoDeleteSymbolicLink(PUNICODE_STRING Link);
NTSTATUS WdmIoRegisterDeviceInterface(PDEVICE_OBJECT Device, const GUID *Class, PUNICODE_STRING Reference,
                                      PUNICODE_STRING Link, WDM_SITE at);
#define IoRegisterDeviceInterface(device, class, reference, link) \
    WdmIoRegisterDeviceInterface((device), (class), (reference), (link), WDM_HERE)
NTSTATUS WdmIoSetInterfaceState(PUNICODE_STRING Link, BOOLEAN Enable, WDM_SITE at);
#define IoSetDeviceInterfaceState(link, enable) \
    (WdmAtLevel("IoSetDeviceInterfaceState", WDM_HERE), WdmIoSetInterfaceState((link), (enable), WDM_HERE))
NTSTATUS WdmIoGetDeviceInterfaces(const GUID *Class, PDEVICE_OBJECT Device, ULONG Flags, PWSTR *Links, WDM_SITE at);
#define IoGetDeviceInterfaces(class, device, flags, links) \
    WdmIoGetDeviceInterfaces((class), (device), (flags), (links), WDM_HERE)
NTSTATUS WdmIoGetDeviceObjectPointer(PUNICODE_STRING Name, PFILE_OBJECT *File, PDEVICE_OBJECT *Device, WDM_SITE at);
#define IoGetDeviceObjectPointer(name, access, file, device) \
    ((void)(access), WdmIoGetDeviceObjectPointer((name), (file), (device), WDM_HERE))
NTSTATUS IoGetDeviceProperty(PDEVICE_OBJECT Device, DEVICE_REGISTRY_PROPERTY Property, ULONG Length, PVOID Buffer,
                             PULONG Needed);
NTSTATUS IoSetDevicePropertyData(PDEVICE_OBJECT Device, const DEVPROPKEY *Key, LCID Locale, ULONG Flags,
                                 DEVPROPTYPE Type, ULONG Size, PVOID Data);
NTSTATUS IoGetDevicePropertyData(PDEVICE_OBJECT Device, const DEVPROPKEY *Key, LCID Locale, ULONG Flags, ULONG Size,
                                 PVOID Data, PULONG Needed, PDEVPROPTYPE Type);
NTSTATUS IoOpenDeviceRegistryKey(PDEVICE_OBJECT Device, ULONG Which, ACCESS_MASK Access, PHANDLE Key);
NTSTATUS IoOpenDeviceInterfaceRegistryKey(PUNICODE_STRING Link, ACCESS_MASK Access, PHANDLE Key);
NTSTATUS WdmRegisterNotification(IO_NOTIFICATION_EVENT_CATEGORY Category, ULONG Flags, PVOID Data, PDRIVER_OBJECT Driver,
                                 PDRIVER_NOTIFICATION_CALLBACK_ROUTINE Routine, PVOID Context, PVOID *Entry, WDM_SITE at);
#define IoRegisterPlugPlayNotification(category, flags, data, driver, routine, context, entry) \
    WdmRegisterNotification((category), (flags), (PVOID)(data), (driver), (routine), (context), (entry), WDM_HERE)
NTSTATUS WdmUnregisterNotification(PVOID Entry, WDM_SITE at);
#define IoUnregisterPlugPlayNotification(entry) WdmUnregisterNotification((entry), WDM_HERE)
#define IoUnregisterPlugPlayNotificationEx IoUnregisterPlugPlayNotification
typedef VOID DEVICE_CHANGE_COMPLETE_CALLBACK(PVOID Context);
typedef DEVICE_CHANGE_COMPLETE_CALLBACK *PDEVICE_CHANGE_COMPLETE_CALLBACK;
NTSTATUS IoReportTargetDeviceChange(PDEVICE_OBJECT Device, PVOID Notification);
NTSTATUS IoReportTargetDeviceChangeAsynchronous(PDEVICE_OBJECT Device, PVOID Notification,
                                                PDEVICE_CHANGE_COMPLETE_CALLBACK Callback, PVOID Context);
VOID WdmInvalidateRelations(PDEVICE_OBJECT Device, DEVICE_RELATION_TYPE Type, WDM_SITE at);
#define IoInvalidateDeviceRelations(device, type) WdmInvalidateRelations((device), (type), WDM_HERE)
VOID IoInvalidateDeviceState(PDEVICE_OBJECT Device);
#define IoRequestDeviceEject(device) ((void)(device))
#define IoAdjustPagingPathCount(count, more) ((void)((more) ? InterlockedIncrement(count) : InterlockedDecrement(count)))

/* Packets. */
PIRP WdmIoAllocateIrp(CCHAR Size, WDM_SITE at);
VOID WdmIoFreeIrp(PIRP Irp, WDM_SITE at);
VOID WdmIoReuseIrp(PIRP Irp, NTSTATUS Status, WDM_SITE at);
PIO_STACK_LOCATION WdmIoGetNextIrpStackLocation(PIRP Irp, WDM_SITE at);
VOID WdmIoCopyToNext(PIRP Irp, WDM_SITE at);
VOID WdmIoSkip(PIRP Irp, WDM_SITE at);
VOID WdmIoSetCompletionRoutine(PIRP Irp, PIO_COMPLETION_ROUTINE Routine, PVOID Context, UCHAR Flags, WDM_SITE at);
VOID WdmIoMarkIrpPending(PIRP Irp, WDM_SITE at);
NTSTATUS WdmIoCallDriver(PDEVICE_OBJECT Target, PIRP Irp, WDM_SITE at);
VOID WdmIoCompleteRequest(PIRP Irp, WDM_SITE at);
BOOLEAN WdmIoForwardIrpSynchronously(PDEVICE_OBJECT Target, PIRP Irp, WDM_SITE at);
#define IoAllocateIrp(size, quota) ((void)(quota), WdmIoAllocateIrp((size), WDM_HERE))
#define IoFreeIrp(irp) WdmIoFreeIrp((irp), WDM_HERE)
#define IoReuseIrp(irp, status) WdmIoReuseIrp((irp), (status), WDM_HERE)
PIRP WdmIoMakeAssociatedIrp(PIRP Master, CCHAR Size, WDM_SITE at);
VOID WdmIoSetNextIrpStackLocation(PIRP Irp, WDM_SITE at);
#define IoAllocateIrpEx(device, size, quota) ((void)(device), IoAllocateIrp(size, quota))
VOID WdmIoInitializeIrp(PIRP Irp, USHORT Bytes, CCHAR Size, WDM_SITE at);
#define IoInitializeIrp(irp, bytes, size) WdmIoInitializeIrp((irp), (USHORT)(bytes), (CCHAR)(size), WDM_HERE)
#define IoMakeAssociatedIrp(master, size) WdmIoMakeAssociatedIrp((master), (size), WDM_HERE)
#define IoSetNextIrpStackLocation(irp) WdmIoSetNextIrpStackLocation((irp), WDM_HERE)
#define IoGetFunctionCodeFromCtlCode(code) (((code) >> 2) & 0xfff)
#define IoGetRequestorProcess(irp) ((void)(irp), PsGetCurrentProcess())
#define IoGetRequestorProcessId(irp) ((void)(irp), 4u)
#define IoGetTopLevelIrp() ((PIRP)NULL)
#define IoIs32bitProcess(irp) ((void)(irp), FALSE)
#define IoIsOperationSynchronous(irp) ((BOOLEAN)(((irp)->Flags & IRP_SYNCHRONOUS_API) != 0))
#define IoIsErrorUserInduced(status) \
    ((status) == STATUS_DEVICE_NOT_READY || (status) == STATUS_IO_TIMEOUT || (status) == STATUS_MEDIA_WRITE_PROTECTED || \
     (status) == STATUS_NO_MEDIA_IN_DEVICE || (status) == STATUS_VERIFY_REQUIRED || \
     (status) == STATUS_UNRECOGNIZED_MEDIA || (status) == STATUS_WRONG_VOLUME)
#define IoGetCurrentIrpStackLocation(irp) ((irp)->Tail.Overlay.CurrentStackLocation)
#define IoGetNextIrpStackLocation(irp) WdmIoGetNextIrpStackLocation((irp), WDM_HERE)
#define IoCopyCurrentIrpStackLocationToNext(irp) WdmIoCopyToNext((irp), WDM_HERE)
#define IoSkipCurrentIrpStackLocation(irp) WdmIoSkip((irp), WDM_HERE)
#define IoSetCompletionRoutine(irp, routine, context, success, error, cancel) \
    WdmIoSetCompletionRoutine((irp), (routine), (context), \
        (UCHAR)(((success) ? SL_INVOKE_ON_SUCCESS : 0) | ((error) ? SL_INVOKE_ON_ERROR : 0) | \
                ((cancel) ? SL_INVOKE_ON_CANCEL : 0)), WDM_HERE)
#define IoSetCompletionRoutineEx(device, irp, routine, context, success, error, cancel) \
    ((void)(device), WdmIsRefused("IoSetCompletionRoutineEx", WDM_HERE) ? STATUS_INSUFFICIENT_RESOURCES : \
        (IoSetCompletionRoutine(irp, routine, context, success, error, cancel), STATUS_SUCCESS))
BOOLEAN WdmIsRefused(const char *Name, WDM_SITE at); /* whether the run refuses the memory for this call */
#define IoMarkIrpPending(irp) WdmIoMarkIrpPending((irp), WDM_HERE)
#define IoCallDriver(target, irp) WdmIoCallDriver((target), (irp), WDM_HERE)
#define IofCallDriver IoCallDriver
#define PoCallDriver IoCallDriver
#define IoCompleteRequest(irp, boost) ((void)(boost), WdmIoCompleteRequest((irp), WDM_HERE))
#define IofCompleteRequest IoCompleteRequest
#define IoForwardIrpSynchronously(target, irp) WdmIoForwardIrpSynchronously((target), (irp), WDM_HERE)
VOID WdmPoStartNext(PIRP Irp, WDM_SITE at);
#define PoStartNextPowerIrp(irp) WdmPoStartNext((irp), WDM_HERE)
VOID WdmIsOld(const char *File); /* of a driver for a Windows before Vista, which has to call it */
#if defined(NTDDI_VERSION) && NTDDI_VERSION < 0x06000000
__attribute__((constructor)) static void wdm_is_old(void) { WdmIsOld(__BASE_FILE__); }
#endif
#define IoSizeOfIrp(n) ((USHORT)(sizeof(IRP) + (n) * sizeof(IO_STACK_LOCATION)))
typedef VOID REQUEST_POWER_COMPLETE(PDEVICE_OBJECT DeviceObject, UCHAR Minor, POWER_STATE State, PVOID Context,
                                    PIO_STATUS_BLOCK Iosb);
typedef REQUEST_POWER_COMPLETE *PREQUEST_POWER_COMPLETE;
NTSTATUS WdmPoRequestPowerIrp(PDEVICE_OBJECT Device, UCHAR Minor, POWER_STATE State, PREQUEST_POWER_COMPLETE Complete,
                              PVOID Context, PIRP *Irp, WDM_SITE at);
#define PoRequestPowerIrp(device, minor, state, complete, context, irp) \
    WdmPoRequestPowerIrp((device), (minor), (state), (complete), (context), (irp), WDM_HERE)
POWER_STATE PoSetPowerState(PDEVICE_OBJECT Device, POWER_STATE_TYPE Type, POWER_STATE State);
#define PoSetSystemState(flags) ((void)(flags))
#define PoRegisterDeviceForIdleDetection(device, slow, fast, state) \
    ((void)(device), (void)(slow), (void)(fast), (void)(state), (PULONG)NULL)
#define PoSetDeviceBusy(idle) ((void)(idle))

/* Packets that the I/O manager builds: at their end their status goes to Iosb, Event is set, and they are freed. */
PIRP WdmBuildControl(ULONG Code, PDEVICE_OBJECT Device, PVOID In, ULONG InLength, PVOID Out, ULONG OutLength,
                     BOOLEAN Internal, PKEVENT Event, PIO_STATUS_BLOCK Iosb, WDM_SITE at);
PIRP WdmBuildFsd(ULONG Major, PDEVICE_OBJECT Device, PVOID Buffer, ULONG Length, PLARGE_INTEGER Offset, PKEVENT Event,
                 PIO_STATUS_BLOCK Iosb, WDM_SITE at);
#define IoBuildDeviceIoControlRequest(code, device, in, in_length, out, out_length, internal, event, iosb) \
    WdmBuildControl((code), (device), (in), (in_length), (out), (out_length), (internal), (event), (iosb), WDM_HERE)
#define IoBuildSynchronousFsdRequest(major, device, buffer, length, offset, event, iosb) \
    WdmBuildFsd((major), (device), (buffer), (length), (offset), (event), (iosb), WDM_HERE)
PIRP WdmBuildAsynchronousFsd(ULONG Major, PDEVICE_OBJECT Device, PVOID Buffer, ULONG Length, PLARGE_INTEGER Offset,
                             PIO_STATUS_BLOCK Iosb, WDM_SITE at);
#define IoBuildAsynchronousFsdRequest(major, device, buffer, length, offset, iosb) \
    WdmBuildAsynchronousFsd((major), (device), (buffer), (length), (offset), (iosb), WDM_HERE)

/* MDLs: wdm_mm.h has the rest. */
PMDL WdmIoAllocateMdl(PVOID Address, ULONG Length, BOOLEAN Secondary, PIRP Irp, WDM_SITE at);
VOID WdmIoFreeMdl(PMDL Mdl, WDM_SITE at);
VOID WdmIoBuildPartialMdl(PMDL Source, PMDL Target, PVOID Address, ULONG Length, WDM_SITE at);
#define IoAllocateMdl(address, length, secondary, quota, irp) \
    ((void)(quota), WdmIoAllocateMdl((PVOID)(address), (length), (BOOLEAN)(secondary), (irp), WDM_HERE))
#define IoFreeMdl(mdl) WdmIoFreeMdl((mdl), WDM_HERE)
#define IoBuildPartialMdl(source, target, address, length) \
    WdmIoBuildPartialMdl((source), (target), (address), (length), WDM_HERE)

/* Cancelling. */
PDRIVER_CANCEL WdmIoSetCancelRoutine(PIRP Irp, PDRIVER_CANCEL Routine, WDM_SITE at);
BOOLEAN WdmIoCancelIrp(PIRP Irp, WDM_SITE at);
VOID WdmIoAcquireCancelSpinLock(PKIRQL Irql, WDM_SITE at);
VOID WdmIoReleaseCancelSpinLock(KIRQL Irql, WDM_SITE at);
#define IoSetCancelRoutine(irp, routine) WdmIoSetCancelRoutine((irp), (routine), WDM_HERE)
#define IoCancelIrp(irp) WdmIoCancelIrp((irp), WDM_HERE)
#define IoAcquireCancelSpinLock(irql) WdmIoAcquireCancelSpinLock((irql), WDM_HERE)
#define IoReleaseCancelSpinLock(irql) WdmIoReleaseCancelSpinLock((irql), WDM_HERE)

/* Cancel-safe queues. The driver's routines are called as the kit says; the queue's packets are held by its device. */
typedef struct _IO_CSQ IO_CSQ, *PIO_CSQ;
typedef struct _IO_CSQ_IRP_CONTEXT { ULONG Type; PIRP Irp; PIO_CSQ Csq; } IO_CSQ_IRP_CONTEXT, *PIO_CSQ_IRP_CONTEXT;
typedef VOID IO_CSQ_INSERT_IRP(PIO_CSQ Csq, PIRP Irp);
typedef NTSTATUS IO_CSQ_INSERT_IRP_EX(PIO_CSQ Csq, PIRP Irp, PVOID InsertContext);
typedef VOID IO_CSQ_REMOVE_IRP(PIO_CSQ Csq, PIRP Irp);
typedef PIRP IO_CSQ_PEEK_NEXT_IRP(PIO_CSQ Csq, PIRP Irp, PVOID PeekContext);
typedef VOID IO_CSQ_ACQUIRE_LOCK(PIO_CSQ Csq, PKIRQL Irql);
typedef VOID IO_CSQ_RELEASE_LOCK(PIO_CSQ Csq, KIRQL Irql);
typedef VOID IO_CSQ_COMPLETE_CANCELED_IRP(PIO_CSQ Csq, PIRP Irp);
typedef IO_CSQ_INSERT_IRP *PIO_CSQ_INSERT_IRP;
typedef IO_CSQ_INSERT_IRP_EX *PIO_CSQ_INSERT_IRP_EX;
typedef IO_CSQ_REMOVE_IRP *PIO_CSQ_REMOVE_IRP;
typedef IO_CSQ_PEEK_NEXT_IRP *PIO_CSQ_PEEK_NEXT_IRP;
typedef IO_CSQ_ACQUIRE_LOCK *PIO_CSQ_ACQUIRE_LOCK;
typedef IO_CSQ_RELEASE_LOCK *PIO_CSQ_RELEASE_LOCK;
typedef IO_CSQ_COMPLETE_CANCELED_IRP *PIO_CSQ_COMPLETE_CANCELED_IRP;
struct _IO_CSQ {
    ULONG Type;
    union { PIO_CSQ_INSERT_IRP CsqInsertIrp; PIO_CSQ_INSERT_IRP_EX CsqInsertIrpEx; }; /* the second by Type */
    PIO_CSQ_REMOVE_IRP CsqRemoveIrp;
    PIO_CSQ_PEEK_NEXT_IRP CsqPeekNextIrp;
    PIO_CSQ_ACQUIRE_LOCK CsqAcquireLock;
    PIO_CSQ_RELEASE_LOCK CsqReleaseLock;
    PIO_CSQ_COMPLETE_CANCELED_IRP CsqCompleteCanceledIrp;
    PVOID ReservePointer;
};
enum { IO_TYPE_CSQ_IRP_CONTEXT = 1, IO_TYPE_CSQ = 2, IO_TYPE_CSQ_EX = 3 };
NTSTATUS IoCsqInitialize(PIO_CSQ Csq, PIO_CSQ_INSERT_IRP Insert, PIO_CSQ_REMOVE_IRP Remove, PIO_CSQ_PEEK_NEXT_IRP Peek,
                         PIO_CSQ_ACQUIRE_LOCK Acquire, PIO_CSQ_RELEASE_LOCK Release,
                         PIO_CSQ_COMPLETE_CANCELED_IRP Complete);
NTSTATUS IoCsqInitializeEx(PIO_CSQ Csq, PIO_CSQ_INSERT_IRP_EX Insert, PIO_CSQ_REMOVE_IRP Remove,
                           PIO_CSQ_PEEK_NEXT_IRP Peek, PIO_CSQ_ACQUIRE_LOCK Acquire, PIO_CSQ_RELEASE_LOCK Release,
                           PIO_CSQ_COMPLETE_CANCELED_IRP Complete);
NTSTATUS WdmIoCsqInsertIrp(PIO_CSQ Csq, PIRP Irp, PIO_CSQ_IRP_CONTEXT Context, PVOID InsertContext, WDM_SITE at);
PIRP WdmIoCsqRemoveNextIrp(PIO_CSQ Csq, PVOID PeekContext, WDM_SITE at);
PIRP WdmIoCsqRemoveIrp(PIO_CSQ Csq, PIO_CSQ_IRP_CONTEXT Context, WDM_SITE at);
#define IoCsqInsertIrp(csq, irp, context) ((void)WdmIoCsqInsertIrp((csq), (irp), (context), NULL, WDM_HERE))
#define IoCsqInsertIrpEx(csq, irp, context, more) WdmIoCsqInsertIrp((csq), (irp), (context), (more), WDM_HERE)
#define IoCsqRemoveNextIrp(csq, peek) WdmIoCsqRemoveNextIrp((csq), (peek), WDM_HERE)
#define IoCsqRemoveIrp(csq, context) WdmIoCsqRemoveIrp((csq), (context), WDM_HERE)

/* Remove locks: in a device's extension. */
typedef struct _IO_REMOVE_LOCK_COMMON_BLOCK {
    BOOLEAN Removed, Reserved[3];
    LONG IoCount; /* the acquisitions, and one until it is drained */
    union { KEVENT RemoveEvent; struct { int HostNumber; BOOLEAN HostBound; }; };
} IO_REMOVE_LOCK_COMMON_BLOCK;
typedef struct _IO_REMOVE_LOCK { IO_REMOVE_LOCK_COMMON_BLOCK Common; } IO_REMOVE_LOCK, *PIO_REMOVE_LOCK;
VOID WdmIoInitializeRemoveLock(PIO_REMOVE_LOCK Lock, WDM_SITE at);
NTSTATUS WdmIoAcquireRemoveLock(PIO_REMOVE_LOCK Lock, PVOID Tag, WDM_SITE at);
VOID WdmIoReleaseRemoveLock(PIO_REMOVE_LOCK Lock, PVOID Tag, WDM_SITE at);
VOID WdmIoReleaseRemoveLockAndWait(PIO_REMOVE_LOCK Lock, PVOID Tag, WDM_SITE at);
#define IoInitializeRemoveLock(lock, tag, minutes, high) \
    ((void)(tag), (void)(minutes), (void)(high), WdmIoInitializeRemoveLock((lock), WDM_HERE))
#define IoAcquireRemoveLock(lock, tag) WdmIoAcquireRemoveLock((lock), (tag), WDM_HERE)
#define IoReleaseRemoveLock(lock, tag) WdmIoReleaseRemoveLock((lock), (tag), WDM_HERE)
#define IoReleaseRemoveLockAndWait(lock, tag) WdmIoReleaseRemoveLockAndWait((lock), (tag), WDM_HERE)
#define IoInitializeRemoveLockEx(lock, tag, minutes, high, size) \
    ((void)(size), IoInitializeRemoveLock((lock), (tag), (minutes), (high)))
#define IoAcquireRemoveLockEx(lock, tag, file, line, size) \
    ((void)(file), (void)(line), (void)(size), IoAcquireRemoveLock((lock), (tag)))
#define IoReleaseRemoveLockEx(lock, tag, size) ((void)(size), IoReleaseRemoveLock((lock), (tag)))
#define IoReleaseRemoveLockAndWaitEx(lock, tag, size) ((void)(size), IoReleaseRemoveLockAndWait((lock), (tag)))

/* Work items and a device's timer, run by threads of the host. */
typedef struct _IO_WORKITEM IO_WORKITEM, *PIO_WORKITEM;
typedef VOID IO_WORKITEM_ROUTINE(PDEVICE_OBJECT DeviceObject, PVOID Context);
typedef IO_WORKITEM_ROUTINE *PIO_WORKITEM_ROUTINE;
typedef VOID IO_WORKITEM_ROUTINE_EX(PVOID IoObject, PVOID Context, PIO_WORKITEM Item);
typedef IO_WORKITEM_ROUTINE_EX *PIO_WORKITEM_ROUTINE_EX;
typedef VOID IO_TIMER_ROUTINE(PDEVICE_OBJECT DeviceObject, PVOID Context);
typedef IO_TIMER_ROUTINE *PIO_TIMER_ROUTINE;
typedef enum { CriticalWorkQueue, DelayedWorkQueue, HyperCriticalWorkQueue, NormalWorkQueue } WORK_QUEUE_TYPE;
PIO_WORKITEM WdmIoAllocateWorkItem(PDEVICE_OBJECT Device, WDM_SITE at);
#define IoAllocateWorkItem(device) WdmIoAllocateWorkItem((device), WDM_HERE)
VOID WdmIoQueueWorkItem(PIO_WORKITEM Item, PIO_WORKITEM_ROUTINE Routine, PVOID Context, WDM_SITE at);
#define IoQueueWorkItem(item, routine, queue, context) \
    ((void)(queue), WdmIoQueueWorkItem((item), (routine), (context), WDM_HERE))
VOID WdmIoFreeWorkItem(PIO_WORKITEM Item, WDM_SITE at);
#define IoFreeWorkItem(item) WdmIoFreeWorkItem((item), WDM_HERE)
VOID WdmIoQueueWorkItemEx(PIO_WORKITEM Item, PIO_WORKITEM_ROUTINE_EX Routine, PVOID Context, WDM_SITE at);
#define IoQueueWorkItemEx(item, routine, queue, context) \
    ((void)(queue), WdmIoQueueWorkItemEx((item), (routine), (context), WDM_HERE))
ULONG IoSizeofWorkItem(VOID);
VOID WdmIoInitializeWorkItem(PVOID Object, PIO_WORKITEM Item, WDM_SITE at);
#define IoInitializeWorkItem(object, item) WdmIoInitializeWorkItem((object), (item), WDM_HERE)
VOID WdmIoUninitializeWorkItem(PIO_WORKITEM Item, WDM_SITE at);
#define IoUninitializeWorkItem(item) WdmIoUninitializeWorkItem((item), WDM_HERE)
typedef VOID WORKER_THREAD_ROUTINE(PVOID Parameter);
typedef WORKER_THREAD_ROUTINE *PWORKER_THREAD_ROUTINE;
typedef struct _WORK_QUEUE_ITEM { LIST_ENTRY List; PWORKER_THREAD_ROUTINE WorkerRoutine; PVOID Parameter; } WORK_QUEUE_ITEM,
    *PWORK_QUEUE_ITEM;
#define ExInitializeWorkItem(item, routine, parameter) \
    ((void)(*(item) = (WORK_QUEUE_ITEM){ .WorkerRoutine = (routine), .Parameter = (parameter) }))
VOID WdmExQueueWorkItem(PWORK_QUEUE_ITEM Item, WDM_SITE at);
#define ExQueueWorkItem(item, queue) ((void)(queue), WdmExQueueWorkItem((item), WDM_HERE))
NTSTATUS IoInitializeTimer(PDEVICE_OBJECT Device, PIO_TIMER_ROUTINE Routine, PVOID Context);
VOID IoStartTimer(PDEVICE_OBJECT Device);
VOID IoStopTimer(PDEVICE_OBJECT Device);

#endif
