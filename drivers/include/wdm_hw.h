/* wdm_hw.h: interrupts, which a test raises by WdmInterrupt; StartIo and its deferred call; registers and ports as memory;
   buses. */
#ifndef WDM_HW_H
#define WDM_HW_H

#include "wdm_io.h"

typedef struct _KINTERRUPT *PKINTERRUPT;
typedef BOOLEAN KSERVICE_ROUTINE(PKINTERRUPT Interrupt, PVOID Context);
typedef KSERVICE_ROUTINE *PKSERVICE_ROUTINE;
typedef BOOLEAN KSYNCHRONIZE_ROUTINE(PVOID Context);
typedef KSYNCHRONIZE_ROUTINE *PKSYNCHRONIZE_ROUTINE;
typedef enum _KINTERRUPT_MODE { LevelSensitive, Latched } KINTERRUPT_MODE;
NTSTATUS WdmIoConnectInterrupt(PKINTERRUPT *Interrupt, PKSERVICE_ROUTINE Routine, PVOID Context, ULONG Vector,
                               KIRQL Irql, WDM_SITE at);
#define IoConnectInterrupt(interrupt, routine, context, lock, vector, irql, synchronize, mode, share, mask, floats) \
    ((void)(lock), (void)(synchronize), (void)(mode), (void)(share), (void)(mask), (void)(floats), \
     WdmIoConnectInterrupt((interrupt), (routine), (context), (vector), (irql), WDM_HERE))
VOID WdmIoDisconnectInterrupt(PKINTERRUPT Interrupt, WDM_SITE at);
#define IoDisconnectInterrupt(interrupt) WdmIoDisconnectInterrupt((interrupt), WDM_HERE)
/* The same of Windows Vista and later. A line-based one is raised by the line of its device (WdmLineOf); there are no
   messages, so that who asks for them gets the line, where it has a routine for that. */
enum { CONNECT_FULLY_SPECIFIED = 1, CONNECT_LINE_BASED, CONNECT_MESSAGE_BASED, CONNECT_FULLY_SPECIFIED_GROUP,
       CONNECT_CURRENT_VERSION = 4 };
typedef BOOLEAN KMESSAGE_SERVICE_ROUTINE(PKINTERRUPT Interrupt, PVOID Context, ULONG Message);
typedef KMESSAGE_SERVICE_ROUTINE *PKMESSAGE_SERVICE_ROUTINE;
typedef struct _IO_INTERRUPT_MESSAGE_INFO *PIO_INTERRUPT_MESSAGE_INFO;
typedef struct _IO_CONNECT_INTERRUPT_FULLY_SPECIFIED_PARAMETERS {
    PDEVICE_OBJECT PhysicalDeviceObject;
    PKINTERRUPT *InterruptObject;
    PKSERVICE_ROUTINE ServiceRoutine;
    PVOID ServiceContext;
    PKSPIN_LOCK SpinLock;
    KIRQL SynchronizeIrql;
    BOOLEAN FloatingSave, ShareVector;
    ULONG Vector;
    KIRQL Irql;
    KINTERRUPT_MODE InterruptMode;
    KAFFINITY ProcessorEnableMask;
    USHORT Group;
} IO_CONNECT_INTERRUPT_FULLY_SPECIFIED_PARAMETERS, *PIO_CONNECT_INTERRUPT_FULLY_SPECIFIED_PARAMETERS;
typedef struct _IO_CONNECT_INTERRUPT_LINE_BASED_PARAMETERS {
    PDEVICE_OBJECT PhysicalDeviceObject;
    PKINTERRUPT *InterruptObject;
    PKSERVICE_ROUTINE ServiceRoutine;
    PVOID ServiceContext;
    PKSPIN_LOCK SpinLock;
    KIRQL SynchronizeIrql;
    BOOLEAN FloatingSave;
} IO_CONNECT_INTERRUPT_LINE_BASED_PARAMETERS, *PIO_CONNECT_INTERRUPT_LINE_BASED_PARAMETERS;
typedef struct _IO_CONNECT_INTERRUPT_MESSAGE_BASED_PARAMETERS {
    PDEVICE_OBJECT PhysicalDeviceObject;
    union { PVOID *Generic; PIO_INTERRUPT_MESSAGE_INFO *InterruptMessageTable; PKINTERRUPT *InterruptObject; } ConnectionContext;
    PKMESSAGE_SERVICE_ROUTINE MessageServiceRoutine;
    PVOID ServiceContext;
    PKSPIN_LOCK SpinLock;
    KIRQL SynchronizeIrql;
    BOOLEAN FloatingSave;
    PKSERVICE_ROUTINE FallBackServiceRoutine;
} IO_CONNECT_INTERRUPT_MESSAGE_BASED_PARAMETERS, *PIO_CONNECT_INTERRUPT_MESSAGE_BASED_PARAMETERS;
typedef struct _IO_CONNECT_INTERRUPT_PARAMETERS {
    ULONG Version;
    union {
        IO_CONNECT_INTERRUPT_FULLY_SPECIFIED_PARAMETERS FullySpecified;
        IO_CONNECT_INTERRUPT_LINE_BASED_PARAMETERS LineBased;
        IO_CONNECT_INTERRUPT_MESSAGE_BASED_PARAMETERS MessageBased;
    };
} IO_CONNECT_INTERRUPT_PARAMETERS, *PIO_CONNECT_INTERRUPT_PARAMETERS;
typedef struct _IO_DISCONNECT_INTERRUPT_PARAMETERS {
    ULONG Version;
    union { PVOID Generic; PKINTERRUPT InterruptObject; PIO_INTERRUPT_MESSAGE_INFO InterruptMessageTable; } ConnectionContext;
} IO_DISCONNECT_INTERRUPT_PARAMETERS, *PIO_DISCONNECT_INTERRUPT_PARAMETERS;
NTSTATUS WdmIoConnectInterruptEx(PIO_CONNECT_INTERRUPT_PARAMETERS Parameters, WDM_SITE at);
VOID WdmIoDisconnectInterruptEx(PIO_DISCONNECT_INTERRUPT_PARAMETERS Parameters, WDM_SITE at);
#define IoConnectInterruptEx(parameters) WdmIoConnectInterruptEx((parameters), WDM_HERE)
#define IoDisconnectInterruptEx(parameters) WdmIoDisconnectInterruptEx((parameters), WDM_HERE)
BOOLEAN WdmKeSynchronizeExecution(PKINTERRUPT Interrupt, PKSYNCHRONIZE_ROUTINE Routine, PVOID Context, WDM_SITE at);
#define KeSynchronizeExecution(interrupt, routine, context) \
    WdmKeSynchronizeExecution((interrupt), (PKSYNCHRONIZE_ROUTINE)(routine), (context), WDM_HERE)
KIRQL WdmKeAcquireInterruptSpinLock(PKINTERRUPT Interrupt, WDM_SITE at);
VOID WdmKeReleaseInterruptSpinLock(PKINTERRUPT Interrupt, KIRQL Irql, WDM_SITE at);
#define KeAcquireInterruptSpinLock(interrupt) WdmKeAcquireInterruptSpinLock((interrupt), WDM_HERE)
#define KeReleaseInterruptSpinLock(interrupt, irql) WdmKeReleaseInterruptSpinLock((interrupt), (irql), WDM_HERE)

/* StartIo, and the deferred call of a device. */
typedef VOID IO_DPC_ROUTINE(PKDPC Dpc, PDEVICE_OBJECT DeviceObject, PIRP Irp, PVOID Context);
typedef IO_DPC_ROUTINE *PIO_DPC_ROUTINE;
VOID WdmIoInitializeDpcRequest(PDEVICE_OBJECT Device, PIO_DPC_ROUTINE Routine, WDM_SITE at);
BOOLEAN WdmIoRequestDpc(PDEVICE_OBJECT Device, PIRP Irp, PVOID Context, WDM_SITE at);
#define IoInitializeDpcRequest(device, routine) WdmIoInitializeDpcRequest((device), (routine), WDM_HERE)
#define IoRequestDpc(device, irp, context) WdmIoRequestDpc((device), (irp), (context), WDM_HERE)
VOID WdmIoStartPacket(PDEVICE_OBJECT Device, PIRP Irp, PULONG Key, PDRIVER_CANCEL Cancel, WDM_SITE at);
VOID WdmIoStartNextPacket(PDEVICE_OBJECT Device, BOOLEAN Cancelable, PULONG Key, WDM_SITE at);
#define IoStartPacket(device, irp, key, cancel) WdmIoStartPacket((device), (irp), (key), (cancel), WDM_HERE)
#define IoStartNextPacket(device, cancelable) WdmIoStartNextPacket((device), (BOOLEAN)(cancelable), NULL, WDM_HERE)
#define IoStartNextPacketByKey(device, cancelable, key) \
    WdmIoStartNextPacket((device), (BOOLEAN)(cancelable), &(ULONG){ key }, WDM_HERE)
#define IoSetStartIoAttributes(device, deferred, plain) ((void)(device), (void)(deferred), (void)(plain))

/* Registers and ports are memory of the driver's own or of the test's. */
#define READ_REGISTER_UCHAR(p) (*(volatile UCHAR *)(p))
#define READ_REGISTER_USHORT(p) (*(volatile USHORT *)(p))
#define READ_REGISTER_ULONG(p) (*(volatile ULONG *)(p))
#define WRITE_REGISTER_UCHAR(p, v) ((void)(*(volatile UCHAR *)(p) = (UCHAR)(v)))
#define WRITE_REGISTER_USHORT(p, v) ((void)(*(volatile USHORT *)(p) = (USHORT)(v)))
#define WRITE_REGISTER_ULONG(p, v) ((void)(*(volatile ULONG *)(p) = (ULONG)(v)))
UCHAR READ_PORT_UCHAR(PUCHAR Port);
USHORT READ_PORT_USHORT(PUSHORT Port);
ULONG READ_PORT_ULONG(PULONG Port);
VOID WRITE_PORT_UCHAR(PUCHAR Port, UCHAR Value);
VOID WRITE_PORT_USHORT(PUSHORT Port, USHORT Value);
VOID WRITE_PORT_ULONG(PULONG Port, ULONG Value);
PVOID MmMapIoSpace(PHYSICAL_ADDRESS Address, SIZE_T Bytes, MEMORY_CACHING_TYPE Cache);
VOID MmUnmapIoSpace(PVOID Base, SIZE_T Bytes);
#define MmMapIoSpaceEx(address, bytes, protection) ((void)(protection), MmMapIoSpace((address), (bytes), MmNonCached))
ULONG HalGetBusDataByOffset(BUS_DATA_TYPE Type, ULONG Bus, ULONG Slot, PVOID Buffer, ULONG Offset, ULONG Length);
ULONG HalSetBusDataByOffset(BUS_DATA_TYPE Type, ULONG Bus, ULONG Slot, PVOID Buffer, ULONG Offset, ULONG Length);
#define HalGetBusData(type, bus, slot, buffer, n) HalGetBusDataByOffset((type), (bus), (slot), (buffer), 0, (n))
NTSTATUS HalAllocateHardwareCounters(PGROUP_AFFINITY Affinity, ULONG Count, PVOID List, PHANDLE Set);
NTSTATUS HalFreeHardwareCounters(HANDLE Set);
uint64_t __readmsr(ULONG Number);
VOID __writemsr(ULONG Number, uint64_t Value);

#endif
