/*
 * wdm_dma.h: DMA. A device has addresses of its own (logical ones), which aren't the driver's: a test's device reads and
 * writes by them (WdmDmaRead, WdmDmaWrite). What a device writes comes into the driver's buffer when the list is put back or
 * the transfer flushed, as with Driver Verifier; a common buffer is seen by both at once.
 *
 * The calls are members of DmaOperations; as macros they say in which line they are made.
 */
#ifndef WDM_DMA_H
#define WDM_DMA_H

#include "wdm_io.h"

#define DEVICE_DESCRIPTION_VERSION 0
#define DEVICE_DESCRIPTION_VERSION1 1
#define DEVICE_DESCRIPTION_VERSION2 2
#define DEVICE_DESCRIPTION_VERSION3 3
typedef enum _DMA_WIDTH { Width8Bits, Width16Bits, Width32Bits, Width64Bits, WidthNoWrap, MaximumDmaWidth } DMA_WIDTH, *PDMA_WIDTH;
typedef enum _DMA_SPEED { Compatible, TypeA, TypeB, TypeC, TypeF, MaximumDmaSpeed } DMA_SPEED, *PDMA_SPEED;
typedef struct _DEVICE_DESCRIPTION {
    ULONG Version;
    BOOLEAN Master, ScatterGather, DemandMode, AutoInitialize, Dma32BitAddresses, IgnoreCount, Reserved1, Dma64BitAddresses;
    ULONG BusNumber, DmaChannel;
    INTERFACE_TYPE InterfaceType;
    DMA_WIDTH DmaWidth;
    DMA_SPEED DmaSpeed;
    ULONG MaximumLength, DmaPort, DmaAddressWidth, DmaControllerInstance, DmaRequestLine;
    PHYSICAL_ADDRESS DeviceAddress;
} DEVICE_DESCRIPTION, *PDEVICE_DESCRIPTION;
typedef struct _SCATTER_GATHER_ELEMENT { PHYSICAL_ADDRESS Address; ULONG Length; ULONG_PTR Reserved; } SCATTER_GATHER_ELEMENT,
    *PSCATTER_GATHER_ELEMENT;
typedef struct _SCATTER_GATHER_LIST {
    ULONG NumberOfElements;
    ULONG_PTR Reserved;
    SCATTER_GATHER_ELEMENT Elements[];
} SCATTER_GATHER_LIST, *PSCATTER_GATHER_LIST;
typedef struct _DMA_OPERATIONS DMA_OPERATIONS, *PDMA_OPERATIONS;
typedef struct _DMA_ADAPTER { USHORT Version, Size; PDMA_OPERATIONS DmaOperations; } DMA_ADAPTER, *PDMA_ADAPTER;
typedef PDMA_ADAPTER PADAPTER_OBJECT;
typedef enum _IO_ALLOCATION_ACTION { KeepObject = 1, DeallocateObject, DeallocateObjectKeepRegisters } IO_ALLOCATION_ACTION,
    *PIO_ALLOCATION_ACTION;
typedef IO_ALLOCATION_ACTION DRIVER_CONTROL(PDEVICE_OBJECT DeviceObject, PIRP Irp, PVOID MapRegisterBase, PVOID Context);
typedef DRIVER_CONTROL *PDRIVER_CONTROL;
typedef VOID DRIVER_LIST_CONTROL(PDEVICE_OBJECT DeviceObject, PIRP Irp, PSCATTER_GATHER_LIST List, PVOID Context);
typedef DRIVER_LIST_CONTROL *PDRIVER_LIST_CONTROL;

typedef VOID PUT_DMA_ADAPTER(PDMA_ADAPTER Adapter);
typedef PVOID ALLOCATE_COMMON_BUFFER(PDMA_ADAPTER Adapter, ULONG Length, PPHYSICAL_ADDRESS Logical, BOOLEAN Cache);
typedef VOID FREE_COMMON_BUFFER(PDMA_ADAPTER Adapter, ULONG Length, PHYSICAL_ADDRESS Logical, PVOID Virtual, BOOLEAN Cache);
typedef NTSTATUS ALLOCATE_ADAPTER_CHANNEL(PDMA_ADAPTER Adapter, PDEVICE_OBJECT Device, ULONG Registers, PDRIVER_CONTROL Routine,
                                          PVOID Context);
typedef BOOLEAN FLUSH_ADAPTER_BUFFERS(PDMA_ADAPTER Adapter, PMDL Mdl, PVOID Base, PVOID Va, ULONG Length, BOOLEAN ToDevice);
typedef VOID FREE_ADAPTER_CHANNEL(PDMA_ADAPTER Adapter);
typedef VOID FREE_MAP_REGISTERS(PDMA_ADAPTER Adapter, PVOID Base, ULONG Registers);
typedef PHYSICAL_ADDRESS MAP_TRANSFER(PDMA_ADAPTER Adapter, PMDL Mdl, PVOID Base, PVOID Va, PULONG Length, BOOLEAN ToDevice);
typedef ULONG GET_DMA_ALIGNMENT(PDMA_ADAPTER Adapter);
typedef ULONG READ_DMA_COUNTER(PDMA_ADAPTER Adapter);
typedef NTSTATUS GET_SCATTER_GATHER_LIST(PDMA_ADAPTER Adapter, PDEVICE_OBJECT Device, PMDL Mdl, PVOID Va, ULONG Length,
                                         PDRIVER_LIST_CONTROL Routine, PVOID Context, BOOLEAN ToDevice);
typedef VOID PUT_SCATTER_GATHER_LIST(PDMA_ADAPTER Adapter, PSCATTER_GATHER_LIST List, BOOLEAN ToDevice);
typedef NTSTATUS CALCULATE_SCATTER_GATHER_LIST_SIZE(PDMA_ADAPTER Adapter, PMDL Mdl, PVOID Va, ULONG Length, PULONG Size,
                                                    PULONG Registers);
typedef NTSTATUS BUILD_SCATTER_GATHER_LIST(PDMA_ADAPTER Adapter, PDEVICE_OBJECT Device, PMDL Mdl, PVOID Va, ULONG Length,
                                           PDRIVER_LIST_CONTROL Routine, PVOID Context, BOOLEAN ToDevice, PVOID Room,
                                           ULONG RoomLength);
/* Version 3's. */
#define DMA_TRANSFER_CONTEXT_VERSION1 1
#define DMA_TRANSFER_CONTEXT_SIZE_V1 128
#define DMA_SYNCHRONOUS_CALLBACK 1
#define DMA_ADAPTER_INFO_VERSION1 1
#define DMA_TRANSFER_INFO_VERSION1 1
#define ADAPTER_INFO_SYNCHRONOUS_CALLBACK 1
#define MM_ANY_NODE_OK 0x80000000
typedef ULONG NODE_REQUIREMENT;
typedef enum { DmaComplete, DmaAborted, DmaError, DmaCancelled } DMA_COMPLETION_STATUS;
typedef VOID DMA_COMPLETION_ROUTINE(PDMA_ADAPTER Adapter, PDEVICE_OBJECT Device, PVOID Context, DMA_COMPLETION_STATUS Status);
typedef DMA_COMPLETION_ROUTINE *PDMA_COMPLETION_ROUTINE; /* of a system's controller: never called */
typedef struct _DMA_ADAPTER_INFO_V1 {
    ULONG ReadDmaCounterAvailable, ScatterGatherLimit, DmaAddressWidth, Flags, MinimumTransferUnit;
} DMA_ADAPTER_INFO_V1, *PDMA_ADAPTER_INFO_V1;
typedef struct _DMA_ADAPTER_INFO { ULONG Version; union { DMA_ADAPTER_INFO_V1 V1; }; } DMA_ADAPTER_INFO, *PDMA_ADAPTER_INFO;
typedef struct _DMA_TRANSFER_INFO_V1 {
    ULONG MapRegisterCount, ScatterGatherElementCount, ScatterGatherListSize;
} DMA_TRANSFER_INFO_V1, *PDMA_TRANSFER_INFO_V1;
typedef struct _DMA_TRANSFER_INFO { ULONG Version; union { DMA_TRANSFER_INFO_V1 V1; }; } DMA_TRANSFER_INFO, *PDMA_TRANSFER_INFO;
typedef NTSTATUS GET_DMA_ADAPTER_INFO(PDMA_ADAPTER Adapter, PDMA_ADAPTER_INFO Info);
typedef NTSTATUS GET_DMA_TRANSFER_INFO(PDMA_ADAPTER Adapter, PMDL Mdl, ULONGLONG Offset, ULONG Length, BOOLEAN WriteOnly,
                                       PDMA_TRANSFER_INFO Info);
typedef NTSTATUS INITIALIZE_DMA_TRANSFER_CONTEXT(PDMA_ADAPTER Adapter, PVOID Transfer);
typedef PVOID ALLOCATE_COMMON_BUFFER_EX(PDMA_ADAPTER Adapter, PPHYSICAL_ADDRESS Highest, ULONG Length, PPHYSICAL_ADDRESS Logical,
                                        BOOLEAN Cache, NODE_REQUIREMENT Node);
typedef NTSTATUS ALLOCATE_ADAPTER_CHANNEL_EX(PDMA_ADAPTER Adapter, PDEVICE_OBJECT Device, PVOID Transfer, ULONG Registers,
                                             ULONG Flags, PDRIVER_CONTROL Routine, PVOID Context, PVOID *Base);
typedef BOOLEAN CANCEL_ADAPTER_CHANNEL(PDMA_ADAPTER Adapter, PDEVICE_OBJECT Device, PVOID Transfer);
typedef NTSTATUS MAP_TRANSFER_EX(PDMA_ADAPTER Adapter, PMDL Mdl, PVOID Base, ULONGLONG Offset, ULONG DeviceOffset, PULONG Length,
                                 BOOLEAN ToDevice, PSCATTER_GATHER_LIST List, ULONG ListLength, PDMA_COMPLETION_ROUTINE Completed,
                                 PVOID CompletionContext);
typedef NTSTATUS GET_SCATTER_GATHER_LIST_EX(PDMA_ADAPTER Adapter, PDEVICE_OBJECT Device, PVOID Transfer, PMDL Mdl,
                                            ULONGLONG Offset, ULONG Length, ULONG Flags, PDRIVER_LIST_CONTROL Routine,
                                            PVOID Context, BOOLEAN ToDevice, PDMA_COMPLETION_ROUTINE Completed,
                                            PVOID CompletionContext, PSCATTER_GATHER_LIST *List);
typedef NTSTATUS FLUSH_ADAPTER_BUFFERS_EX(PDMA_ADAPTER Adapter, PMDL Mdl, PVOID Base, ULONGLONG Offset, ULONG Length,
                                          BOOLEAN ToDevice);
typedef VOID FREE_ADAPTER_OBJECT(PDMA_ADAPTER Adapter, IO_ALLOCATION_ACTION Action);
typedef GET_DMA_ADAPTER_INFO *PGET_DMA_ADAPTER_INFO;
typedef GET_DMA_TRANSFER_INFO *PGET_DMA_TRANSFER_INFO;
typedef INITIALIZE_DMA_TRANSFER_CONTEXT *PINITIALIZE_DMA_TRANSFER_CONTEXT;
typedef ALLOCATE_COMMON_BUFFER_EX *PALLOCATE_COMMON_BUFFER_EX;
typedef ALLOCATE_ADAPTER_CHANNEL_EX *PALLOCATE_ADAPTER_CHANNEL_EX;
typedef CANCEL_ADAPTER_CHANNEL *PCANCEL_ADAPTER_CHANNEL;
typedef MAP_TRANSFER_EX *PMAP_TRANSFER_EX;
typedef GET_SCATTER_GATHER_LIST_EX *PGET_SCATTER_GATHER_LIST_EX;
typedef FLUSH_ADAPTER_BUFFERS_EX *PFLUSH_ADAPTER_BUFFERS_EX;
typedef FREE_ADAPTER_OBJECT *PFREE_ADAPTER_OBJECT;
typedef PUT_DMA_ADAPTER *PPUT_DMA_ADAPTER;
typedef ALLOCATE_COMMON_BUFFER *PALLOCATE_COMMON_BUFFER;
typedef FREE_COMMON_BUFFER *PFREE_COMMON_BUFFER;
typedef ALLOCATE_ADAPTER_CHANNEL *PALLOCATE_ADAPTER_CHANNEL;
typedef FLUSH_ADAPTER_BUFFERS *PFLUSH_ADAPTER_BUFFERS;
typedef FREE_ADAPTER_CHANNEL *PFREE_ADAPTER_CHANNEL;
typedef FREE_MAP_REGISTERS *PFREE_MAP_REGISTERS;
typedef MAP_TRANSFER *PMAP_TRANSFER;
typedef GET_DMA_ALIGNMENT *PGET_DMA_ALIGNMENT;
typedef READ_DMA_COUNTER *PREAD_DMA_COUNTER;
typedef GET_SCATTER_GATHER_LIST *PGET_SCATTER_GATHER_LIST;
typedef PUT_SCATTER_GATHER_LIST *PPUT_SCATTER_GATHER_LIST;
typedef CALCULATE_SCATTER_GATHER_LIST_SIZE *PCALCULATE_SCATTER_GATHER_LIST_SIZE;
typedef BUILD_SCATTER_GATHER_LIST *PBUILD_SCATTER_GATHER_LIST;
struct _DMA_OPERATIONS {
    ULONG Size;
    PPUT_DMA_ADAPTER PutDmaAdapter;
    PALLOCATE_COMMON_BUFFER AllocateCommonBuffer;
    PFREE_COMMON_BUFFER FreeCommonBuffer;
    PALLOCATE_ADAPTER_CHANNEL AllocateAdapterChannel;
    PFLUSH_ADAPTER_BUFFERS FlushAdapterBuffers;
    PFREE_ADAPTER_CHANNEL FreeAdapterChannel;
    PFREE_MAP_REGISTERS FreeMapRegisters;
    PMAP_TRANSFER MapTransfer;
    PGET_DMA_ALIGNMENT GetDmaAlignment;
    PREAD_DMA_COUNTER ReadDmaCounter;
    PGET_SCATTER_GATHER_LIST GetScatterGatherList;
    PPUT_SCATTER_GATHER_LIST PutScatterGatherList;
    PCALCULATE_SCATTER_GATHER_LIST_SIZE CalculateScatterGatherList;
    PBUILD_SCATTER_GATHER_LIST BuildScatterGatherList;
    PVOID HostHasNone1; /* BuildMdlFromScatterGatherList: it isn't there, as are the others of these */
    PGET_DMA_ADAPTER_INFO GetDmaAdapterInfo; /* from here on version 3's */
    PGET_DMA_TRANSFER_INFO GetDmaTransferInfo;
    PINITIALIZE_DMA_TRANSFER_CONTEXT InitializeDmaTransferContext;
    PALLOCATE_COMMON_BUFFER_EX AllocateCommonBufferEx;
    PALLOCATE_ADAPTER_CHANNEL_EX AllocateAdapterChannelEx;
    PVOID HostHasNone2; /* ConfigureAdapterChannel */
    PCANCEL_ADAPTER_CHANNEL CancelAdapterChannel;
    PMAP_TRANSFER_EX MapTransferEx;
    PGET_SCATTER_GATHER_LIST_EX GetScatterGatherListEx;
    PVOID HostHasNone3; /* BuildScatterGatherListEx */
    PFLUSH_ADAPTER_BUFFERS_EX FlushAdapterBuffersEx;
    PFREE_ADAPTER_OBJECT FreeAdapterObject;
    PVOID HostHasNone4[12]; /* CancelMappedTransfer, domains, vectors of common buffers, and so on */
};

PDMA_ADAPTER WdmIoGetDmaAdapter(PDEVICE_OBJECT Pdo, PDEVICE_DESCRIPTION Description, PULONG Registers, WDM_SITE at);
#define IoGetDmaAdapter(pdo, description, registers) WdmIoGetDmaAdapter((pdo), (description), (registers), WDM_HERE)
PDMA_ADAPTER WdmDmaAt(PDMA_ADAPTER Adapter, WDM_SITE at);
#define PutDmaAdapter(adapter) PutDmaAdapter(WdmDmaAt((adapter), WDM_HERE))
#define AllocateCommonBuffer(adapter, ...) AllocateCommonBuffer(WdmDmaAt((adapter), WDM_HERE), __VA_ARGS__)
#define FreeCommonBuffer(adapter, ...) FreeCommonBuffer(WdmDmaAt((adapter), WDM_HERE), __VA_ARGS__)
#define AllocateAdapterChannel(adapter, ...) AllocateAdapterChannel(WdmDmaAt((adapter), WDM_HERE), __VA_ARGS__)
#define FlushAdapterBuffers(adapter, ...) FlushAdapterBuffers(WdmDmaAt((adapter), WDM_HERE), __VA_ARGS__)
#define FreeAdapterChannel(adapter) FreeAdapterChannel(WdmDmaAt((adapter), WDM_HERE))
#define FreeMapRegisters(adapter, ...) FreeMapRegisters(WdmDmaAt((adapter), WDM_HERE), __VA_ARGS__)
#define MapTransfer(adapter, ...) MapTransfer(WdmDmaAt((adapter), WDM_HERE), __VA_ARGS__)
#define GetScatterGatherList(adapter, ...) GetScatterGatherList(WdmDmaAt((adapter), WDM_HERE), __VA_ARGS__)
#define PutScatterGatherList(adapter, ...) PutScatterGatherList(WdmDmaAt((adapter), WDM_HERE), __VA_ARGS__)
#define BuildScatterGatherList(adapter, ...) BuildScatterGatherList(WdmDmaAt((adapter), WDM_HERE), __VA_ARGS__)
#define GetDmaAdapterInfo(adapter, ...) GetDmaAdapterInfo(WdmDmaAt((adapter), WDM_HERE), __VA_ARGS__)
#define GetDmaTransferInfo(adapter, ...) GetDmaTransferInfo(WdmDmaAt((adapter), WDM_HERE), __VA_ARGS__)
#define InitializeDmaTransferContext(adapter, ...) InitializeDmaTransferContext(WdmDmaAt((adapter), WDM_HERE), __VA_ARGS__)
#define AllocateCommonBufferEx(adapter, ...) AllocateCommonBufferEx(WdmDmaAt((adapter), WDM_HERE), __VA_ARGS__)
#define AllocateAdapterChannelEx(adapter, ...) AllocateAdapterChannelEx(WdmDmaAt((adapter), WDM_HERE), __VA_ARGS__)
#define CancelAdapterChannel(adapter, ...) CancelAdapterChannel(WdmDmaAt((adapter), WDM_HERE), __VA_ARGS__)
#define MapTransferEx(adapter, ...) MapTransferEx(WdmDmaAt((adapter), WDM_HERE), __VA_ARGS__)
#define GetScatterGatherListEx(adapter, ...) GetScatterGatherListEx(WdmDmaAt((adapter), WDM_HERE), __VA_ARGS__)
#define FlushAdapterBuffersEx(adapter, ...) FlushAdapterBuffersEx(WdmDmaAt((adapter), WDM_HERE), __VA_ARGS__)
#define FreeAdapterObject(adapter, action) FreeAdapterObject(WdmDmaAt((adapter), WDM_HERE), (action))
#define IoAllocateAdapterChannel(adapter, ...) (adapter)->DmaOperations->AllocateAdapterChannel((adapter), __VA_ARGS__)
#define IoFlushAdapterBuffers(adapter, ...) (adapter)->DmaOperations->FlushAdapterBuffers((adapter), __VA_ARGS__)
#define IoFreeAdapterChannel(adapter) (adapter)->DmaOperations->FreeAdapterChannel(adapter)
#define IoFreeMapRegisters(adapter, ...) (adapter)->DmaOperations->FreeMapRegisters((adapter), __VA_ARGS__)
#define IoMapTransfer(adapter, ...) (adapter)->DmaOperations->MapTransfer((adapter), __VA_ARGS__)
#define HalAllocateCommonBuffer(adapter, ...) (adapter)->DmaOperations->AllocateCommonBuffer((adapter), __VA_ARGS__)
#define HalFreeCommonBuffer(adapter, ...) (adapter)->DmaOperations->FreeCommonBuffer((adapter), __VA_ARGS__)
#define HalGetDmaAlignment(adapter) (adapter)->DmaOperations->GetDmaAlignment(adapter)
#define HalReadDmaCounter(adapter) (adapter)->DmaOperations->ReadDmaCounter(adapter)

#endif
