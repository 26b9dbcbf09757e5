/* dma_newer.c: DMA by an adapter of version 3: lists and channels by a transfer's context, at once or as registers come, that are
   cancelled while they wait. Who has the adapter's device is the test. WRONG=N makes it wrong, at the line that says what is
   told. */
#include "../stacks/common.h"

#ifndef WRONG
#define WRONG 0
#endif
static PDEVICE_OBJECT device;
static PDMA_ADAPTER adapter, older;
static PDMA_OPERATIONS operations;
static UCHAR buffer[5 * PAGE_SIZE] __attribute__((aligned(PAGE_SIZE)));
static UCHAR contexts[2][DMA_TRANSFER_CONTEXT_SIZE_V1];
static PSCATTER_GATHER_LIST last;
static ULONG n_lists, n_channels;

static VOID GotList(PDEVICE_OBJECT DeviceObject, PIRP Irp, PSCATTER_GATHER_LIST List, PVOID Context)
{
    WDM_CHECK(DeviceObject == device && !Irp && Context == &n_lists && KeGetCurrentIrql() == DISPATCH_LEVEL);
    last = List;
    n_lists++;
}

static IO_ALLOCATION_ACTION GotChannel(PDEVICE_OBJECT DeviceObject, PIRP Irp, PVOID Base, PVOID Context)
{
    UNREFERENCED_PARAMETER(DeviceObject), UNREFERENCED_PARAMETER(Irp);
    *(PVOID *)Context = Base;
    n_channels++;
    return DeallocateObjectKeepRegisters;
}

static PMDL Describe(PVOID From, ULONG Length)
{
    PMDL mdl = IoAllocateMdl(From, Length, FALSE, FALSE, NULL);
    if (mdl)
        MmBuildMdlForNonPagedPool(mdl);
    return mdl;
}

static VOID Ask(PMDL Mdl)
{
    DMA_ADAPTER_INFO info = { .Version = DMA_ADAPTER_INFO_VERSION1 };
    DMA_TRANSFER_INFO transfer = { .Version = DMA_TRANSFER_INFO_VERSION1 };
    WDM_CHECK(operations->GetDmaAdapterInfo(adapter, &info) == STATUS_SUCCESS && info.V1.ScatterGatherLimit == 5);
    WDM_CHECK(operations->GetDmaTransferInfo(adapter, Mdl, 100, PAGE_SIZE, TRUE, &transfer) == STATUS_SUCCESS);
    WDM_CHECK(transfer.V1.ScatterGatherElementCount == 2 && transfer.V1.MapRegisterCount == 2);
}

/* A list at once, of what lies at an offset; what the device writes comes when it is put back. */
static VOID AtOnce(PMDL Mdl)
{
    PSCATTER_GATHER_LIST list = NULL;
    memset(buffer, 0, sizeof buffer);
    if (WRONG != 1)
        operations->InitializeDmaTransferContext(adapter, contexts[0]);
    if (WRONG == 2)
        older->DmaOperations->InitializeDmaTransferContext(older, contexts[1]); /* told 2: DmaVersion */
    NTSTATUS status = operations->GetScatterGatherListEx(adapter, device, contexts[0], Mdl, PAGE_SIZE - 2, 4, /* told 1: DmaContext */
                                                         DMA_SYNCHRONOUS_CALLBACK, NULL, NULL, FALSE, NULL, NULL, &list);
    if (!NT_SUCCESS(status))
        return;
    WDM_CHECK(list->NumberOfElements == 2 && list->Elements[0].Length == 2 && list->Elements[1].Length == 2);
    WDM_CHECK(WdmDmaWrite(device, list->Elements[0].Address, "ab", 2) && WdmDmaWrite(device, list->Elements[1].Address, "cd", 2));
    if (WRONG == 3)
        operations->InitializeDmaTransferContext(adapter, contexts[0]); /* told 3: DmaContext */
    operations->PutScatterGatherList(adapter, list, FALSE);
    WDM_CHECK(!memcmp(buffer + PAGE_SIZE - 2, "abcd", 5));
}

/* The adapter has five map registers. A list of four pages is there; one of two waits, and is cancelled; another one waits,
   and comes. None comes at once. */
static VOID Wait(PMDL Mdl)
{
    PSCATTER_GATHER_LIST first = NULL, none = NULL;
    n_lists = 0;
    operations->InitializeDmaTransferContext(adapter, contexts[0]);
    operations->InitializeDmaTransferContext(adapter, contexts[1]);
    if (!NT_SUCCESS(operations->GetScatterGatherListEx(adapter, device, contexts[0], Mdl, 0, 4 * PAGE_SIZE, 0, GotList, &n_lists,
                                                       TRUE, NULL, NULL, NULL)))
        return;
    WDM_CHECK(n_lists == 1);
    first = last;
    for (int i = 0; i < 2; i++) {
        NTSTATUS status = operations->GetScatterGatherListEx(adapter, device, contexts[1], Mdl, 100, PAGE_SIZE, 0, GotList, &n_lists,
                                                             TRUE, NULL, NULL, NULL);
        WDM_CHECK(!NT_SUCCESS(status) || n_lists == 1);
        if (!i && NT_SUCCESS(status))
            WDM_CHECK(operations->CancelAdapterChannel(adapter, device, contexts[1]) &&
                      !operations->CancelAdapterChannel(adapter, device, contexts[0]));
    }
    if (WRONG != 4)
        operations->PutScatterGatherList(adapter, first, TRUE);
    if (n_lists == 2)
        operations->PutScatterGatherList(adapter, last, TRUE);
    operations->InitializeDmaTransferContext(adapter, contexts[0]); /* told 4: DmaContext */
    WDM_CHECK(operations->GetScatterGatherListEx(adapter, device, contexts[0], Mdl, 0, 5 * PAGE_SIZE, DMA_SYNCHRONOUS_CALLBACK,
                                                 NULL, NULL, TRUE, NULL, NULL, &none) == STATUS_SUCCESS || !none);
    if (none)
        operations->PutScatterGatherList(adapter, none, TRUE);
}

/* Map registers, kept when the channel goes; a transfer with them in two pieces. */
static VOID Map(PMDL Mdl)
{
    struct { ULONG N; ULONG_PTR Reserved; SCATTER_GATHER_ELEMENT At[2]; } list;
    PVOID base = NULL;
    ULONG length = PAGE_SIZE;
    UCHAR got[4] = { 0 };
    memcpy(buffer + PAGE_SIZE, "tail", 4);
    operations->InitializeDmaTransferContext(adapter, contexts[0]);
    if (!NT_SUCCESS(operations->AllocateAdapterChannelEx(adapter, device, contexts[0], 2, DMA_SYNCHRONOUS_CALLBACK, NULL, NULL, &base)))
        return;
    operations->FreeAdapterObject(adapter, DeallocateObjectKeepRegisters);
    if (WRONG == 5)
        operations->FreeAdapterObject(adapter, DeallocateObjectKeepRegisters); /* told 5: DmaFreedTwice */
    WDM_CHECK(operations->MapTransferEx(adapter, Mdl, base, 100, 0, &length, TRUE, (PSCATTER_GATHER_LIST)&list, sizeof list, NULL,
                                        NULL) == STATUS_SUCCESS && length == PAGE_SIZE && list.N == 2);
    WDM_CHECK(WdmDmaRead(device, list.At[1].Address, got, 4) && !memcmp(got, "tail", 4));
    if (WRONG != 6)
        operations->FlushAdapterBuffersEx(adapter, Mdl, base, 100, length + (WRONG == 7), TRUE); /* told 7: DmaBeyond */
    KIRQL irql;
    KeRaiseIrql(DISPATCH_LEVEL, &irql);
    operations->FreeMapRegisters(adapter, base, 2); /* told 6: DmaNotFlushed */
    KeLowerIrql(irql);
}

/* The same by a routine, which keeps the registers. */
static VOID MapLater(VOID)
{
    PVOID base = NULL;
    KIRQL irql;
    n_channels = 0;
    operations->InitializeDmaTransferContext(adapter, contexts[0]);
    KeRaiseIrql(DISPATCH_LEVEL, &irql);
    if (NT_SUCCESS(operations->AllocateAdapterChannelEx(adapter, device, contexts[0], 1, 0, GotChannel, &base, NULL))) {
        WDM_CHECK(n_channels == 1 && base);
        operations->FreeMapRegisters(adapter, base, 1);
    }
    KeLowerIrql(irql);
}

static VOID Common(VOID)
{
    PHYSICAL_ADDRESS low = { .QuadPart = 0xFFFFFF }, high = { .QuadPart = 0xFFFFFFFF }, logical;
    WDM_CHECK(!operations->AllocateCommonBufferEx(adapter, &low, 16, &logical, FALSE, MM_ANY_NODE_OK));
    PVOID shared = operations->AllocateCommonBufferEx(adapter, &high, 16, &logical, FALSE, MM_ANY_NODE_OK);
    if (shared)
        operations->FreeCommonBuffer(adapter, 16, logical, shared, FALSE);
}

static VOID Unload(PDRIVER_OBJECT DriverObject) { IoDeleteDevice(DriverObject->DeviceObject); }

NTSTATUS DriverEntry(PDRIVER_OBJECT DriverObject, PUNICODE_STRING RegistryPath)
{
    UNREFERENCED_PARAMETER(RegistryPath);
    DriverObject->DriverUnload = Unload;
    return IoCreateDevice(DriverObject, 0, NULL, FILE_DEVICE_UNKNOWN, 0, FALSE, &device);
}

int main(void)
{
    PDRIVER_OBJECT driver = WdmLoadDriver("dma_newer", DriverEntry);
    ULONG registers;
    DEVICE_DESCRIPTION description = { .Version = DEVICE_DESCRIPTION_VERSION2, .Master = TRUE, .ScatterGather = TRUE,
                                       .InterfaceType = PCIBus, .MaximumLength = 4 * PAGE_SIZE };
    if (!driver)
        return WdmFinish();
    older = IoGetDmaAdapter(device, &description, &registers);
    description.Version = DEVICE_DESCRIPTION_VERSION3;
    description.DmaAddressWidth = 32;
    adapter = IoGetDmaAdapter(device, &description, &registers);
    PMDL mdl = Describe(buffer, sizeof buffer);
    if (adapter && older && mdl) {
        operations = adapter->DmaOperations;
        Ask(mdl);
        AtOnce(mdl);
        Wait(mdl);
        Map(mdl);
        MapLater();
        Common();
    }
    if (older)
        older->DmaOperations->PutDmaAdapter(older);
    if (adapter)
        adapter->DmaOperations->PutDmaAdapter(adapter);
    if (mdl)
        IoFreeMdl(mdl);
    WdmUnloadDriver(driver);
    return WdmFinish();
}
