/* dma.c: DMA, as far as the stack mover.c doesn't: lists that wait for map registers, chained MDLs, a list in memory of the
   driver's own, transfers of a device that has a channel, a common buffer. Who has the adapter's device is the test. WRONG=N
   makes it wrong, at the line that says what is told. */
#include "../stacks/common.h"

#ifndef WRONG
#define WRONG 0
#endif
static PDEVICE_OBJECT device;
static PDMA_ADAPTER adapter, slave; /* slave: of a device without scatter-gather */
static ULONG registers, slave_registers;
static UCHAR buffer[5 * PAGE_SIZE] __attribute__((aligned(PAGE_SIZE)));
static PSCATTER_GATHER_LIST lists[2];
static ULONG n_lists;
static PVOID base;
static ULONG channels;

static VOID GotList(PDEVICE_OBJECT DeviceObject, PIRP Irp, PSCATTER_GATHER_LIST List, PVOID Context)
{
    WDM_CHECK(DeviceObject == device && !Irp && Context == &n_lists && KeGetCurrentIrql() == DISPATCH_LEVEL);
    lists[n_lists++ % 2] = List;
}

static IO_ALLOCATION_ACTION GotChannel(PDEVICE_OBJECT DeviceObject, PIRP Irp, PVOID Base, PVOID Context)
{
    UNREFERENCED_PARAMETER(DeviceObject), UNREFERENCED_PARAMETER(Irp), UNREFERENCED_PARAMETER(Context);
    channels++;
    base = Base;
    return KeepObject;
}

static PMDL Describe(PVOID From, ULONG Length)
{
    PMDL mdl = IoAllocateMdl(From, Length, FALSE, FALSE, NULL);
    if (mdl && WRONG != 1)
        MmBuildMdlForNonPagedPool(mdl);
    return mdl;
}

static NTSTATUS GetList(PMDL Mdl, ULONG Length, BOOLEAN ToDevice)
{
    KIRQL irql;
    KeRaiseIrql(DISPATCH_LEVEL, &irql);
    NTSTATUS status = adapter->DmaOperations->GetScatterGatherList(adapter, device, Mdl, /* told 1: DmaNotLocked */
                                                                   MmGetMdlVirtualAddress(Mdl), Length,
                                                                   GotList, &n_lists, ToDevice);
    KeLowerIrql(irql);
    return status;
}

/* The adapter has five map registers: a list of four pages and then one of two, which waits; one of six never comes. */
static VOID WaitFor(PMDL Four, PMDL Two)
{
    n_lists = 0;
    if (!WDM_CHECK(registers == 5 && GetList(Four, 4 * PAGE_SIZE, TRUE) == STATUS_SUCCESS && n_lists == 1))
        return;
    const BOOLEAN waits = WDM_CHECK(GetList(Two, PAGE_SIZE, TRUE) == STATUS_SUCCESS && n_lists == 1);
    adapter->DmaOperations->PutScatterGatherList(adapter, lists[0], TRUE);
    if (!waits)
        return;
    WDM_CHECK(n_lists == 2 && lists[1]->NumberOfElements == 2 && lists[1]->Elements[0].Length == PAGE_SIZE - 100);
    if (WRONG != 2)
        adapter->DmaOperations->PutScatterGatherList(adapter, lists[1], TRUE);
}

static VOID Wait(VOID)
{
    PMDL four = Describe(buffer, 4 * PAGE_SIZE), two = Describe(buffer + 100, PAGE_SIZE);
    if (four && two)
        WaitFor(four, two);
    if (four)
        IoFreeMdl(four);
    if (two)
        IoFreeMdl(two);
}

/* Two MDLs that describe one transfer: what the device writes comes when the list is put back. */
static VOID ChainOf(PDEVICE_OBJECT Pdo, PMDL First)
{
    n_lists = 0;
    if (!WDM_CHECK(GetList(First, 10, FALSE) == STATUS_SUCCESS && n_lists == 1 && lists[0]->NumberOfElements == 2))
        return;
    WDM_CHECK(lists[0]->Elements[0].Length == 6 && lists[0]->Elements[1].Length == 4);
    WDM_CHECK(WdmDmaWrite(Pdo, lists[0]->Elements[0].Address, "abcdef", 6));
    WDM_CHECK(WdmDmaWrite(Pdo, lists[0]->Elements[1].Address, "ghij", 4) && !buffer[10]);
    const PHYSICAL_ADDRESS address = lists[0]->Elements[0].Address;
    adapter->DmaOperations->PutScatterGatherList(adapter, lists[0], FALSE); /* told 3: DmaAfterEnd */
    WDM_CHECK(!memcmp(buffer + 10, "abcdef", 7) && !memcmp(buffer + 50, "ghij", 5));
    if (WRONG == 3)
        WdmDmaWrite(Pdo, address, "late", 4);
}

static VOID Chain(PDEVICE_OBJECT Pdo)
{
    PMDL first = Describe(buffer + 10, 6), second = Describe(buffer + 50, 4);
    memset(buffer, 0, 100);
    if (first && second) {
        first->Next = second;
        ChainOf(Pdo, first);
        first->Next = NULL;
    }
    if (first)
        IoFreeMdl(first);
    if (second)
        IoFreeMdl(second);
}

/* A list in the driver's own memory. */
static VOID Build(VOID)
{
    ULONG size, needed;
    KIRQL irql;
    PMDL mdl = Describe(buffer + 4000, 200);
    if (!mdl)
        return;
    WDM_CHECK(adapter->DmaOperations->CalculateScatterGatherList(adapter, mdl, MmGetMdlVirtualAddress(mdl), 200, &size, &needed) ==
              STATUS_SUCCESS && needed == 2);
    PVOID room = ExAllocatePool2(POOL_FLAG_NON_PAGED, size, 'tsil');
    n_lists = 0;
    KeRaiseIrql(DISPATCH_LEVEL, &irql);
    if (room) {
        WDM_CHECK(adapter->DmaOperations->BuildScatterGatherList(adapter, device, mdl, MmGetMdlVirtualAddress(mdl), 200, GotList,
                                                                 &n_lists, TRUE, room, size - 1) == STATUS_BUFFER_TOO_SMALL);
        if (WDM_CHECK(adapter->DmaOperations->BuildScatterGatherList(adapter, device, mdl, MmGetMdlVirtualAddress(mdl), 200,
                                                                     GotList, &n_lists, TRUE, room, size) == STATUS_SUCCESS)) {
            WDM_CHECK(n_lists == 1 && lists[0] == room && lists[0]->Elements[0].Length == 96);
            adapter->DmaOperations->PutScatterGatherList(adapter, room, TRUE);
        }
        ExFreePoolWithTag(room, 'tsil');
    }
    KeLowerIrql(irql);
    IoFreeMdl(mdl);
}

/* One channel: who comes second gets it when the first one frees it. Without scatter-gather a transfer is one piece. */
static VOID UseChannel(PDEVICE_OBJECT Pdo, PMDL Mdl)
{
    ULONG length = PAGE_SIZE + 8;
    UCHAR got[4] = { 0 };
    PDMA_OPERATIONS operations = slave->DmaOperations;
    memcpy(buffer + PAGE_SIZE, "tail", 4);
    channels = 0;
    WDM_CHECK(operations->AllocateAdapterChannel(slave, device, 9, GotChannel, NULL) == STATUS_INSUFFICIENT_RESOURCES);
    if (!WDM_CHECK(operations->AllocateAdapterChannel(slave, device, 2, GotChannel, NULL) == STATUS_SUCCESS && channels == 1))
        return;
    const BOOLEAN waits =
        WDM_CHECK(operations->AllocateAdapterChannel(slave, device, 1, GotChannel, NULL) == STATUS_SUCCESS && channels == 1);
    PHYSICAL_ADDRESS at = operations->MapTransfer(slave, Mdl, base, buffer, &length, TRUE);
    WDM_CHECK(length == PAGE_SIZE + 8);
    at.QuadPart += PAGE_SIZE;
    WDM_CHECK(WdmDmaRead(Pdo, at, got, 4) && !memcmp(got, "tail", 4));
    if (WRONG == 4)
        operations->FlushAdapterBuffers(slave, Mdl, base, buffer, length + 1, TRUE); /* told 4: DmaBeyond */
    else
        operations->FlushAdapterBuffers(slave, Mdl, base, buffer, length, TRUE);
    operations->FreeAdapterChannel(slave);
    if (!waits)
        return;
    WDM_CHECK(channels == 2);
    length = 1;
    if (WRONG == 5)
        operations->MapTransfer(slave, Mdl, base, buffer, &length, TRUE);
    operations->FreeAdapterChannel(slave); /* told 5: DmaNotFlushed */
    if (WRONG == 6)
        operations->FreeAdapterChannel(slave); /* told 6: DmaFreedTwice */
}

static VOID Channel(PDEVICE_OBJECT Pdo)
{
    KIRQL irql;
    PMDL mdl = Describe(buffer, 2 * PAGE_SIZE);
    if (!mdl)
        return;
    KeRaiseIrql(DISPATCH_LEVEL, &irql);
    UseChannel(Pdo, mdl);
    KeLowerIrql(irql);
    IoFreeMdl(mdl);
}

/* Both see it at once. */
static VOID Common(PDEVICE_OBJECT Pdo)
{
    PHYSICAL_ADDRESS logical;
    ULONG number = 0;
    PULONG shared = adapter->DmaOperations->AllocateCommonBuffer(adapter, 16, &logical, FALSE);
    if (!shared)
        return;
    shared[1] = 77;
    logical.QuadPart += 4;
    WDM_CHECK(WdmDmaRead(Pdo, logical, &number, 4) && number == 77);
    number = 78;
    WDM_CHECK(WdmDmaWrite(Pdo, logical, &number, 4) && shared[1] == 78);
    logical.QuadPart -= 4;
    if (WRONG == 7)
        shared[4] = 1;
    adapter->DmaOperations->FreeCommonBuffer(adapter, WRONG == 8 ? 8 : 16, logical, shared, FALSE); /* told 7: DmaBeyond */ /* told 8: DmaFreedTwice */
}

static VOID Put(VOID)
{
    if (slave)
        slave->DmaOperations->PutDmaAdapter(slave);
    if (adapter)
        adapter->DmaOperations->PutDmaAdapter(adapter); /* told 2: DmaKept */
}

static VOID Unload(PDRIVER_OBJECT DriverObject) { IoDeleteDevice(DriverObject->DeviceObject); }

NTSTATUS DriverEntry(PDRIVER_OBJECT DriverObject, PUNICODE_STRING RegistryPath)
{
    UNREFERENCED_PARAMETER(RegistryPath);
    DriverObject->DriverUnload = Unload;
    return IoCreateDevice(DriverObject, 0, NULL, FILE_DEVICE_UNKNOWN, 0, FALSE, &device);
}

int main(void)
{
    PDRIVER_OBJECT driver = WdmLoadDriver("dma", DriverEntry);
    DEVICE_DESCRIPTION description = { .Version = DEVICE_DESCRIPTION_VERSION2, .Master = TRUE, .ScatterGather = TRUE,
                                       .InterfaceType = PCIBus, .MaximumLength = 4 * PAGE_SIZE };
    if (!driver)
        return WdmFinish();
    adapter = IoGetDmaAdapter(device, &description, &registers);
    description.ScatterGather = FALSE;
    slave = IoGetDmaAdapter(device, &description, &slave_registers);
    if (adapter && slave) {
        Wait();
        Chain(device);
        Build();
        Channel(device);
        Common(device);
    }
    Put();
    WdmUnloadDriver(driver);
    return WdmFinish();
}
