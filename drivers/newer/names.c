/* names.c: what newer drivers call besides timers and DMA: bitmaps, checked sums, share access, routines by name, and work
   items in memory of their own. WRONG=N makes it wrong, at the line that says what is told. */
#include "../stacks/common.h"
#include <ntintsafe.h>

#ifndef WRONG
#define WRONG 0
#endif
typedef struct { PDEVICE_OBJECT Self; KEVENT Done; WORK_QUEUE_ITEM Plain; LONG Ran; PIO_WORKITEM Item; } EXTENSION, *PEXTENSION;

static VOID Plainly(PVOID Parameter)
{
    PEXTENSION ext = Parameter;
    InterlockedIncrement(&ext->Ran);
    KeSetEvent(&ext->Done, IO_NO_INCREMENT, FALSE);
}

static VOID WithItem(PVOID IoObject, PVOID Context, PIO_WORKITEM Item)
{
    PEXTENSION ext = Context;
    WDM_CHECK(IoObject == (PVOID)ext->Self && Item == ext->Item);
    InterlockedIncrement(&ext->Ran);
    KeSetEvent(&ext->Done, IO_NO_INCREMENT, FALSE);
}

static VOID Await(PEXTENSION ext)
{
    KeWaitForSingleObject(&ext->Done, Executive, KernelMode, FALSE, NULL);
    KeClearEvent(&ext->Done);
}

static VOID Work(PEXTENSION ext)
{
    ext->Item = ExAllocatePool2(POOL_FLAG_NON_PAGED, IoSizeofWorkItem(), 'krow');
    if (!ext->Item)
        return;
    IoInitializeWorkItem(ext->Self, ext->Item); /* told 2: LeftBehind */
    IoQueueWorkItemEx(ext->Item, WithItem, DelayedWorkQueue, ext);
    Await(ext);
    ExInitializeWorkItem(&ext->Plain, Plainly, ext);
    ExQueueWorkItem(&ext->Plain, DelayedWorkQueue);
    if (WRONG == 1)
        ExQueueWorkItem(&ext->Plain, DelayedWorkQueue); /* told 1, by --every-order: QueuedTwice */
    Await(ext);
    ExQueueWorkItem(&ext->Plain, DelayedWorkQueue); /* its routine has it no more */
    Await(ext);
    WDM_CHECK(ext->Ran == 3);
    if (WRONG == 5)
        IoQueueWorkItemEx(ext->Item, WithItem, DelayedWorkQueue, ext);
    if (WRONG != 2) {
        if (WRONG != 5)
            IoUninitializeWorkItem(ext->Item);
        ExFreePoolWithTag(ext->Item, 'krow'); /* told 5, by --every-order: UsedInFreedMemory */
    }
}

static NTSTATUS Control(PDEVICE_OBJECT DeviceObject, PIRP Irp)
{
    Work(DeviceObject->DeviceExtension);
    return Complete(Irp, STATUS_SUCCESS, 0);
}

static SHARE_ACCESS shared;

/* The test's one thread opens and closes: no lock guards it. */
static NTSTATUS Create(PDEVICE_OBJECT DeviceObject, PIRP Irp)
{
    PIO_STACK_LOCATION stack = IoGetCurrentIrpStackLocation(Irp);
    static const ACCESS_MASK wanted[] = { FILE_READ_DATA, FILE_READ_DATA | FILE_WRITE_DATA, FILE_READ_ATTRIBUTES };
    static ULONG n;
    const ACCESS_MASK access = wanted[n++ % 3];
    NTSTATUS status = STATUS_SUCCESS;
    UNREFERENCED_PARAMETER(DeviceObject);
    if (n == 1)
        IoSetShareAccess(access, FILE_SHARE_READ, stack->FileObject, &shared);
    else
        status = IoCheckShareAccess(access, FILE_SHARE_READ | FILE_SHARE_WRITE, stack->FileObject, &shared, TRUE);
    return Complete(Irp, status, 0);
}

static NTSTATUS Cleanup(PDEVICE_OBJECT DeviceObject, PIRP Irp)
{
    PFILE_OBJECT file = IoGetCurrentIrpStackLocation(Irp)->FileObject;
    UNREFERENCED_PARAMETER(DeviceObject);
    IoRemoveShareAccess(file, &shared); /* told 3: ShareAccess */
    if (WRONG == 3)
        IoRemoveShareAccess(file, &shared);
    return Complete(Irp, STATUS_SUCCESS, 0);
}

static NTSTATUS Close(PDEVICE_OBJECT DeviceObject, PIRP Irp)
{
    UNREFERENCED_PARAMETER(DeviceObject);
    return Complete(Irp, STATUS_SUCCESS, 0);
}

static VOID Unload(PDRIVER_OBJECT DriverObject) { IoDeleteDevice(DriverObject->DeviceObject); }

NTSTATUS DriverEntry(PDRIVER_OBJECT DriverObject, PUNICODE_STRING RegistryPath)
{
    PDEVICE_OBJECT device;
    UNREFERENCED_PARAMETER(RegistryPath);
    DriverObject->MajorFunction[IRP_MJ_CREATE] = Create;
    DriverObject->MajorFunction[IRP_MJ_CLEANUP] = Cleanup;
    DriverObject->MajorFunction[IRP_MJ_CLOSE] = Close;
    DriverObject->MajorFunction[IRP_MJ_DEVICE_CONTROL] = Control;
    DriverObject->DriverUnload = Unload;
    NTSTATUS status = IoCreateDevice(DriverObject, sizeof(EXTENSION), NULL, FILE_DEVICE_UNKNOWN, 0, FALSE, &device);
    if (NT_SUCCESS(status)) {
        PEXTENSION ext = device->DeviceExtension;
        ext->Self = device;
        KeInitializeEvent(&ext->Done, NotificationEvent, FALSE);
    }
    return status;
}

static VOID Bits(VOID)
{
    ULONG words[3] = { 0 }, at;
    RTL_BITMAP map;
    RTL_BITMAP_RUN runs[3];
    RtlInitializeBitMap(&map, words, 70);
    RtlSetBits(&map, 3, 5); /* 3..7 */
    RtlSetBit(&map, 40);
    WDM_CHECK(words[0] == 0xf8 && words[1] == 0x100 && words[2] == 0);
    WDM_CHECK(RtlTestBit(&map, 7) && !RtlTestBit(&map, 8) && RtlNumberOfSetBits(&map) == 6 && RtlNumberOfClearBits(&map) == 64);
    WDM_CHECK(RtlAreBitsSet(&map, 3, 5) && !RtlAreBitsSet(&map, 3, 6) && RtlAreBitsClear(&map, 8, 32) && !RtlAreBitsClear(&map, 60, 11));
    WDM_CHECK(!RtlAreBitsClear(&map, 8, 0));
    WDM_CHECK(RtlFindClearBits(&map, 4, 0) == 8 && RtlFindClearBits(&map, 3, 0) == 0 && RtlFindClearBits(&map, 32, 9) == 8);
    WDM_CHECK(RtlFindSetBits(&map, 2, 20) == 3 && RtlFindClearBits(&map, 33, 0) == MAXULONG);
    WDM_CHECK(RtlFindLongestRunClear(&map, &at) == 32 && at == 8);
    WDM_CHECK(RtlFindFirstRunClear(&map, &at) == 3 && at == 0);
    WDM_CHECK(RtlFindNextForwardRunClear(&map, 3, &at) == 32 && at == 8);
    WDM_CHECK(RtlFindLastBackwardRunClear(&map, 40, &at) == 32 && at == 8);
    WDM_CHECK(RtlFindClearRuns(&map, runs, 2, FALSE) == 2 && runs[0].NumberOfBits == 3 && runs[1].StartingIndex == 8);
    WDM_CHECK(RtlFindClearRuns(&map, runs, 2, TRUE) == 2 && runs[0].NumberOfBits == 32 && runs[1].StartingIndex == 41);
    WDM_CHECK(RtlFindClearRuns(&map, runs, 3, TRUE) == 3 && runs[2].StartingIndex == 0 && runs[2].NumberOfBits == 3);
    WDM_CHECK(RtlFindClearBitsAndSet(&map, 29, 40) == 41 && RtlNumberOfSetBits(&map) == 35);
    WDM_CHECK(RtlFindSetBitsAndClear(&map, 30, 0) == 40 && RtlNumberOfSetBits(&map) == 5);
    RtlClearBit(&map, 3);
    RtlClearBits(&map, 4, 4);
    WDM_CHECK(RtlAreBitsClear(&map, 0, 70));
    RtlSetAllBits(&map);
    WDM_CHECK(RtlAreBitsSet(&map, 0, 70));
    RtlClearAllBits(&map);
    WDM_CHECK(RtlFindMostSignificantBit(0x8001) == 15 && RtlFindLeastSignificantBit(0x18) == 3 && RtlFindLeastSignificantBit(0) == -1);
    if (WRONG == 4)
        RtlSetBits(&map, 60, 11); /* told 4: BitRange */
}

static VOID Sums(VOID)
{
    ULONG sum;
    USHORT small;
    LONG signed_one;
    SIZE_T size;
    WDM_CHECK(RtlULongAdd(1, 2, &sum) == STATUS_SUCCESS && sum == 3);
    WDM_CHECK(RtlULongAdd(0xffffffff, 1, &sum) == STATUS_INTEGER_OVERFLOW);
    WDM_CHECK(sum == (WRONG == 7 ? 0 : 0xffffffff)); /* told 7: Check */
    WDM_CHECK(RtlULongSub(1, 2, &sum) == STATUS_INTEGER_OVERFLOW && RtlULongMult(0x10000, 0x10000, &sum) == STATUS_INTEGER_OVERFLOW);
    WDM_CHECK(RtlLongAdd(0x7fffffff, 1, &signed_one) == STATUS_INTEGER_OVERFLOW && RtlLongSub(-1, 5, &signed_one) == 0 && signed_one == -6);
    WDM_CHECK(RtlSizeTMult(1ull << 40, 1ull << 23, &size) == STATUS_SUCCESS && size == 1ull << 63);
    WDM_CHECK(RtlSizeTMult(1ull << 40, 1ull << 24, &size) == STATUS_INTEGER_OVERFLOW);
    WDM_CHECK(RtlULongToUShort(65535, &small) == STATUS_SUCCESS && small == 65535);
    WDM_CHECK(RtlULongToUShort(65536, &small) == STATUS_INTEGER_OVERFLOW && small == 65535);
    WDM_CHECK(RtlLongToULong(-1, &sum) == STATUS_INTEGER_OVERFLOW && RtlULongLongToULong(7, &sum) == STATUS_SUCCESS && sum == 7);
}

static VOID Names(VOID)
{
    UNICODE_STRING pool = RTL_CONSTANT_STRING(L"ExAllocatePool2"), none = RTL_CONSTANT_STRING(L"IoMakesNoSuchThing");
    KIRQL irql = PASSIVE_LEVEL;
    if (WRONG == 6)
        KeRaiseIrql(DISPATCH_LEVEL, &irql);
    PVOID (*allocate)(ULONGLONG, SIZE_T, ULONG) = MmGetSystemRoutineAddress(&pool); /* told 6: IrqlTooHigh */
    if (WRONG == 6)
        KeLowerIrql(irql);
    WDM_CHECK(allocate && !MmGetSystemRoutineAddress(&none));
    PVOID memory = allocate ? allocate(POOL_FLAG_NON_PAGED, 8, 'eman') : NULL;
    if (memory)
        ExFreePoolWithTag(memory, 'eman');
}

/* A reader that shares reading; a writer whom it doesn't let in; who looks at attributes alone; then the same again. */
static VOID Share(PDEVICE_OBJECT Top)
{
    PFILE_OBJECT reader = WdmOpenFile(Top), writer = WdmOpenFile(Top), looks = WdmOpenFile(Top);
    WDM_CHECK(reader && !writer && looks && shared.OpenCount == 1 && shared.Readers == 1 && !shared.SharedWrite);
    PFILE_OBJECT again = WdmOpenFile(Top);
    WDM_CHECK(again && shared.OpenCount == 2 && shared.SharedRead == 2 && shared.SharedWrite == 1);
    WDM_CHECK(IoGetRelatedDeviceObject(reader) == Top);
    WdmCloseFile(reader);
    WdmCloseFile(looks);
    WdmCloseFile(again);
    WDM_CHECK(!shared.OpenCount && !shared.Readers && !shared.SharedRead && !shared.SharedWrite);
}

int main(void)
{
    PDRIVER_OBJECT driver = WdmLoadDriver("names", DriverEntry);
    Bits();
    Sums();
    Names();
    Share(driver->DeviceObject);
    WdmControl(driver->DeviceObject, CTL_CODE(FILE_DEVICE_UNKNOWN, 1, METHOD_BUFFERED, FILE_ANY_ACCESS), 4);
    WdmUnloadDriver(driver);
    return WdmFinish();
}
