/* objects.c: callback objects, power settings, handles by pointers, pages with an MDL, timers that call back, and their ends.
   WRONG=N makes it wrong, at the line that says what is told. */
#include "../stacks/common.h"

#ifndef WRONG
#define WRONG 0
#endif
static const GUID setting = { 0x12345678, 1, 2, { 3, 4, 5, 6, 7, 8, 9, 10 } }, other = { 0x87654321, 1, 2, { 3 } };
static PDEVICE_OBJECT device;
static PCALLBACK_OBJECT object;
static PVOID registration, settings;
static HANDLE handle;
static PMDL pages;
static PEX_TIMER timer;
static KEVENT rang, ended;
static LONG calls, values, rings;

static VOID Called(PVOID Context, PVOID Argument1, PVOID Argument2)
{
    WDM_CHECK(Context == &calls && Argument1 == &rang && Argument2 == NULL);
    InterlockedIncrement(&calls);
}

static NTSTATUS Changed(LPCGUID Setting, PVOID Value, ULONG Length, PVOID Context)
{
    WDM_CHECK(RtlEqualMemory(Setting, &setting, sizeof setting) && Length == 4 && Context == &values);
    values += *(PLONG)Value;
    return STATUS_SUCCESS;
}

static VOID Rang(PEX_TIMER Timer, PVOID Context)
{
    WDM_CHECK(Context == &rings && KeGetCurrentIrql() == DISPATCH_LEVEL && Timer == timer);
    if (InterlockedIncrement(&rings) == 2)
        KeSetEvent(&rang, IO_NO_INCREMENT, FALSE);
}

static VOID Ended(PVOID Context) { KeSetEvent(Context, IO_NO_INCREMENT, FALSE); }

/* What the driver gets. Each has its end in Unload. */
static NTSTATUS Get(PDRIVER_OBJECT Driver)
{
    UNICODE_STRING name = RTL_CONSTANT_STRING(L"\\Callback\\Newer");
    OBJECT_ATTRIBUTES attributes;
    PHYSICAL_ADDRESS low = { .QuadPart = 0 }, high = { .QuadPart = MAXLONGLONG };
    InitializeObjectAttributes(&attributes, &name, OBJ_CASE_INSENSITIVE, NULL, NULL);
    NTSTATUS status = IoCreateDevice(Driver, 0, NULL, FILE_DEVICE_UNKNOWN, 0, FALSE, &device);
    if (NT_SUCCESS(status))
        status = ExCreateCallback(&object, &attributes, TRUE, FALSE);
    if (!NT_SUCCESS(status))
        return status;
    registration = ExRegisterCallback(object, Called, &calls); /* told 1: LeftBehind */
    status = PoRegisterPowerSettingCallback(NULL, &setting, Changed, &values, &settings); /* told 2: LeftBehind */
    if (NT_SUCCESS(status))
        status = ObOpenObjectByPointer(device, 0, NULL, 0, NULL, KernelMode, &handle); /* told 3: LeftBehind */
    pages = MmAllocatePagesForMdlEx(low, high, low, PAGE_SIZE + 1, MmCached, MM_ALLOCATE_FULLY_REQUIRED);
    timer = ExAllocateTimer(Rang, &rings, 0); /* told 5: LeftBehind */
    return registration && pages && timer ? status : STATUS_INSUFFICIENT_RESOURCES;
}

static VOID GiveBack(VOID)
{
    if (registration && WRONG != 1)
        ExUnregisterCallback(registration);
    if (WRONG == 9)
        ExUnregisterCallback(registration); /* told 9: Callback */
    if (settings && WRONG != 2)
        PoUnregisterPowerSettingCallback(settings);
    if (handle && WRONG != 3)
        ZwClose(handle);
    if (pages && WRONG != 4)
        MmFreePagesFromMdl(pages);
    if (WRONG == 6)
        MmFreePagesFromMdl(pages); /* told 6: NotAllocated */
    if (pages)
        ExFreePool(pages); /* told 4: UsedInFreedMemory */
    if (timer && WRONG != 5)
        ExDeleteTimer(timer, WRONG != 7, TRUE, NULL); /* told 7: ExTimer */
    if (object)
        ObDereferenceObject(object);
    object = NULL;
    if (device)
        IoDeleteDevice(device);
}

static VOID Unload(PDRIVER_OBJECT DriverObject)
{
    UNREFERENCED_PARAMETER(DriverObject);
    GiveBack();
}

NTSTATUS DriverEntry(PDRIVER_OBJECT DriverObject, PUNICODE_STRING RegistryPath)
{
    UNREFERENCED_PARAMETER(RegistryPath);
    DriverObject->DriverUnload = Unload;
    NTSTATUS status = Get(DriverObject);
    if (!NT_SUCCESS(status))
        GiveBack();
    return status;
}

static VOID Tell(VOID)
{
    LONG value = 5;
    ExNotifyCallback(object, &rang, NULL);
    ExNotifyCallback(object, &rang, NULL);
    WDM_CHECK(calls == 2);
    WDM_CHECK(!ExRegisterCallback(object, Called, NULL)); /* it has one, and may have no more */
    WdmSetPowerSetting(&setting, &value, sizeof value);
    WdmSetPowerSetting(&other, &value, sizeof value);
    WDM_CHECK(values == 5);
}

/* Every millisecond, until it is cancelled; then one that tells its end. */
static VOID Ring(VOID)
{
    EXT_DELETE_PARAMETERS parameters;
    KeInitializeEvent(&rang, NotificationEvent, FALSE);
    KeInitializeEvent(&ended, NotificationEvent, FALSE);
    WDM_CHECK(!ExSetTimer(timer, -10000, 10000, NULL));
    KeWaitForSingleObject(&rang, Executive, KernelMode, FALSE, NULL);
    WDM_CHECK(ExCancelTimer(timer, NULL) && !ExCancelTimer(timer, NULL));
    PEX_TIMER second = ExAllocateTimer(NULL, NULL, EX_TIMER_NOTIFICATION);
    if (!second)
        return;
    ExSetTimer(second, -10000, 0, NULL);
    KeWaitForSingleObject(second, Executive, KernelMode, FALSE, NULL); /* a timer is an object to wait for */
    ExInitializeDeleteTimerParameters(&parameters);
    parameters.DeleteCallback = Ended;
    parameters.DeleteContext = &ended;
    WDM_CHECK(!ExDeleteTimer(second, TRUE, FALSE, &parameters));
    KeWaitForSingleObject(&ended, Executive, KernelMode, FALSE, NULL);
}

static VOID UsePages(VOID)
{
    PUCHAR at = MmGetSystemAddressForMdlSafe(pages, NormalPagePriority);
    WDM_CHECK(MmGetMdlByteCount(pages) == 2 * PAGE_SIZE);
    if (!at)
        return;
    WDM_CHECK(at[0] == 0 && at[2 * PAGE_SIZE - 1] == 0);
    memset(at, 1, 2 * PAGE_SIZE);
    MmUnmapLockedPages(at, pages);
}

static VOID Attach(VOID)
{
    KAPC_STATE outer, inner;
    KeStackAttachProcess(PsGetCurrentProcess(), &outer);
    KeStackAttachProcess(PsGetCurrentProcess(), &inner);
    if (WRONG == 8) {
        KeUnstackDetachProcess(&outer); /* told 8: Attached */
        KeUnstackDetachProcess(&inner);
    } else {
        KeUnstackDetachProcess(&inner);
        KeUnstackDetachProcess(&outer);
    }
}

/* A timer whose tolerance is for saving power goes off as another one does. */
static VOID Coalesce(VOID)
{
    PKTIMER plain = ExAllocatePool2(POOL_FLAG_NON_PAGED, sizeof *plain, 'emiT');
    if (!plain)
        return;
    KeInitializeTimer(plain);
    KeSetCoalescableTimer(plain, Milliseconds(WRONG == 11 ? 60000 : 1), 0, 50, NULL);
    if (WRONG != 11)
        KeWaitForSingleObject(plain, Executive, KernelMode, FALSE, NULL);
    ExFreePoolWithTag(plain, 'emiT'); /* told 11: TimerInFreedMemory */
}

static VOID UseList(VOID)
{
    LOOKASIDE_LIST_EX list;
    if (!NT_SUCCESS(ExInitializeLookasideListEx(&list, NULL, NULL, NonPagedPoolNx, 0, 16, 'tsiL', 0)))
        return;
    PVOID block = ExAllocateFromLookasideListEx(&list);
    if (block)
        ExFreeToLookasideListEx(&list, block);
    ExDeleteLookasideListEx(&list);
    if (WRONG == 10)
        block = ExAllocateFromLookasideListEx(&list); /* told 10: Lookaside */
}

int main(void)
{
    PDRIVER_OBJECT driver = WdmLoadDriver("objects", DriverEntry);
    if (!driver)
        return WdmFinish();
    Tell();
    Ring();
    UsePages();
    Attach();
    Coalesce();
    UseList();
    WdmUnloadDriver(driver);
    return WdmFinish();
}
