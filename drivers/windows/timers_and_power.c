/* timers_and_power.c: a timer is initialized anew while it is armed, and goes off all the same, as the others do; a reader goes
   before who waits to have a resource alone, where it asks for that; PoSetPowerState tells the state before; a bus tells the
   states of power; a stack has limits. WRONG=1 takes what PoSetPowerState returns for the new state, WRONG=2 frees a timer that
   it has only initialized anew, WRONG=3 waits behind who waits to have the resource alone, WRONG=4 counts the system's states
   from 0, WRONG=5 exchanges the limits. */
#include "filter.h"

enum { MOMENT = 200000 }; /* 20 milliseconds */

static NTSTATUS Read(PDEVICE_OBJECT DeviceObject, PIRP Irp) { return Pass(DeviceObject, Irp); }

/* Both are set, and one is initialized before its time: where that has come meanwhile, once more. */
static VOID SetBoth(PKTIMER Other, PKTIMER Again)
{
    LARGE_INTEGER due = { .QuadPart = -MOMENT };
    ULONGLONG begun;
    do {
        begun = KeQueryInterruptTime();
        KeSetTimer(Other, due, NULL);
        KeSetTimer(Again, due, NULL);
        KeInitializeTimer(Again);
    } while (KeQueryInterruptTime() - begun >= MOMENT);
}

static VOID SetTimers(VOID)
{
    KTIMER other, again;
    LARGE_INTEGER due = { .QuadPart = -MOMENT };
    KeInitializeTimer(&other);
    KeInitializeTimer(&again);
    SetBoth(&other, &again);
    WDM_CHECK(KeWaitForSingleObject(&other, Executive, KernelMode, FALSE, NULL) == STATUS_SUCCESS);
    WDM_CHECK(KeWaitForSingleObject(&again, Executive, KernelMode, FALSE, NULL) == STATUS_SUCCESS);
    KeSetTimer(&again, due, NULL);
    WDM_CHECK(KeWaitForSingleObject(&again, Executive, KernelMode, FALSE, NULL) == STATUS_SUCCESS);
}

static VOID FreeTimer(VOID)
{
    LARGE_INTEGER hour = { .QuadPart = -36000000000LL };
    PKTIMER timer = ExAllocatePool2(POOL_FLAG_NON_PAGED, sizeof *timer, 'emit');
    if (!timer)
        return;
    KeInitializeTimer(timer);
    KeSetTimer(timer, hour, NULL);
    if (WRONG == 2)
        KeInitializeTimer(timer);
    else
        KeCancelTimer(timer);
    ExFreePoolWithTag(timer, 'emit'); /* told 2: TimerInFreedMemory */
}

static VOID SetPower(PDEVICE_OBJECT Device)
{
    POWER_STATE state = { .DeviceState = PowerDeviceD0 };
    WDM_CHECK(PoSetPowerState(Device, DevicePowerState, state).DeviceState == PowerDeviceUnspecified);
    state.DeviceState = PowerDeviceD3;
    const DEVICE_POWER_STATE wanted = WRONG == 1 ? PowerDeviceD3 : PowerDeviceD0;
    WDM_CHECK(PoSetPowerState(Device, DevicePowerState, state).DeviceState == wanted); /* told 1: Check */
}

static VOID AskCapabilities(PDEVICE_OBJECT Top)
{
    DEVICE_CAPABILITIES capabilities;
    KEVENT done;
    IO_STATUS_BLOCK iosb;
    memset(&capabilities, 0xff, sizeof capabilities);
    KeInitializeEvent(&done, NotificationEvent, FALSE);
    PIRP irp = WdmBuildIrp(Top, IRP_MJ_PNP, IRP_MN_QUERY_CAPABILITIES, 0, &iosb, &done);
    IoGetNextIrpStackLocation(irp)->Parameters.DeviceCapabilities.Capabilities = &capabilities;
    IoCallDriver(Top, irp);
    KeWaitForSingleObject(&done, Executive, KernelMode, FALSE, NULL);
    WDM_CHECK(capabilities.DeviceState[WRONG == 4 ? 0 : PowerSystemWorking] == PowerDeviceD0); /* told 4: Check */
    WDM_CHECK(capabilities.DeviceState[PowerSystemShutdown] == PowerDeviceD3);
}

static ERESOURCE resource;
static KEVENT shared, reads;
static LONG order, alone_at;

static VOID TakeAlone(PVOID Context)
{
    UNREFERENCED_PARAMETER(Context);
    KeWaitForSingleObject(&shared, Executive, KernelMode, FALSE, NULL);
    KeEnterCriticalRegion();
    ExAcquireResourceExclusiveLite(&resource, TRUE);
    alone_at = InterlockedIncrement(&order);
    ExReleaseResourceLite(&resource);
    KeLeaveCriticalRegion();
    PsTerminateSystemThread(STATUS_SUCCESS);
}

static VOID Starve(PVOID Context)
{
    LARGE_INTEGER moment = { .QuadPart = -MOMENT };
    UNREFERENCED_PARAMETER(Context);
    while (!ExGetExclusiveWaiterCount(&resource))
        KeDelayExecutionThread(KernelMode, FALSE, &moment);
    KeEnterCriticalRegion();
    WDM_CHECK(!ExAcquireResourceSharedLite(&resource, FALSE));
    if (WRONG == 3)
        ExAcquireResourceSharedLite(&resource, TRUE);
    else
        WDM_CHECK(ExAcquireSharedStarveExclusive(&resource, FALSE));
    InterlockedIncrement(&order);
    ExReleaseResourceLite(&resource);
    KeLeaveCriticalRegion();
    KeSetEvent(&reads, IO_NO_INCREMENT, FALSE);
    PsTerminateSystemThread(STATUS_SUCCESS);
}

static VOID ShareIt(VOID)
{
    HANDLE threads[2];
    ExInitializeResourceLite(&resource);
    KeInitializeEvent(&shared, NotificationEvent, FALSE);
    KeInitializeEvent(&reads, NotificationEvent, FALSE);
    KeEnterCriticalRegion();
    ExAcquireResourceSharedLite(&resource, TRUE);
    KeSetEvent(&shared, IO_NO_INCREMENT, FALSE);
    PsCreateSystemThread(&threads[0], THREAD_ALL_ACCESS, NULL, NULL, NULL, TakeAlone, NULL);
    PsCreateSystemThread(&threads[1], THREAD_ALL_ACCESS, NULL, NULL, NULL, Starve, NULL);
    KeWaitForSingleObject(&reads, Executive, KernelMode, FALSE, NULL); /* told 3: Hang */
    ExReleaseResourceLite(&resource);
    KeLeaveCriticalRegion();
    for (int i = 0; i < 2; i++) {
        ZwWaitForSingleObject(threads[i], FALSE, NULL);
        ZwClose(threads[i]);
    }
    WDM_CHECK(alone_at == 2);
    ExDeleteResourceLite(&resource);
}

static BOOLEAN IsOnStack(const VOID *Memory)
{
    ULONG_PTR low, high;
    IoGetStackLimits(WRONG == 5 ? &high : &low, WRONG == 5 ? &low : &high);
    return low < (ULONG_PTR)Memory && (ULONG_PTR)Memory < high && IoGetRemainingStackSize() < high - low;
}

int main(void)
{
    PDEVICE_OBJECT pdo = StartFilter(WDM_BOTTOM_LATE);
    SetTimers();
    FreeTimer();
    SetPower(IoGetAttachedDevice(pdo));
    AskCapabilities(IoGetAttachedDevice(pdo));
    ShareIt();
    WDM_CHECK(IsOnStack(&pdo) && !IsOnStack(&resource)); /* told 5: Check */
    WdmUnplug(pdo, FALSE);
    return WdmFinish();
}
