/* system.c: what drivers ask of the system: names of objects, directories, handles of one object, threads by their numbers,
   processors, who waits for a resource, lists of blocks. WRONG=N makes it wrong, at the line that says what is told. */
#include "../stacks/common.h"
#include <ntifs.h>

#ifndef WRONG
#define WRONG 0
#endif
#define DEVICE_NAME L"\\Device\\AskedOfSystem"
static ERESOURCE resource;
static KEVENT may_end;
static LONG calls;

/* Asks for the name with room for none, then with enough. */
static BOOLEAN IsCalled(PVOID Object, PCWSTR Wanted)
{
    union { OBJECT_NAME_INFORMATION Information; UCHAR Room[200]; } named;
    UNICODE_STRING wanted;
    ULONG needed = 0;
    RtlInitUnicodeString(&wanted, Wanted);
    const ULONG bytes = sizeof named.Information + (wanted.Length ? wanted.Length + sizeof(WCHAR) : 0);
    WDM_CHECK(ObQueryNameString(Object, &named.Information, 0, &needed) == STATUS_INFO_LENGTH_MISMATCH && needed == bytes);
    WDM_CHECK(ObQueryNameString(Object, &named.Information, sizeof named, &needed) == STATUS_SUCCESS && needed == bytes);
    return RtlEqualUnicodeString(&named.Information.Name, &wanted, FALSE);
}

static VOID AskNames(PDEVICE_OBJECT Device)
{
    UNICODE_STRING name = RTL_CONSTANT_STRING(L"\\Driver\\SYSTEM"), other = RTL_CONSTANT_STRING(L"\\Driver\\NobodyLoadedIt");
    UNICODE_STRING event_name = RTL_CONSTANT_STRING(L"\\BaseNamedObjects\\Asked");
    PVOID driver = NULL;
    HANDLE handle;
    PKEVENT event = IoCreateNotificationEvent(&event_name, &handle);
    WDM_CHECK(IsCalled(Device, DEVICE_NAME) && IsCalled(Device->DriverObject, L"\\Driver\\system"));
    WDM_CHECK(IsCalled(event, event_name.Buffer) && IsCalled(PsGetCurrentProcess(), L""));
    ZwClose(handle);
    WDM_CHECK(!ObReferenceObjectByName(&name, 0, NULL, 0, *IoDriverObjectType, KernelMode, NULL, &driver));
    WDM_CHECK(driver == Device->DriverObject);
    if (driver)
        ObDereferenceObject(driver);
    WDM_CHECK(ObReferenceObjectByName(&other, 0, NULL, 0, *IoDriverObjectType, KernelMode, NULL, &driver) == STATUS_OBJECT_NAME_NOT_FOUND);
    WDM_CHECK(ObGetObjectType(Device) == *IoDeviceObjectType && ObGetObjectType(KeGetCurrentThread()) == *PsThreadType);
}

static VOID AskHandles(VOID)
{
    OBJECT_ATTRIBUTES attributes;
    HANDLE one, two, three;
    PVOID first = NULL, second = NULL;
    InitializeObjectAttributes(&attributes, NULL, OBJ_KERNEL_HANDLE, NULL, NULL);
    if (!NT_SUCCESS(ZwCreateEvent(&one, EVENT_ALL_ACCESS, &attributes, NotificationEvent, TRUE)))
        return;
    WDM_CHECK(!ZwDuplicateObject(NtCurrentProcess(), one, NtCurrentProcess(), &two, 0, 0, DUPLICATE_SAME_ACCESS));
    WDM_CHECK(!ObReferenceObjectByHandle(one, 0, *ExEventObjectType, KernelMode, &first, NULL));
    WDM_CHECK(ObOpenObjectByPointer(first, 0, NULL, 0, *IoFileObjectType, KernelMode, &three) == STATUS_OBJECT_TYPE_MISMATCH);
    ZwClose(one);
    WDM_CHECK(!ObReferenceObjectByHandle(two, 0, *ExEventObjectType, KernelMode, &second, NULL) && first == second);
    ObDereferenceObject(first);
    ObDereferenceObject(second);
    ZwClose(two);
    if (WRONG == 1)
        ZwClose(one); /* told 1: NotOpen */
}

static NTSTATUS Open(PHANDLE Handle, ULONG Flags, BOOLEAN Makes)
{
    UNICODE_STRING name = RTL_CONSTANT_STRING(L"\\AskedOfSystem");
    OBJECT_ATTRIBUTES attributes;
    InitializeObjectAttributes(&attributes, &name, Flags, NULL, NULL);
    return Makes ? ZwCreateDirectoryObject(Handle, DIRECTORY_ALL_ACCESS, &attributes)
                 : ZwOpenDirectoryObject(Handle, DIRECTORY_ALL_ACCESS, &attributes);
}

/* Whether it ends so. It may be that there is no memory for it. */
static BOOLEAN Ends(PHANDLE Handle, ULONG Flags, BOOLEAN Makes, NTSTATUS Wanted)
{
    const NTSTATUS status = Open(Handle, Flags, Makes);
    WDM_CHECK(status == Wanted || status == STATUS_INSUFFICIENT_RESOURCES);
    return status == Wanted;
}

/* It goes with its last handle. */
static VOID AskDirectories(VOID)
{
    HANDLE handle, second;
    if (!Ends(&handle, 0, TRUE, STATUS_SUCCESS))
        return;
    Ends(&second, 0, TRUE, STATUS_OBJECT_NAME_COLLISION);
    const BOOLEAN opened = Ends(&second, OBJ_OPENIF, TRUE, STATUS_OBJECT_NAME_EXISTS);
    ZwClose(handle);
    if (opened && Ends(&handle, 0, FALSE, STATUS_SUCCESS))
        ZwClose(handle);
    if (opened)
        ZwClose(second);
    Ends(&handle, 0, FALSE, STATUS_OBJECT_NAME_NOT_FOUND);
}

/* A permanent one goes once it is made temporary. */
static VOID AskPermanentDirectory(VOID)
{
    HANDLE handle;
    if (!Ends(&handle, OBJ_PERMANENT, TRUE, STATUS_SUCCESS))
        return;
    ZwClose(handle);
    if (!Ends(&handle, 0, FALSE, STATUS_SUCCESS))
        return;
    WDM_CHECK(!ZwMakeTemporaryObject(handle));
    ZwClose(handle);
    Ends(&handle, 0, FALSE, STATUS_OBJECT_NAME_NOT_FOUND);
}

static VOID Each(PKDPC Dpc, PVOID Context, PVOID Count, PVOID Barrier)
{
    UNREFERENCED_PARAMETER(Dpc);
    WDM_CHECK(Context == &calls && KeGetCurrentIrql() == DISPATCH_LEVEL);
    WDM_CHECK(KeSignalCallDpcSynchronize(Barrier));
    InterlockedIncrement(&calls);
    KeSignalCallDpcDone(Count);
}

static VOID Called(PVOID Parameter) { InterlockedIncrement((PLONG)Parameter); }

static VOID AskProcessors(VOID)
{
    ULONG major = 0, build = 0;
    WDM_CHECK(!KeSetSystemAffinityThreadEx(1) && KeSetSystemAffinityThreadEx(3) == 1 && !KeSetSystemAffinityThreadEx(2));
    KeRevertToUserAffinityThread();
    WDM_CHECK(!KeSetSystemAffinityThreadEx(1));
    KeRevertToUserAffinityThreadEx(0);
    KeGenericCallDpc(Each, &calls);
    WDM_CHECK(calls == 1 && KeGetCurrentIrql() == PASSIVE_LEVEL);
    WDM_CHECK(!KeExpandKernelStackAndCallout(Called, &calls, 4096) && calls == 2);
    PsGetVersion(&major, NULL, &build, NULL);
    WDM_CHECK(major == 10 && build >= 10240);
}

static VOID WantAlone(PVOID Context)
{
    KeEnterCriticalRegion();
    ExAcquireResourceExclusiveLite(Context, TRUE);
    ExReleaseResourceLite(Context);
    KeLeaveCriticalRegion();
    KeWaitForSingleObject(&may_end, Executive, KernelMode, FALSE, NULL);
    PsTerminateSystemThread(STATUS_SUCCESS);
}

static VOID AskThread(HANDLE Thread)
{
    PETHREAD thread = NULL, found = NULL;
    if (!NT_SUCCESS(ObReferenceObjectByHandle(Thread, 0, *PsThreadType, KernelMode, (PVOID *)&thread, NULL)))
        return;
    WDM_CHECK(!PsLookupThreadByThreadId(PsGetThreadId(thread), &found) && found == thread);
    if (found)
        ObDereferenceObject(found);
    KeSetEvent(&may_end, IO_NO_INCREMENT, FALSE);
    KeWaitForSingleObject(thread, Executive, KernelMode, FALSE, NULL);
    WDM_CHECK(PsLookupThreadByThreadId(PsGetThreadId(thread), &found) == STATUS_INVALID_CID);
    ObDereferenceObject(thread);
}

/* A thread waits to have alone what this one shares: who yields to it isn't let in, who starves it is. */
static VOID AskResource(VOID)
{
    LARGE_INTEGER moment = { .QuadPart = -10000 };
    HANDLE thread;
    KeEnterCriticalRegion();
    ExAcquireResourceSharedLite(&resource, TRUE);
    if (!NT_SUCCESS(PsCreateSystemThread(&thread, THREAD_ALL_ACCESS, NULL, NULL, NULL, WantAlone, &resource))) {
        ExReleaseResourceLite(&resource);
        KeLeaveCriticalRegion();
        return;
    }
    while (!ExGetExclusiveWaiterCount(&resource))
        KeDelayExecutionThread(KernelMode, FALSE, &moment);
    WDM_CHECK(ExGetExclusiveWaiterCount(&resource) == 1 && !ExGetSharedWaiterCount(&resource));
    WDM_CHECK(!ExAcquireSharedWaitForExclusive(&resource, FALSE) && ExAcquireSharedStarveExclusive(&resource, FALSE));
    ExReleaseResourceLite(&resource);
    ExReleaseResourceLite(&resource);
    KeLeaveCriticalRegion();
    AskThread(thread);
    ZwClose(thread);
}

/* A critical region keeps off normal APCs alone, a guarded one all of them, as APC_LEVEL does. */
static VOID AskRegions(VOID)
{
    KIRQL before;
    KeEnterCriticalRegion();
    WDM_CHECK(KeAreApcsDisabled() && !KeAreAllApcsDisabled());
    KeEnterGuardedRegion();
    WDM_CHECK(KeAreApcsDisabled() && KeAreAllApcsDisabled());
    KeLeaveGuardedRegion();
    WDM_CHECK(!KeAreAllApcsDisabled());
    KeLeaveCriticalRegion();
    WDM_CHECK(!KeAreApcsDisabled());
    KeRaiseIrql(APC_LEVEL, &before);
    WDM_CHECK(KeAreAllApcsDisabled());
    KeLowerIrql(before);
}

static VOID AskProcess(VOID)
{
    PEPROCESS process = NULL;
    WDM_CHECK(!PsLookupProcessByProcessId(PsGetCurrentProcessId(), &process) && process == PsGetCurrentProcess());
    if (process)
        ObDereferenceObject(process);
    WDM_CHECK(PsLookupProcessByProcessId((HANDLE)1, &process) == STATUS_INVALID_PARAMETER);
}

static VOID AskLists(VOID)
{
    NPAGED_LOOKASIDE_LIST list;
    ExInitializeNPagedLookasideList(&list, NULL, NULL, POOL_NX_ALLOCATION, 48, 'tsil', 0);
    WDM_CHECK(list.L.Depth == 4 && list.L.MaximumDepth == 256 && list.L.Size == 48 && list.L.Tag == 'tsil');
    PVOID block = ExAllocateFromNPagedLookasideList(&list);
    if (block)
        ExFreeToNPagedLookasideList(&list, block);
    ExDeleteNPagedLookasideList(&list);
}

static NTSTATUS Control(PDEVICE_OBJECT DeviceObject, PIRP Irp)
{
    AskNames(DeviceObject);
    AskHandles();
    AskDirectories();
    AskPermanentDirectory();
    AskProcessors();
    AskResource();
    AskRegions();
    AskProcess();
    AskLists();
    return Complete(Irp, STATUS_SUCCESS, 0);
}

static VOID Unload(PDRIVER_OBJECT DriverObject)
{
    ExDeleteResourceLite(&resource);
    IoDeleteDevice(DriverObject->DeviceObject);
}

NTSTATUS DriverEntry(PDRIVER_OBJECT DriverObject, PUNICODE_STRING RegistryPath)
{
    UNICODE_STRING name = RTL_CONSTANT_STRING(DEVICE_NAME);
    PDEVICE_OBJECT device;
    UNREFERENCED_PARAMETER(RegistryPath);
    DriverObject->MajorFunction[IRP_MJ_DEVICE_CONTROL] = Control;
    DriverObject->DriverUnload = Unload;
    ExInitializeResourceLite(&resource);
    KeInitializeEvent(&may_end, NotificationEvent, FALSE);
    return IoCreateDevice(DriverObject, 0, &name, FILE_DEVICE_UNKNOWN, 0, FALSE, &device);
}

int main(void)
{
    PDRIVER_OBJECT driver = WdmLoadDriver("system", DriverEntry);
    if (driver) {
        WdmControl(driver->DeviceObject, CTL_CODE(FILE_DEVICE_UNKNOWN, 1, METHOD_BUFFERED, FILE_ANY_ACCESS), 4);
        WdmUnloadDriver(driver);
    }
    return WdmFinish();
}
