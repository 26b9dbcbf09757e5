/* serving.c: a driver that does what a program asks for by its device, and gives the record back. The device isn't
   recorded. */
#include "serving.h"
#define IRPX_INSIDE /* the calls of this file are the real ones */
#include "recorder.h"
#include "interface.h"
#include "kernel_platform.h"
#include "loading.h"

VOID NTAPI IoDeleteDriver(PDRIVER_OBJECT Driver);

enum { TAG = 'yalP', NON_PAGED = 0x40 }; /* the second: POOL_FLAG_NON_PAGED */
typedef PVOID NTAPI TAKE(ULONG64 Flags, SIZE_T Bytes, ULONG Tag);

KSPIN_LOCK PlayerLock;
KIRQL PlayerLevel;
static TAKE *take;
static uint64_t replies[PLAY_STEPS];
static char *answer;
static size_t length, room;

void *PlayerTake(size_t n)
{
    void *memory = take ? take(NON_PAGED, n, TAG) : ExAllocatePoolWithTag(NonPagedPool, n, TAG);
    if (memory)
        RtlZeroMemory(memory, n);
    return memory;
}

void PlayerGive(void *memory)
{
    if (memory)
        ExFreePoolWithTag(memory, TAG);
}

static VOID put(const char *text)
{
    for (; *text; text++, length++)
        if (length < room)
            answer[length] = *text;
}

static VOID put_number(uint64_t value, const char *behind)
{
    char digits[21] = { 0 };
    int i = 20;
    do
        digits[--i] = (char)('0' + value % 10);
    while (value /= 10);
    put(digits + i);
    put(behind);
}

static VOID forget_answer(VOID)
{
    PlayerGive(answer);
    answer = NULL;
    length = 0;
}

static VOID write_answer(const char *how, size_t made)
{
    const size_t n = IrpxTranscript(NULL, 0);
    IRPX_COUNTS counts;
    forget_answer();
    room = n + 200 + made * 21;
    answer = PlayerTake(room);
    if (!answer)
        return;
    IrpxCount(&counts);
    put(how);
    put(" ");
    put_number(n, " ");
    put_number(made, " ");
    put_number((uint64_t)counts.pended, " ");
    put_number((uint64_t)counts.outside, " ");
    put_number((uint64_t)counts.adopted, " ");
    put_number((uint64_t)counts.lost, "\n");
    IrpxTranscript(answer + length, n);
    length += n;
    for (size_t k = 0; k < made; k++)
        put_number(replies[k], " ");
    put("\n");
}

static NTSTATUS perform(const VOID *words, ULONG bytes, ULONG code)
{
    size_t made = 0;
    const char *how = Perform(words, bytes / 8, code, replies, &made);
    write_answer(how, made);
    PerformEnded();
    IrpxForget();
    return answer ? STATUS_SUCCESS : STATUS_INSUFFICIENT_RESOURCES;
}

BOOLEAN LoadNumbered(unsigned Number, PDRIVER_INITIALIZE Entry)
{
    return load(Number, Entry);
}

PDRIVER_OBJECT NumberedDriver(unsigned Number)
{
    return drivers[Number];
}

static ULONG_PTR read_answer(PVOID buffer, ULONG bytes)
{
    const uint64_t from = *(uint64_t *)buffer;
    const size_t n = from >= length ? 0 : length - from < bytes ? length - from : bytes;
    if (n)
        RtlCopyMemory(buffer, answer + from, n);
    return n;
}

static NTSTATUS NTAPI control(PDEVICE_OBJECT DeviceObject, PIRP Irp)
{
    const PIO_STACK_LOCATION stack = IoGetCurrentIrpStackLocation(Irp);
    const ULONG code = stack->Parameters.DeviceIoControl.IoControlCode;
    const ULONG in = stack->Parameters.DeviceIoControl.InputBufferLength;
    NTSTATUS status = STATUS_SUCCESS;
    ULONG_PTR information = 0;
    UNREFERENCED_PARAMETER(DeviceObject);
    if (stack->MajorFunction == IRP_MJ_DEVICE_CONTROL) {
        PVOID buffer = Irp->AssociatedIrp.SystemBuffer;
        if (code == IOCTL_READ && in >= 8)
            information = read_answer(buffer, stack->Parameters.DeviceIoControl.OutputBufferLength);
        else if (code == IOCTL_PLAY || code == IOCTL_PLAY_BY_TURNS || code == IOCTL_PLAY_AT_ONCE)
            status = perform(buffer, in, code);
        else
            status = STATUS_INVALID_DEVICE_REQUEST;
    }
    Irp->IoStatus.Status = status;
    Irp->IoStatus.Information = information;
    IoCompleteRequest(Irp, IO_NO_INCREMENT);
    return status;
}

static UNICODE_STRING link_name = RTL_CONSTANT_STRING(L"\\DosDevices\\IrpxPlayer");

static VOID NTAPI unload(PDRIVER_OBJECT DriverObject)
{
    forget_answer();
    for (unsigned i = 0; i < PLAY_DRIVERS; i++)
        if (drivers[i])
            IoDeleteDriver(drivers[i]);
    IoDeleteSymbolicLink(&link_name);
    IoDeleteDevice(DriverObject->DeviceObject);
}

NTSTATUS NTAPI DriverEntry(PDRIVER_OBJECT DriverObject, PUNICODE_STRING RegistryPath)
{
    static UNICODE_STRING name = RTL_CONSTANT_STRING(L"\\Device\\IrpxPlayer");
    static UNICODE_STRING taking = RTL_CONSTANT_STRING(L"ExAllocatePool2");
    PDEVICE_OBJECT device;
    UNREFERENCED_PARAMETER(RegistryPath);
    KeInitializeSpinLock(&PlayerLock);
    take = (TAKE *)(ULONG_PTR)MmGetSystemRoutineAddress(&taking);
    NTSTATUS status = IoCreateDevice(DriverObject, 0, &name, FILE_DEVICE_UNKNOWN, 0, TRUE, &device);
    if (!NT_SUCCESS(status))
        return status;
    status = IoCreateSymbolicLink(&link_name, &name);
    if (!NT_SUCCESS(status)) {
        IoDeleteDevice(device);
        return status;
    }
    DriverObject->MajorFunction[IRP_MJ_CREATE] = DriverObject->MajorFunction[IRP_MJ_CLOSE] = control;
    DriverObject->MajorFunction[IRP_MJ_DEVICE_CONTROL] = control;
    DriverObject->DriverUnload = unload;
    return STATUS_SUCCESS;
}
