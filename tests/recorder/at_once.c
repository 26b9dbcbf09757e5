/* at_once.c: `at_once NAME` runs one scenario in which two or more threads work at the same packet or device, at
   moments that are hard to put in order, and writes its transcript to standard output. `at_once` names them all. Each
   is legal. */
#include "recorder.h"
#include "ending.h"
#include "wdm_test.h"

enum { MANY = 40, THREADS = 4 };

static PDEVICE_OBJECT device, other;
static PIRP packets[MANY];
static KEVENT begun, start;
static LONG running;
static BOOLEAN finishes, is_slow, completes_slowly;

static VOID wait_a_while(LONG milliseconds)
{
    LARGE_INTEGER time = { .QuadPart = -10000ll * milliseconds };
    KeDelayExecutionThread(KernelMode, FALSE, &time);
}

static VOID complete(PIRP Irp, NTSTATUS Status)
{
    Irp->IoStatus.Status = Status;
    Irp->IoStatus.Information = 0;
    IoCompleteRequest(Irp, IO_NO_INCREMENT);
}

static NTSTATUS NTAPI keep(PDEVICE_OBJECT DeviceObject, PIRP Irp, PVOID Context)
{
    (void)DeviceObject, (void)Irp, (void)Context;
    return STATUS_MORE_PROCESSING_REQUIRED;
}

static VOID NTAPI cancelled(PDEVICE_OBJECT DeviceObject, PIRP Irp)
{
    (void)DeviceObject;
    IoReleaseCancelSpinLock(Irp->CancelIrql);
    if (is_slow) {
        KeSetEvent(&begun, IO_NO_INCREMENT, FALSE);
        wait_a_while(20);
    }
    if (finishes)
        complete(Irp, STATUS_CANCELLED);
}

static NTSTATUS NTAPI hold(PDEVICE_OBJECT DeviceObject, PIRP Irp)
{
    (void)DeviceObject;
    IoMarkIrpPending(Irp);
    (void)IoSetCancelRoutine(Irp, cancelled);
    return STATUS_PENDING;
}

static NTSTATUS NTAPI entry(PDRIVER_OBJECT DriverObject, PUNICODE_STRING RegistryPath)
{
    (void)RegistryPath;
    IrpxWrapDriver(DriverObject);
    DriverObject->MajorFunction[IRP_MJ_READ] = hold;
    return STATUS_SUCCESS;
}

static PDEVICE_OBJECT create(PDRIVER_OBJECT driver)
{
    PDEVICE_OBJECT made;
    if (!driver || !NT_SUCCESS(IoCreateDevice(driver, 0, NULL, FILE_DEVICE_UNKNOWN, 0, FALSE, &made)))
        exit(2);
    made->Flags &= ~DO_DEVICE_INITIALIZING;
    return made;
}

static VOID send(unsigned count)
{
    device = create(WdmLoadDriver("holder", entry));
    for (unsigned i = 0; i < count; i++) {
        packets[i] = IoAllocateIrp(1, FALSE);
        IoGetNextIrpStackLocation(packets[i])->MajorFunction = IRP_MJ_READ;
        IoSetCompletionRoutine(packets[i], keep, NULL, TRUE, TRUE, TRUE);
        IoCallDriver(device, packets[i]);
    }
}

static VOID run_thread(PKSTART_ROUTINE routine, PVOID context)
{
    HANDLE thread;
    InterlockedIncrement(&running);
    if (!NT_SUCCESS(PsCreateSystemThread(&thread, THREAD_ALL_ACCESS, NULL, NULL, NULL, routine, context)))
        exit(2);
    ZwClose(thread);
}

static VOID end_thread(VOID)
{
    InterlockedDecrement(&running);
    PsTerminateSystemThread(STATUS_SUCCESS);
}

static VOID await(VOID)
{
    while (InterlockedExchangeAdd(&running, 0))
        wait_a_while(1);
}

/* One thread's cancel has taken the routine, which runs; another thread's cancel finds none meanwhile. */
static VOID NTAPI cancel_first(PVOID Context)
{
    (void)Context;
    IoCancelIrp(packets[0]);
    end_thread();
}

static VOID cancel_meanwhile(BOOLEAN finish)
{
    finishes = finish;
    is_slow = TRUE;
    send(1);
    run_thread(cancel_first, NULL);
    KeWaitForSingleObject(&begun, Executive, KernelMode, FALSE, NULL);
    IoCancelIrp(packets[0]);
    await();
}
static VOID routine_leaves(VOID) { cancel_meanwhile(FALSE); }
static VOID routine_finishes(VOID) { cancel_meanwhile(TRUE); }

/* All threads cancel all packets, each in the same order. */
static VOID NTAPI cancel_all(PVOID Context)
{
    (void)Context;
    KeWaitForSingleObject(&start, Executive, KernelMode, FALSE, NULL);
    for (int i = 0; i < MANY; i++)
        IoCancelIrp(packets[i]);
    end_thread();
}

static VOID cancel_by_many(BOOLEAN finish)
{
    finishes = finish;
    send(MANY);
    for (int i = 0; i < THREADS; i++)
        run_thread(cancel_all, NULL);
    KeSetEvent(&start, IO_NO_INCREMENT, FALSE);
    await();
}
static VOID many_leave(VOID) { cancel_by_many(FALSE); }
static VOID many_finish(VOID) { cancel_by_many(TRUE); }

/* The manager's completion, which is slow where that is wanted: the program is linked with --wrap for it. */
VOID __real_WdmIoCompleteRequest(PIRP Irp, WDM_SITE at);
VOID __wrap_WdmIoCompleteRequest(PIRP Irp, WDM_SITE at);
VOID __wrap_WdmIoCompleteRequest(PIRP Irp, WDM_SITE at)
{
    if (completes_slowly) {
        KeSetEvent(&begun, IO_NO_INCREMENT, FALSE);
        wait_a_while(50);
    }
    __real_WdmIoCompleteRequest(Irp, at);
}

static VOID NTAPI complete_it(PVOID Context)
{
    (void)Context;
    (void)IoSetCancelRoutine(packets[0], NULL);
    complete(packets[0], STATUS_SUCCESS);
    end_thread();
}

/* A device is deleted while another thread completes a packet, and its routine hasn't run yet. */
static VOID delete_meanwhile(VOID)
{
    send(1);
    other = create(WdmLoadDriver("another", entry));
    completes_slowly = TRUE;
    run_thread(complete_it, NULL);
    KeWaitForSingleObject(&begun, Executive, KernelMode, FALSE, NULL);
    IoDeleteDevice(other);
    await();
}

#define SCENARIO(name) { #name, name }
static const struct { const char *name; VOID (*run)(VOID); } scenarios[] = {
    SCENARIO(routine_leaves), SCENARIO(routine_finishes), SCENARIO(many_leave), SCENARIO(many_finish),
    SCENARIO(delete_meanwhile),
};

int main(int argc, char **argv)
{
    KeInitializeEvent(&begun, NotificationEvent, FALSE);
    KeInitializeEvent(&start, NotificationEvent, FALSE);
    for (size_t i = 0; i < sizeof scenarios / sizeof *scenarios; i++)
        if (argc < 2)
            puts(scenarios[i].name);
        else if (!strcmp(scenarios[i].name, argv[1])) {
            begin_to_watch();
            scenarios[i].run();
            write_transcript();
            _Exit(0); /* the host would tell that nobody called WdmFinish */
        }
    return argc < 2 ? 0 : 2;
}
