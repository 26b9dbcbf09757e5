"""Tests of what the host does no more in a run: it is told as a limit, and right drivers don't meet one."""

# A sum under a lock, which a deferred call reads under the same lock, and a test that writes many bytes: nothing races.
LONG_LOOP = """#include <wdm.h>
#include "wdm_test.h"
#include <pthread.h>

static KSPIN_LOCK lock;
static ULONG sum, seen;
static KTIMER timer;
static KDPC dpc;

static VOID Tick(PKDPC Dpc, PVOID Context, PVOID One, PVOID Two)
{
    UNREFERENCED_PARAMETER(Dpc), UNREFERENCED_PARAMETER(Context), UNREFERENCED_PARAMETER(One), UNREFERENCED_PARAMETER(Two);
    KeAcquireSpinLockAtDpcLevel(&lock);
    seen = sum;
    KeReleaseSpinLockFromDpcLevel(&lock);
}

static void *write_often(void *context)
{
    static UCHAR bytes[3 << 19]; /* more words than the host keeps in mind, and then fewer, often */
    for (int i = 0; i < 20; i++) {
        KIRQL level;
        KeAcquireSpinLock(&lock, &level);
        for (ULONG k = 0; k < (i ? 4096 : sizeof bytes); k += 4) {
            bytes[k]++;
            sum += bytes[k];
        }
        KeReleaseSpinLock(&lock, level);
        WdmSend(context, IRP_MJ_WRITE, 0, 4);
    }
    return NULL;
}

int main(void)
{
    pthread_t t[2];
    LARGE_INTEGER due = { .QuadPart = -100000 };
    PDEVICE_OBJECT bottom = WdmCreateBottom(FALSE);
    KeInitializeSpinLock(&lock);
    KeInitializeTimer(&timer);
    KeInitializeDpc(&dpc, Tick, NULL);
    KeSetTimerEx(&timer, due, 10, &dpc);
    for (int i = 0; i < 2; i++)
        pthread_create(&t[i], NULL, write_often, bottom);
    for (int i = 0; i < 2; i++)
        pthread_join(t[i], NULL);
    KeCancelTimer(&timer);
    KeFlushQueuedDpcs();
    return WdmFinish();
}
"""
# Threads one after the other, more than may be there at once; with the word `at_once` they are; with `devices` each has one.
MANY = """#include <wdm.h>
#include "wdm_test.h"
#include <pthread.h>

static PDEVICE_OBJECT bottom;
static BOOLEAN makes_devices;

static void *send(void *context)
{
    PDEVICE_OBJECT own = makes_devices ? WdmCreateBottom(FALSE) : bottom;
    WdmSend(own, IRP_MJ_READ, 0, 4);
    if (makes_devices)
        IoDeleteDevice(own);
    return context;
}

int main(int argc, char **argv)
{
    pthread_t t[70];
    const BOOLEAN at_once = argc > 1 && !strcmp(argv[1], "at_once");
    bottom = WdmCreateBottom(FALSE);
    makes_devices = argc > 1 && !at_once;
    for (int i = 0; i < 70; i++) {
        pthread_create(&t[i], NULL, send, NULL);
        if (!at_once)
            pthread_join(t[i], NULL);
    }
    for (int i = 0; at_once && i < 70; i++)
        pthread_join(t[i], NULL);
    return WdmFinish();
}
"""
# A driver each of whose devices stands on the bottom device beside many others: five such stacks have more than a history may.
MANY_IN_A_STACK = """#include <wdm.h>

static NTSTATUS Pass(PDEVICE_OBJECT DeviceObject, PIRP Irp)
{
    PDEVICE_OBJECT *ext = DeviceObject->DeviceExtension;
    const PIO_STACK_LOCATION stack = IoGetCurrentIrpStackLocation(Irp);
    const BOOLEAN goes = stack->MajorFunction == IRP_MJ_PNP && stack->MinorFunction == IRP_MN_REMOVE_DEVICE;
    IoSkipCurrentIrpStackLocation(Irp);
    const NTSTATUS status = IoCallDriver(ext[14], Irp);
    for (int i = 0; goes && i < 14; i++)
        IoDeleteDevice(ext[i]);
    if (goes) {
        IoDetachDevice(ext[14]);
        IoDeleteDevice(DeviceObject);
    }
    return status;
}

static NTSTATUS Add(PDRIVER_OBJECT DriverObject, PDEVICE_OBJECT Pdo)
{
    PDEVICE_OBJECT device, *ext;
    NTSTATUS status = IoCreateDevice(DriverObject, 15 * sizeof device, NULL, FILE_DEVICE_UNKNOWN, 0, FALSE, &device);
    ext = device->DeviceExtension;
    for (int i = 0; i < 14; i++) {
        IoCreateDevice(DriverObject, 0, NULL, FILE_DEVICE_UNKNOWN, 0, FALSE, &ext[i]);
        ext[i]->Flags &= ~(ULONG)DO_DEVICE_INITIALIZING;
    }
    ext[14] = IoAttachDeviceToDeviceStack(device, Pdo);
    device->Flags &= ~(ULONG)DO_DEVICE_INITIALIZING;
    return status;
}

static VOID Unload(PDRIVER_OBJECT DriverObject) { UNREFERENCED_PARAMETER(DriverObject); }

NTSTATUS DriverEntry(PDRIVER_OBJECT DriverObject, PUNICODE_STRING RegistryPath)
{
    UNREFERENCED_PARAMETER(RegistryPath);
    for (int i = 0; i <= IRP_MJ_MAXIMUM_FUNCTION; i++)
        DriverObject->MajorFunction[i] = Pass;
    DriverObject->DriverExtension->AddDevice = Add;
    DriverObject->DriverUnload = Unload;
    return STATUS_SUCCESS;
}
"""
NOT_FURTHER = "not tried further: the run has as many scheduling points as --points says"


def ran(bench, name, text, *words):
    """Returns what `run` says of a test with this text."""
    folder = bench.folder(name)
    with open(folder + "/test.c", "w", encoding="utf-8") as it:
        it.write(text)
    return bench.ran(*words, folder + "/test.c")


def wrong(told, status, *wanted):
    """Returns what it doesn't say, or its other exit status, or None."""
    missing = [it for it in wanted if it not in told.stdout]
    if told.returncode == status and not missing:
        return None
    return f"status {told.returncode}, no {missing}: {told.stdout[-600:]}{told.stderr[-600:]}"


def tests(bench):
    """Yields names and complaints."""
    told = ran(bench, "long loop", LONG_LOOP, "--seeds", "1..2", "--points", "5000")
    yield "a long loop under a lock, by seeds", wrong(told, 0, "2 of 2 runs are clean")
    told = ran(bench, "many threads", MANY, "--seeds", "1..2")
    yield "70 threads one after the other, by seeds", wrong(told, 0, "2 of 2 runs are clean")
    told = ran(bench, "many threads, every order", MANY, "--every-order", "--judge", "1")
    yield "70 threads one after the other, every order", wrong(told, 0, "in any order with at most ")
    told = ran(bench, "threads at once", MANY, "--shake", "1", "--args", "at_once")
    yield "70 threads at once", wrong(told, 3, "not tried further: more than 32 threads at once under a schedule: let its test begin")
    told = ran(bench, "many devices", MANY, "--shake", "1", "--args", "devices")
    yield "70 devices one after the other", wrong(told, 3, "not tried further: 64 devices in one run")
    told = ran(bench, "many devices in a stack", MANY_IN_A_STACK)
    yield "a stack of 16 devices, five times", wrong(told, 0, "a device below that doesn't start: the stacks before it have had most")
    told = ran(bench, "few points", MANY, "--seeds", "1..2", "--points", "100")
    yield "a run with too many points, by seeds", wrong(told, 3, NOT_FURTHER, "0 of 2 runs are clean, 2 reached a limit")
    told = ran(bench, "few points, every order", MANY, "--every-order", "--judge", "1", "--points", "100")
    yield "a run with too many points, every order", wrong(told, 3, NOT_FURTHER, "not every order was made")
