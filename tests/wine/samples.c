/* samples.c: `samples [pend]` runs the sample drivers bus, toaster and filter, as they are, on the manager that the
   program is linked with: start, requests that end, wait and are cancelled, and remove. */
#include "recorder.h"
#include "ending.h"

NTSTATUS NTAPI IoCreateDriver(UNICODE_STRING *Name, PDRIVER_INITIALIZE Entry);
DRIVER_INITIALIZE bus_DriverEntry, toaster_DriverEntry, filter_DriverEntry;
NTSTATUS BusCreatePdo(PDRIVER_OBJECT DriverObject, PDEVICE_OBJECT *Pdo);
BOOLEAN BusDataArrived(PDEVICE_OBJECT Pdo, ULONG Bytes);

typedef struct { PIRP irp; int done; } Request;
static PDEVICE_OBJECT pdo;
static PDRIVER_OBJECT loaded;
static PDRIVER_INITIALIZE next_entry;

static NTSTATUS NTAPI entry(PDRIVER_OBJECT DriverObject, PUNICODE_STRING RegistryPath)
{
    IrpxWrapDriver(loaded = DriverObject);
    return next_entry(DriverObject, RegistryPath);
}

static PDRIVER_OBJECT load(WCHAR letter, PDRIVER_INITIALIZE its_entry)
{
    WCHAR text[] = L"\\Driver\\Px";
    UNICODE_STRING name = { sizeof text - 2, sizeof text, text };
    text[9] = letter;
    next_entry = its_entry;
    if (IoCreateDriver(&name, entry)) {
        fprintf(stderr, "driver %c can't be loaded\n", letter);
        exit(2);
    }
    return loaded;
}

static NTSTATUS NTAPI keep_for_me(PDEVICE_OBJECT DeviceObject, PIRP Irp, PVOID Context)
{
    (void)DeviceObject, (void)Irp;
    ((Request *)Context)->done = 1;
    return STATUS_MORE_PROCESSING_REQUIRED;
}

static void start(Request *r, UCHAR major, UCHAR minor, ULONG length, int cancelled)
{
    PDEVICE_OBJECT top = IoGetAttachedDevice(pdo);
    r->done = 0;
    r->irp = IoAllocateIrp(top->StackSize, FALSE);
    if (major == IRP_MJ_PNP)
        r->irp->IoStatus.Status = STATUS_NOT_SUPPORTED;
    PIO_STACK_LOCATION next = IoGetNextIrpStackLocation(r->irp);
    next->MajorFunction = major;
    next->MinorFunction = minor;
    next->Parameters.Read.Length = length;
    IoSetCompletionRoutine(r->irp, keep_for_me, r, TRUE, TRUE, TRUE);
    if (cancelled)
        IoCancelIrp(r->irp);
    IoCallDriver(top, r->irp);
}

static void finish(Request *r)
{
    if (r->done)
        IoFreeIrp(r->irp);
    else
        fprintf(stderr, "a request isn't done\n");
}

static void send(UCHAR major, UCHAR minor, ULONG length)
{
    Request r;
    start(&r, major, minor, length, 0);
    finish(&r);
}

static void read_three(void)
{
    Request a, b, c;
    start(&a, IRP_MJ_READ, 0, 10, 0);
    start(&b, IRP_MJ_READ, 0, 20, 0);
    BusDataArrived(pdo, 10);
    IoCancelIrp(b.irp);
    finish(&a);
    finish(&b);
    start(&c, IRP_MJ_READ, 0, 30, 1);
    finish(&c);
}

int main(int argc, char **argv)
{
    (void)argv;
    begin_to_watch();
    irpx_options.pend = argc > 1;
    PDRIVER_OBJECT bus = load('B', bus_DriverEntry), toaster = load('T', toaster_DriverEntry),
                   filter = load('F', filter_DriverEntry);
    BusCreatePdo(bus, &pdo);
    toaster->DriverExtension->AddDevice(toaster, pdo);
    filter->DriverExtension->AddDevice(filter, pdo);
    send(IRP_MJ_PNP, IRP_MN_START_DEVICE, 0);
    send(IRP_MJ_PNP, 9, 0);
    send(IRP_MJ_POWER, IRP_MN_SET_POWER, 0);
    send(IRP_MJ_WRITE, 0, 5);
    send(IRP_MJ_WRITE, 0, 0);
    send(IRP_MJ_CREATE, 0, 0);
    send(IRP_MJ_DEVICE_CONTROL, 0, 16);
    read_three();
    send(IRP_MJ_PNP, IRP_MN_REMOVE_DEVICE, 0);
    IoDeleteDevice(pdo);
    write_transcript();
    IrpxForget();
    return 0;
}
