/* testing.c: what wdm_test.h has: loading drivers, building and sending packets, and the end of a run. */
#include "explore/explore.h"
#include "io/io.h"
#include "ke/ke.h"
#include "mm/mm.h"
#include "ob/ob.h"
#include "pnp/pnp.h"
#include "record/record.h"
#include "rtl/rtl.h"
#include "rules/rules.h"
#include <errno.h>

PDRIVER_OBJECT drivers[MAX_DRIVERS];
int n_drivers;

/* A driver fails where it had all that it asked for. */
static void tell_failed(const char *what, PDRIVER_OBJECT driver, NTSTATUS status, WDM_SITE at)
{
    Call c;
    enter_host(&c, what, (WDM_SITE){ 0 });
    if (memory_was_refused() || is_expected_refusal(what))
        say("%s of %s returned %#x", what, driver->HostName, (unsigned)status);
    else
        fault_at(what, NULL, what, at, "%s of %s returned %#x", what, driver->HostName, (unsigned)status);
    leave_host();
}

/* AddDevice clears the flag of each device that it has made: only of those of DriverEntry the I/O manager does. Wine sets
   none. */
static void tell_initializing(PDRIVER_OBJECT driver, int first)
{
    for (int d = first; d < n_devices; d++) {
        Call c;
        enter_quietly(&c, "IoCreateDevice", devices[d].created);
        const bool is_left = devices[d].live && devices[d].driver == driver && devices[d].raw->Flags & DO_DEVICE_INITIALIZING;
        if (is_left && options.is_wines)
            note("DO_DEVICE_INITIALIZING", "AddDevice of %s leaves DO_DEVICE_INITIALIZING set", driver->HostName);
        else if (is_left)
            broken("StillInitializing", NULL, "AddDevice of %s returns, and %s still has DO_DEVICE_INITIALIZING",
                   driver->HostName, who(d));
        leave_host();
    }
}

NTSTATUS WdmAdd(PDRIVER_OBJECT Driver, PDEVICE_OBJECT Pdo, WDM_SITE at)
{
    const int before = self.driver, first = n_devices;
    self.driver = Driver->HostNumber;
    const NTSTATUS status = Driver->DriverExtension->AddDevice(Driver, Pdo);
    self.driver = before;
    if (NT_SUCCESS(status))
        tell_initializing(Driver, first);
    else
        tell_failed("AddDevice", Driver, status, at);
    return status;
}

/* Makes a driver object, and calls DriverEntry. Returns its status. */
static NTSTATUS load(const char *Name, PDRIVER_INITIALIZE Entry, PDRIVER_OBJECT *driver, WDM_SITE at)
{
    Call c;
    WCHAR text[160];
    UNICODE_STRING path;
    WdmSwprintf(text, ARRAYSIZE(text), L"\\Registry\\Machine\\System\\CurrentControlSet\\Services\\%S", Name);
    RtlInitUnicodeString(&path, text);
    enter_host(&c, "WdmLoadDriver", (WDM_SITE){ 0 });
    open_traps();
    PDRIVER_OBJECT d = host_memory(sizeof *d);
    PDRIVER_EXTENSION extension = host_memory(sizeof *extension);
    if (!d || !extension || n_drivers == MAX_DRIVERS)
        reach_limit("more than 64 drivers");
    extension->DriverObject = d;
    d->DriverExtension = extension;
    d->DriverInit = Entry;
    d->HostName = Name;
    d->DriverName = driver_name(Name);
    d->HostNumber = n_drivers;
    drivers[n_drivers++] = d;
    const int before = self.driver;
    self.driver = d->HostNumber;
    leave_host();
    const NTSTATUS status = Entry(d, &path);
    if (NT_SUCCESS(status)) {
        for (PDEVICE_OBJECT it = d->DeviceObject; it; it = it->NextDevice)
            it->Flags &= ~(ULONG)DO_DEVICE_INITIALIZING; /* of what DriverEntry makes the I/O manager clears it */
        reinitialize(d);
    }
    self.driver = before;
    if (!NT_SUCCESS(status)) {
        tell_failed("DriverEntry", d, status, at);
        end_without_driver(d);
    }
    *driver = NT_SUCCESS(status) ? d : NULL;
    return status;
}

PDRIVER_OBJECT WdmLoad(const char *Name, PDRIVER_INITIALIZE Entry, WDM_SITE at)
{
    PDRIVER_OBJECT driver;
    learn_test(at.file);
    load(Name, Entry, &driver, at);
    return driver;
}

/* A driver that makes another: it is named by the last part of its name. */
NTSTATUS WdmIoCreateDriver(PUNICODE_STRING Name, PDRIVER_INITIALIZE Entry, WDM_SITE at)
{
    PDRIVER_OBJECT driver;
    char *name = host_memory(Name->Length / sizeof(WCHAR) + 1u), *last = name;
    if (!name)
        return STATUS_INSUFFICIENT_RESOURCES;
    for (USHORT i = 0; i < Name->Length / sizeof(WCHAR); i++)
        if ((name[i] = (char)Name->Buffer[i]) == '\\')
            last = name + i + 1;
    return load(last, Entry, &driver, at);
}

extern const struct { const char *name; PDRIVER_INITIALIZE entry; } wdm_drivers[] __attribute__((weak));

PDRIVER_OBJECT WdmLoadNamed(const char *Name, WDM_SITE at)
{
    for (int i = 0; wdm_drivers && wdm_drivers[i].name; i++)
        if (!strcmp(wdm_drivers[i].name, Name))
            return WdmLoad(wdm_drivers[i].name, wdm_drivers[i].entry, at);
    say("no driver is named %s", Name);
    return NULL;
}

VOID WdmUnloadDriver(PDRIVER_OBJECT Driver)
{
    const int before = self.driver;
    self.driver = Driver->HostNumber;
    if (Driver->DriverUnload)
        Driver->DriverUnload(Driver);
    self.driver = before;
    Call c;
    enter_host(&c, "WdmUnloadDriver", (WDM_SITE){ 0 });
    if (Driver->DriverUnload) {
        tell_calls_left(Driver->HostNumber);
        finish_work();
        tell_left(Driver->HostNumber);
        tell_pool_leaks(Driver->HostNumber, true);
    }
    leave_host();
}

/* Buffers as the I/O manager gives them, and the packet frees them: of a read or write the one that the flags of the
   stack's topmost device ask for, but Wine's I/O manager gives a system buffer whatever they say. A control's are given
   at its first send, when its code is known (mdl.c). */
static void give_buffer(PIRP irp, PDEVICE_OBJECT top, UCHAR major, ULONG length, WDM_SITE at)
{
    const bool is_transfer = major == IRP_MJ_READ || major == IRP_MJ_WRITE;
    if (!length)
        return;
    Call c;
    enter_host(&c, "WdmBuildIrp", (WDM_SITE){ 0 });
    Packet *p = find(irp);
    MDL *mdl = p->buffer.given = host_memory(2 * sizeof *mdl);
    p->buffer.bytes = mdl ? new_block(length, 0, WDM_POOL_ZERO, at) : NULL;
    if (!p->buffer.bytes)
        give_up("out of memory");
    p->buffer.bytes->is_buffer = true;
    MmInitializeMdl(mdl, p->buffer.bytes->bytes, length);
    mdl->MdlFlags |= MDL_PAGES_LOCKED;
    irp->UserBuffer = p->buffer.bytes->bytes;
    if (!is_transfer || top->Flags & DO_BUFFERED_IO || options.is_wines)
        irp->AssociatedIrp.SystemBuffer = p->buffer.bytes->bytes;
    else if (top->Flags & DO_DIRECT_IO)
        irp->MdlAddress = mdl;
    p->buffer.direct = mdl + 1;
    leave_host();
}

/* What the I/O manager says of a packet. A program's request has its mode; CLEANUP, CLOSE and what no program sends have the
   kernel's. */
static void say_whose(PIRP irp, UCHAR major)
{
    static const ULONG flags[] = { [IRP_MJ_CREATE] = IRP_CREATE_OPERATION | IRP_SYNCHRONOUS_API | IRP_DEFER_IO_COMPLETION,
                                   [IRP_MJ_CLOSE] = IRP_CLOSE_OPERATION | IRP_SYNCHRONOUS_API,
                                   [IRP_MJ_READ] = IRP_READ_OPERATION | IRP_DEFER_IO_COMPLETION,
                                   [IRP_MJ_WRITE] = IRP_WRITE_OPERATION | IRP_DEFER_IO_COMPLETION,
                                   [IRP_MJ_QUERY_INFORMATION] = IRP_INPUT_OPERATION | IRP_DEFER_IO_COMPLETION,
                                   [IRP_MJ_SET_INFORMATION] = IRP_DEFER_IO_COMPLETION,
                                   [IRP_MJ_CLEANUP] = IRP_SYNCHRONOUS_API | IRP_CLOSE_OPERATION };
    const bool is_programs = major == IRP_MJ_CREATE || major == IRP_MJ_READ || major == IRP_MJ_WRITE ||
        major == IRP_MJ_FLUSH_BUFFERS || major == IRP_MJ_DEVICE_CONTROL || major == IRP_MJ_QUERY_INFORMATION ||
        major == IRP_MJ_SET_INFORMATION;
    irp->RequestorMode = is_programs ? UserMode : KernelMode;
    irp->Flags |= major < ARRAYSIZE(flags) ? flags[major] : 0;
    if (irp->AssociatedIrp.SystemBuffer)
        irp->Flags |= IRP_BUFFERED_IO | IRP_DEALLOCATE_BUFFER | (major == IRP_MJ_READ ? IRP_INPUT_OPERATION : 0);
}

/* The packet is the I/O manager's: it is freed at its end, whether or not somebody wants its status. */
static void frees_itself(PIRP irp)
{
    Call c;
    enter_host(&c, "WdmBuildIrp", (WDM_SITE){ 0 });
    find(irp)->built.by_manager = true;
    remember_blocks(find(irp));
    leave_host();
}

PIRP WdmBuild(PDEVICE_OBJECT Top, UCHAR Major, UCHAR Minor, ULONG Length, PIO_STATUS_BLOCK Iosb, PKEVENT Event,
              WDM_SITE at)
{
    if (!self.frames && !self.is_driver) /* else it may be a driver's PoRequestPowerIrp */
        learn_test(at.file);
    PIRP irp = WdmIoAllocateIrp(Top->StackSize, at);
    if (!irp)
        return NULL;
    if (Major == IRP_MJ_PNP || Major == IRP_MJ_POWER || Major == IRP_MJ_SYSTEM_CONTROL)
        WdmIoReuseIrp(irp, STATUS_NOT_SUPPORTED, at);
    else
        give_buffer(irp, Top, Major, Length, at);
    PIO_STACK_LOCATION next = WdmIoGetNextIrpStackLocation(irp, at);
    next->MajorFunction = Major;
    next->MinorFunction = Minor;
    if (Major == IRP_MJ_DEVICE_CONTROL || Major == IRP_MJ_INTERNAL_DEVICE_CONTROL)
        next->Parameters.DeviceIoControl.InputBufferLength =
            next->Parameters.DeviceIoControl.OutputBufferLength = Length;
    else if (Major == IRP_MJ_CREATE)
        ask_to_open(next);
    else
        next->Parameters.Read.Length = Length;
    if (Major != IRP_MJ_PNP && Major != IRP_MJ_POWER && Major != IRP_MJ_SYSTEM_CONTROL)
        next->FileObject = irp->Tail.Overlay.OriginalFileObject = file_for(Top, Major, at);
    irp->Tail.Overlay.Thread = KeGetCurrentThread();
    irp->UserIosb = Iosb;
    irp->UserEvent = Event;
    say_whose(irp, Major);
    frees_itself(irp);
    return irp;
}

NTSTATUS WdmSendAndWait(PDEVICE_OBJECT Top, UCHAR Major, UCHAR Minor, ULONG Length, ULONG Code, WDM_SITE at)
{
    IO_STATUS_BLOCK iosb = { 0 };
    KEVENT ended;
    WdmKeInitializeEvent(&ended, NotificationEvent, FALSE);
    PIRP irp = WdmBuild(Top, Major, Minor, Length, &iosb, &ended, at);
    if (!irp)
        return STATUS_INSUFFICIENT_RESOURCES;
    if (Major == IRP_MJ_DEVICE_CONTROL)
        WdmIoGetNextIrpStackLocation(irp, at)->Parameters.DeviceIoControl.IoControlCode = Code;
    PFILE_OBJECT file = irp->Tail.Overlay.OriginalFileObject;
    if (Major == IRP_MJ_CLOSE && !before_close(file, at)) {
        WdmIoFreeIrp(irp, at);
        return STATUS_PENDING;
    }
    if (Major == IRP_MJ_CLEANUP)
        before_cleanup(file);
    WdmIoCallDriver(Top, irp, at);
    WdmKeWaitForSingleObject(&ended, NULL, at);
    if (Major == IRP_MJ_CLEANUP)
        after_cleanup(file, at);
    return iosb.Status;
}

ULONG WdmRounds(ULONG Usual)
{
    const ULONG most = (ULONG)options.rounds;
    return most && most < Usual ? most : Usual;
}

static bool sends_are_back(const void *context)
{
    (void)context;
    return !n_sends;
}

static void tell_leftovers(void)
{
    for (int i = 0; i < n_packets; i++) {
        Packet *p = packets[i];
        if (p->ghost)
            tell_ghost(p);
        if (is_cancelled_and_held(p))
            tell_cancelled_and_held(p);
        else if (lives(p) && p->owner >= 0)
            note("at the end", "IRP %u.%lu, sent at %s, is still held by %s", p->slot, (unsigned long)p->use,
                 place(p->sites.sent), who(p->owner));
        else if (lives(p) && p->allocator != NOBODY && !p->asking && is_in_page(p->irp) && !is_packet_leak(p))
            note("at the end", "IRP %u.%lu, allocated at %s, was never freed", p->slot, (unsigned long)p->use,
                 place(p->sites.allocated));
    }
    tell_packet_leaks();
}

static bool has_no_device(int driver)
{
    for (int i = 0; i < n_devices; i++)
        if (devices[i].live && devices[i].raw->DriverObject->HostNumber == driver)
            return false;
    return true;
}

int WdmFinish(void)
{
    Call c;
    enter_host(&c, "WdmFinish", (WDM_SITE){ 0 });
    finish_work();
    if (!wait_for_host(sends_are_back, NULL))
        fault("Hang", NULL, "%d sends haven't returned at the end", n_sends);
    tell_leftovers();
    for (int i = 0; i < n_drivers; i++)
        if (has_no_device(i))
            tell_pool_leaks(i, false);
    tell_references();
    tell_locked_mdls();
    tell_links_to_nothing();
    const size_t n = write_out();
    if (n < expected_entries())
        say("%zu entries are fewer than the %zu that the test expects", n, expected_entries());
    const int faults = n_faults;
    run_is_finished();
    leave_host();
    return faults || n < expected_entries() ? 2 : 0;
}
