/*
 * interrupts.c: interrupts that a test raises, and the deferred calls that service routines ask for.
 *
 * WdmInterrupt runs the service routines of a vector on the thread that calls it, at the interrupt's level, under the
 * interrupt's lock; KeSynchronizeExecution waits for that lock.
 */
#include "explore/explore.h"
#include "ke/ke.h"
#include "mm/mm.h"
#include "record/record.h"
#include "rules/rules.h"

struct _KINTERRUPT {
    PKSERVICE_ROUTINE routine;
    PVOID context;
    ULONG vector;
    KIRQL irql;
    int driver;
    KSPIN_LOCK lock;
    struct _KINTERRUPT *next;
};
static struct _KINTERRUPT *connected;

NTSTATUS WdmIoConnectInterrupt(PKINTERRUPT *Interrupt, PKSERVICE_ROUTINE Routine, PVOID Context, ULONG Vector,
                               KIRQL Irql, WDM_SITE at)
{
    Call c;
    enter_host(&c, "IoConnectInterrupt", at);
    touch(&connected, WRITES);
    check_started();
    struct _KINTERRUPT *i = host_memory(sizeof *i);
    if (i) {
        *i = (struct _KINTERRUPT){ Routine, Context, Vector, Irql > DISPATCH_LEVEL ? Irql : DISPATCH_LEVEL + 1,
                                   calling_driver(), 0, connected };
        connected = i;
    }
    *Interrupt = i;
    leave_host();
    return i ? STATUS_SUCCESS : STATUS_INSUFFICIENT_RESOURCES;
}

VOID WdmIoDisconnectInterrupt(PKINTERRUPT Interrupt, WDM_SITE at)
{
    Call c;
    enter_host(&c, "IoDisconnectInterrupt", at);
    touch(&connected, WRITES);
    struct _KINTERRUPT **i = &connected;
    while (*i && *i != Interrupt)
        i = &(*i)->next;
    if (*i)
        *i = Interrupt->next;
    else
        fault("NotConnected", NULL, "an interrupt is disconnected that isn't connected");
    leave_host();
}

KIRQL WdmKeAcquireInterruptSpinLock(PKINTERRUPT Interrupt, WDM_SITE at)
{
    const KIRQL irql = WdmKeAcquireSpinLock(&Interrupt->lock, at);
    self.irql = Interrupt->irql;
    close_paged();
    return irql;
}

VOID WdmKeReleaseInterruptSpinLock(PKINTERRUPT Interrupt, KIRQL Irql, WDM_SITE at)
{
    WdmKeReleaseSpinLock(&Interrupt->lock, Irql, at);
}

BOOLEAN WdmKeSynchronizeExecution(PKINTERRUPT Interrupt, PKSYNCHRONIZE_ROUTINE Routine, PVOID Context, WDM_SITE at)
{
    const KIRQL irql = WdmKeAcquireInterruptSpinLock(Interrupt, at);
    const BOOLEAN answer = Routine(Context);
    WdmKeReleaseInterruptSpinLock(Interrupt, irql, at);
    return answer;
}

/* Runs one service routine, as code of its driver. */
static BOOLEAN serve(struct _KINTERRUPT *i, WDM_SITE at)
{
    Call c;
    const int driver = self.driver;
    enter_host(&c, "an interrupt", (WDM_SITE){ 0 });
    Frame f = { .kind = WORK, .fn = (void *)i->routine, .device = NOBODY, .settled = true };
    self.driver = i->driver;
    enter_frame(&f);
    let_driver_run();
    const KIRQL irql = WdmKeAcquireInterruptSpinLock(i, at);
    const BOOLEAN is_mine = i->routine(i, i->context);
    WdmKeReleaseInterruptSpinLock(i, irql, at);
    driver_came_back();
    leave_frame();
    self.driver = driver;
    tell_waiters(&host_settled);
    leave_host();
    return is_mine;
}

BOOLEAN WdmRaiseInterrupt(ULONG Vector, WDM_SITE at)
{
    struct _KINTERRUPT *found[16];
    BOOLEAN is_taken = FALSE;
    int n = 0;
    learn_test(at.file);
    hold_host("an interrupt", &connected, READS);
    for (struct _KINTERRUPT *i = connected; i && n < 16; i = i->next)
        if (i->vector == Vector)
            found[n++] = i;
    pthread_mutex_unlock(&host_lock);
    for (int i = 0; i < n && !is_taken; i++)
        is_taken = serve(found[i], at);
    return is_taken;
}

/* The deferred call of a device: it gets the device and the packet that IoRequestDpc named last. */
static VOID run_device_dpc(PKDPC Dpc, PVOID Context, PVOID Irp, PVOID Other)
{
    PDEVICE_OBJECT device = Context;
    PIO_DPC_ROUTINE routine = (PIO_DPC_ROUTINE)device->HostDpcRoutine;
    routine(Dpc, device, Irp, Other);
}

VOID WdmIoInitializeDpcRequest(PDEVICE_OBJECT Device, PIO_DPC_ROUTINE Routine, WDM_SITE at)
{
    Device->HostDpcRoutine = (PVOID)Routine;
    WdmKeInitializeDpc(&Device->Dpc, run_device_dpc, Device, at);
}

BOOLEAN WdmIoRequestDpc(PDEVICE_OBJECT Device, PIRP Irp, PVOID Context, WDM_SITE at)
{
    return WdmKeInsertQueueDpc(&Device->Dpc, Irp, Context, at);
}

/* Ports and buses: nothing answers. A test gives a driver registers as memory. */
static void tell_no_hardware(const char *call)
{
    pthread_mutex_lock(&host_lock);
    touch(&host_lock, SYNCS);
    note("not there", "%s: no hardware answers; what is read is all ones, or zero bytes", call);
    pthread_mutex_unlock(&host_lock);
}

UCHAR READ_PORT_UCHAR(PUCHAR Port) { return (void)Port, tell_no_hardware("READ_PORT_UCHAR"), (UCHAR)0xff; }
USHORT READ_PORT_USHORT(PUSHORT Port) { return (void)Port, tell_no_hardware("READ_PORT_USHORT"), (USHORT)0xffff; }
ULONG READ_PORT_ULONG(PULONG Port) { return (void)Port, tell_no_hardware("READ_PORT_ULONG"), 0xffffffffu; }
VOID WRITE_PORT_UCHAR(PUCHAR Port, UCHAR Value) { (void)Port, (void)Value, tell_no_hardware("WRITE_PORT_UCHAR"); }
VOID WRITE_PORT_USHORT(PUSHORT Port, USHORT Value) { (void)Port, (void)Value, tell_no_hardware("WRITE_PORT_USHORT"); }
VOID WRITE_PORT_ULONG(PULONG Port, ULONG Value) { (void)Port, (void)Value, tell_no_hardware("WRITE_PORT_ULONG"); }

/* A physical address here is the address of the test's memory (MmGetPhysicalAddress). */
PVOID MmMapIoSpace(PHYSICAL_ADDRESS Address, SIZE_T Bytes, MEMORY_CACHING_TYPE Cache)
{
    (void)Bytes, (void)Cache;
    return (PVOID)(ULONG_PTR)Address.QuadPart;
}

VOID MmUnmapIoSpace(PVOID Base, SIZE_T Bytes) { (void)Base, (void)Bytes; }

ULONG HalGetBusDataByOffset(BUS_DATA_TYPE Type, ULONG Bus, ULONG Slot, PVOID Buffer, ULONG Offset, ULONG Length)
{
    (void)Type, (void)Bus, (void)Slot, (void)Offset;
    tell_no_hardware("HalGetBusDataByOffset");
    memset(Buffer, 0, Length);
    return Length;
}

ULONG HalSetBusDataByOffset(BUS_DATA_TYPE Type, ULONG Bus, ULONG Slot, PVOID Buffer, ULONG Offset, ULONG Length)
{
    (void)Type, (void)Bus, (void)Slot, (void)Buffer, (void)Offset;
    tell_no_hardware("HalSetBusDataByOffset");
    return Length;
}

NTSTATUS HalAllocateHardwareCounters(PGROUP_AFFINITY Affinity, ULONG Count, PVOID List, PHANDLE Set)
{
    (void)Affinity, (void)Count, (void)List;
    *Set = (HANDLE)Set;
    return STATUS_SUCCESS;
}

NTSTATUS HalFreeHardwareCounters(HANDLE Set) { return Set ? STATUS_SUCCESS : STATUS_INVALID_HANDLE; }
uint64_t __readmsr(ULONG Number) { return tell_no_hardware("__readmsr"), (uint64_t)(Number - Number); }
VOID __writemsr(ULONG Number, uint64_t Value) { (void)Number, (void)Value, tell_no_hardware("__writemsr"); }
