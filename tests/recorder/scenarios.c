/* scenarios.c: what the recorder is tried with: small stacks of probes, right and wrong ones. expected.py has what each must
   give. Whoever runs them (on_its_own.c, and windows/scenarios.c as a driver) loads the drivers. */
#include "scenarios.h"

static PDEVICE_OBJECT d[3];
static PPROBE x[3];
static PIRP irp;
static int kept;

static NTSTATUS NTAPI KeepForMe(PDEVICE_OBJECT DeviceObject, PIRP Irp, PVOID Context)
{
    (void)DeviceObject, (void)Irp, (void)Context;
    kept = 1;
    return STATUS_MORE_PROCESSING_REQUIRED;
}

/* Devices of as many drivers, one on the other. */
static void stack(int n)
{
    for (int i = 0; i < n; i++) {
        PDRIVER_OBJECT driver = ScenarioDriver((unsigned)i);
        d[i] = driver ? ProbeAddDevice(driver, i ? d[i - 1] : NULL) : NULL;
        if (!d[i])
            ScenarioStops((unsigned)i);
        x[i] = d[i]->DeviceExtension;
    }
}

static void send_major(int top, UCHAR major, int size)
{
    irp = IoAllocateIrp((CCHAR)size, FALSE);
    IoGetNextIrpStackLocation(irp)->MajorFunction = major;
    IoSetCompletionRoutine(irp, KeepForMe, NULL, TRUE, TRUE, TRUE);
    IoCallDriver(d[top], irp);
}

/* A read of 7 bytes, from the device `top` down. */
static void send(int top, int keep)
{
    irp = IoAllocateIrp(d[top]->StackSize, FALSE);
    PIO_STACK_LOCATION next = IoGetNextIrpStackLocation(irp);
    next->MajorFunction = IRP_MJ_READ;
    next->Parameters.Read.Length = 7;
    if (keep)
        IoSetCompletionRoutine(irp, KeepForMe, &kept, TRUE, TRUE, TRUE);
    kept = 0;
    IoCallDriver(d[top], irp);
}

static void done(void)
{
    if (kept)
        IoFreeIrp(irp);
}

static void stack_forwarding(int n, PROBE_ROUTINE routine)
{
    stack(n);
    for (int i = 1; i < n; i++) {
        x[i]->Mode = FORWARDS;
        x[i]->Routine = routine;
    }
}

static void send_held(int top)
{
    x[0]->Mode = HOLDS;
    send(top, 1);
    ProbeComplete(d[0], STATUS_SUCCESS, 6);
    done();
}

static void finish(void) { stack(1); x[0]->Information = 5; send(0, 1); done(); }

/* As a driver may do when it is unloaded: its table is empty at the end. */
static void clears_table(void)
{
    finish();
    for (int m = 0; m <= IRP_MJ_MAXIMUM_FUNCTION; m++)
        d[0]->DriverObject->MajorFunction[m] = NULL;
}

static void finish_not_kept(void) { stack(1); x[0]->Information = 5; send(0, 0); send(0, 1); done(); }
static void three(void) { stack_forwarding(3, WATCHES); x[0]->Information = 5; send(2, 1); done(); }
static void three_error(void) { stack_forwarding(3, WATCHES); x[0]->Status = STATUS_UNSUCCESSFUL; send(2, 1); done(); }
static void three_held(void) { stack_forwarding(3, WATCHES); send_held(2); }

static void mend(BOOLEAN on_success)
{
    stack_forwarding(3, WATCHES);
    x[0]->Status = STATUS_UNSUCCESSFUL;
    x[1]->Mode = FORWARDS_PENDING;
    x[1]->Routine = MENDS;
    x[2]->OnSuccess = on_success;
    x[2]->OnError = !on_success;
    x[2]->OnCancel = FALSE;
    send(2, 1);
    done();
}
static void mend_on_success(void) { mend(TRUE); }
static void mend_on_error(void) { mend(FALSE); }

static void informational_status(BOOLEAN on_success)
{
    stack_forwarding(2, WATCHES);
    x[0]->Status = (NTSTATUS)0x104;
    x[0]->Information = 3;
    x[1]->OnSuccess = on_success;
    x[1]->OnError = !on_success;
    x[1]->OnCancel = FALSE;
    send(1, 1);
    done();
}
static void informational(void) { informational_status(TRUE); }
static void informational_on_error(void) { informational_status(FALSE); }

static void pending_bit(void) { stack_forwarding(3, NO_ROUTINE); x[2]->Routine = WATCHES; send_held(2); }
static void pending_bit_top(void) { stack_forwarding(2, NO_ROUTINE); send_held(1); }
static void held_below_skips(void) { stack(3); x[1]->Mode = x[2]->Mode = SKIPS; send_held(2); }

static void cancel_stack(PROBE_CANCEL cancel)
{
    stack_forwarding(2, WATCHES);
    x[0]->Mode = HOLDS;
    x[0]->Cancel = cancel;
    x[1]->OnSuccess = x[1]->OnError = FALSE;
    send(1, 1);
    IoCancelIrp(irp);
}
static void cancel_finishes(void) { cancel_stack(CANCEL_FINISHES); done(); }
static void cancel_leaves(void) { cancel_stack(CANCEL_LEAVES); ProbeComplete(d[0], STATUS_CANCELLED, 0); done(); }

static void cancel_none(void)
{
    cancel_stack(NO_CANCEL);
    IoCancelIrp(irp);
    ProbeComplete(d[0], STATUS_SUCCESS, 2);
    done();
}

static void cancel_before(void)
{
    stack(1);
    x[0]->Mode = HOLDS;
    x[0]->Cancel = CANCEL_FINISHES;
    irp = IoAllocateIrp(1, FALSE);
    IoCancelIrp(irp);
    IoGetNextIrpStackLocation(irp)->MajorFunction = IRP_MJ_WRITE;
    IoSetCompletionRoutine(irp, KeepForMe, NULL, FALSE, FALSE, TRUE);
    IoCallDriver(d[0], irp);
    done();
}

static void twice(int top, int keep)
{
    x[0]->Mode = HOLDS;
    send(top, keep);
    ProbeComplete(d[0], STATUS_SUCCESS, 6);
    ProbeComplete(d[0], STATUS_SUCCESS, 6);
}
static void twice_kept(void) { stack(1); twice(0, 1); done(); }
static void twice_ended(void) { stack_forwarding(2, WATCHES); twice(1, 0); send(1, 0); }
static void twice_in_dispatch(void) { stack_forwarding(2, WATCHES); x[0]->Mode = FINISHES_TWICE; send(1, 1); done(); }

static void wait_for_lower(void)
{
    stack_forwarding(3, WATCHES);
    x[0]->Information = 5;
    x[1]->Mode = FORWARDS_AND_WAITS;
    x[1]->Routine = KEEPS;
    send(2, 1);
    done();
}
static void wait_pended(void) { irpx_options.pend = TRUE; wait_for_lower(); }

static void own_packet(void)
{
    stack(3);
    x[0]->Information = 4;
    x[1]->Mode = SENDS_ITS_OWN;
    x[2]->Mode = SKIPS;
    send(2, 1);
    IoReuseIrp(irp, STATUS_UNSUCCESSFUL);
    done();
}

/* Packets that the manager builds and frees, each perhaps where the one before was. */
static void built(void)
{
    LARGE_INTEGER from = { .QuadPart = 0 };
    IO_STATUS_BLOCK status;
    KEVENT event;
    stack(1);
    KeInitializeEvent(&event, NotificationEvent, FALSE);
    for (int i = 0; i < 4; i++) {
        irp = i % 2 ? IoBuildDeviceIoControlRequest(0, d[0], NULL, 0, NULL, 0, FALSE, &event, &status) :
            IoBuildSynchronousFsdRequest(IRP_MJ_READ, d[0], NULL, 0, &from, &event, &status);
        IoCallDriver(d[0], irp);
    }
}

static void no_dispatch(void) { stack_forwarding(2, WATCHES); send_major(1, IRP_MJ_CLEANUP, 2); done(); }
static void forgets_mark(void) { stack_forwarding(2, FORGETS); send_held(1); }

static void unmarked(void)
{
    stack(1);
    x[0]->Mode = HOLDS_UNMARKED;
    send(0, 1);
    ProbeComplete(d[0], STATUS_SUCCESS, 6);
    done();
}

static void skip_routine(void) { stack(2); x[1]->Mode = SKIPS_WITH_ROUTINE; send(1, 1); done(); }
static void bad_status(void) { stack(1); x[0]->Status = STATUS_PENDING; send(0, 1); done(); }
static void delete_in_flight(void) { stack(1); x[0]->Mode = HOLDS; send(0, 1); IoDeleteDevice(d[0]); }

static void not_prepared(void)
{
    stack(1);
    irp = IoAllocateIrp(1, FALSE);
    IoSetCompletionRoutine(irp, KeepForMe, NULL, TRUE, TRUE, TRUE);
    ((PIO_STACK_LOCATION)(irp + 1))->MajorFunction = IRP_MJ_READ; /* behind the recorder's back */
    IoCallDriver(d[0], irp);
    done();
}
static void too_short(void) { stack_forwarding(2, NO_ROUTINE); send_major(1, IRP_MJ_READ, 1); done(); }

#define SCENARIO(name) { #name, name }
const SCENARIO Scenarios[] = {
    SCENARIO(finish), SCENARIO(finish_not_kept), SCENARIO(three), SCENARIO(three_error), SCENARIO(three_held),
    SCENARIO(mend_on_error), SCENARIO(mend_on_success), SCENARIO(informational), SCENARIO(informational_on_error),
    SCENARIO(pending_bit), SCENARIO(pending_bit_top), SCENARIO(held_below_skips), SCENARIO(cancel_finishes),
    SCENARIO(cancel_leaves), SCENARIO(cancel_none), SCENARIO(cancel_before), SCENARIO(twice_kept),
    SCENARIO(twice_ended), SCENARIO(twice_in_dispatch), SCENARIO(wait_for_lower), SCENARIO(wait_pended),
    SCENARIO(own_packet), SCENARIO(built), SCENARIO(clears_table),
    SCENARIO(no_dispatch), SCENARIO(forgets_mark), SCENARIO(unmarked), SCENARIO(skip_routine), SCENARIO(bad_status),
    SCENARIO(delete_in_flight), SCENARIO(not_prepared), SCENARIO(too_short),
};
const unsigned ScenarioCount = sizeof Scenarios / sizeof *Scenarios;

static void take_down(void)
{
    for (int i = 2; i > 0; i--)
        if (d[i]) {
            IoDetachDevice(d[i - 1]);
            IoDeleteDevice(d[i]);
        }
    IoDeleteDevice(d[0]);
}

void ScenarioRun(unsigned number)
{
    for (int i = 0; i < 3; i++)
        d[i] = NULL;
    irpx_options.pend = FALSE;
    Scenarios[number].run();
    if (Scenarios[number].run != delete_in_flight)
        take_down();
}
