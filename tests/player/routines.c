/* routines.c: the script's completion routines, cancel routines and dispatches. */
#include "state.h"
#include "functions.h"

/* A packet's number stands in the packet, where its owner may write. */
static PLAY_PACKET *packet_of(PIRP irp)
{
    return &play.Packets[(ULONG_PTR)irp->Tail.Overlay.DriverContext[3]];
}

VOID PlayNumberPacket(PIRP Irp, uint64_t Number)
{
    if (Irp)
        Irp->Tail.Overlay.DriverContext[3] = (PVOID)(ULONG_PTR)Number;
}

VOID PlayFinish(PIRP Irp, NTSTATUS Status, ULONG_PTR Information)
{
    PLAY_PACKET *p = packet_of(Irp);
    p->Owner = PLAY_GONE; /* unless a routine keeps it */
    Irp->IoStatus.Status = Status;
    Irp->IoStatus.Information = Information;
    IoCompleteRequest(Irp, IO_NO_INCREMENT);
    if (p->Owner == PLAY_GONE)
        p->Irp = NULL; /* the manager has freed it */
}

static NTSTATUS completed(unsigned i, PDEVICE_OBJECT DeviceObject, PIRP Irp)
{
    const PLAY_COMPLETION *c = &play.Completions[i];
    const PLAY_BEHAVIOUR *b = NT_SUCCESS(Irp->IoStatus.Status) ? &c->OnOk : &c->OnError;
    const LONG party = DeviceObject ? PlayExtension(DeviceObject)->Number : PLAY_ORIGINATOR;
    const uint64_t bit = DeviceObject ? 1ull << party : 0;
    PLAY_PACKET *p = packet_of(Irp);
    if (b->Kind == BEHAVIOUR_KEEP) {
        p->Owner = party;
        if (!(p->Waits & bit))
            PlayWithin(p, party, PLAY_IN_ROUTINE);
        return STATUS_MORE_PROCESSING_REQUIRED;
    }
    p->Waits &= ~bit;
    if (b->Kind == BEHAVIOUR_REPLACE) {
        Irp->IoStatus.Status = (NTSTATUS)b->Status;
        Irp->IoStatus.Information = (ULONG_PTR)b->Information;
    }
    if (Irp->PendingReturned && DeviceObject)
        IoMarkIrpPending(Irp);
    return STATUS_CONTINUE_COMPLETION;
}

#define COMPLETION(n) \
    static NTSTATUS NTAPI Completion##n(PDEVICE_OBJECT DeviceObject, PIRP Irp, PVOID Context) \
    { \
        UNREFERENCED_PARAMETER(Context); \
        return completed(PLAY_NUMBER(n), DeviceObject, Irp); \
    }
PLAY_256(COMPLETION)
#define COMPLETION_NAME(n) Completion##n,
const PIO_COMPLETION_ROUTINE PlayCompletions[PLAY_MANY] = { PLAY_256(COMPLETION_NAME) };

VOID PlaySetRoutine(PIRP Irp, const PLAY_SETTING *Set)
{
    IoSetCompletionRoutine(Irp, PlayCompletions[Set->Routine - 1], (PVOID)(ULONG_PTR)Set->Context,
                           (Set->Flags & 1) != 0, (Set->Flags & 2) != 0, (Set->Flags & 4) != 0);
}

static VOID cancelled(unsigned i, PIRP Irp)
{
    IoReleaseCancelSpinLock(Irp->CancelIrql);
    if (play.Cancels[i].Finishes)
        PlayFinish(Irp, STATUS_CANCELLED, (ULONG_PTR)play.Cancels[i].Information);
}

#define CANCEL(n) \
    static VOID NTAPI Cancel##n(PDEVICE_OBJECT DeviceObject, PIRP Irp) \
    { \
        UNREFERENCED_PARAMETER(DeviceObject); \
        cancelled(PLAY_NUMBER(n), Irp); \
    }
PLAY_256(CANCEL)
#define CANCEL_NAME(n) Cancel##n,
const PDRIVER_CANCEL PlayCancels[PLAY_MANY] = { PLAY_256(CANCEL_NAME) };

static NTSTATUS finish(PIRP Irp, NTSTATUS Status, ULONG_PTR Information)
{
    PlayFinish(Irp, Status, Information);
    return Status;
}

static NTSTATUS hold(const PLAY_PLAN *plan, PDEVICE_OBJECT DeviceObject, PIRP Irp)
{
    if (plan->Cancel && Irp->Cancel)
        return finish(Irp, STATUS_CANCELLED, 0);
    IoMarkIrpPending(Irp);
    PLAY_PACKET *p = packet_of(Irp);
    p->Owner = PlayExtension(DeviceObject)->Number;
    if (plan->Cancel) {
        (void)IoSetCancelRoutine(Irp, PlayCancels[plan->Cancel - 1]);
        if (Irp->Cancel && IoSetCancelRoutine(Irp, NULL))
            PlayFinish(Irp, STATUS_CANCELLED, 0);
    } else
        PlayWithin(p, p->Owner, PLAY_IN_HOLD);
    return STATUS_PENDING;
}

/* Pends the packet, and passes it down. Where the routine may keep it, the dispatch may wait for that. */
static NTSTATUS forward_pending(const PLAY_PLAN *plan, LONG number, PDEVICE_OBJECT lower, PIRP Irp)
{
    const PLAY_COMPLETION *c = plan->Set.Routine ? &play.Completions[plan->Set.Routine - 1] : NULL;
    const BOOLEAN waits = play.Threads == PLAY_WITHIN && c &&
        (c->OnOk.Kind == BEHAVIOUR_KEEP || c->OnError.Kind == BEHAVIOUR_KEEP);
    const PLAY_STEP *sent = play.Now;
    PLAY_PACKET *p = packet_of(Irp);
    if (waits)
        p->Waits |= 1ull << number;
    (void)IoCallDriver(lower, Irp);
    if (waits) {
        PlayAwait(p, number, sent);
        p->Waits &= ~(1ull << number);
    }
    return STATUS_PENDING;
}

static NTSTATUS pass_down(const PLAY_PLAN *plan, LONG number, PDEVICE_OBJECT lower, PIRP Irp)
{
    if (plan->Kind == PLAN_SKIP) {
        IoSkipCurrentIrpStackLocation(Irp);
        return IoCallDriver(lower, Irp);
    }
    if (plan->Kind == PLAN_FORWARD_PEND)
        IoMarkIrpPending(Irp);
    IoCopyCurrentIrpStackLocationToNext(Irp);
    if (plan->Set.Routine)
        PlaySetRoutine(Irp, &plan->Set);
    return plan->Kind == PLAN_FORWARD_PEND ? forward_pending(plan, number, lower, Irp) : IoCallDriver(lower, Irp);
}

static NTSTATUS dispatched(unsigned i, PDEVICE_OBJECT DeviceObject, PIRP Irp)
{
    const PLAY_PLAN *plan = &play.Dispatches[i];
    const LONG number = PlayExtension(DeviceObject)->Number;
    PDEVICE_OBJECT lower = PlayExtension(DeviceObject)->Lower;
    if (plan->Kind == PLAN_FINISH)
        return finish(Irp, (NTSTATUS)plan->Status, (ULONG_PTR)plan->Information);
    if (plan->Kind == PLAN_HOLD)
        return hold(plan, DeviceObject, Irp);
    return lower ? pass_down(plan, number, lower, Irp) : finish(Irp, STATUS_INVALID_DEVICE_REQUEST, 0);
}

#define DISPATCH(n) \
    static NTSTATUS NTAPI Dispatch##n(PDEVICE_OBJECT DeviceObject, PIRP Irp) \
    { \
        return dispatched(PLAY_NUMBER(n), DeviceObject, Irp); \
    }
PLAY_256(DISPATCH)
#define DISPATCH_NAME(n) Dispatch##n,
const PDRIVER_DISPATCH PlayDispatches[PLAY_MANY] = { PLAY_256(DISPATCH_NAME) };
