/*
 * unsent.c: what an originator may do in Windows with a packet that it hasn't sent, or has back: it sets a cancel routine,
 * goes to the next location by hand, completes the packet there by itself. The rules know nothing of that, and nothing of
 * it is recorded but a cancel.
 */
#include "io/own.h"
#include "ke/ke.h"
#include "record/record.h"

static bool is_with_originator(const Packet *p)
{
    return lives(p) && p->owner == ORIGINATOR && !p->asking && p->current == p->size + 1 && party(p) == ORIGINATOR;
}

/* Returns whether the cancel routine of such a packet was exchanged. Under G. */
bool exchange_own_cancel(Packet *p, PDRIVER_CANCEL routine, PDRIVER_CANCEL *old)
{
    if (!is_with_originator(p))
        return false;
    *old = p->own_cancel;
    p->own_cancel = p->irp->CancelRoutine = routine;
    return true;
}

/* Such a packet is cancelled, and its routine called with the cancel spin lock, which it gives back. Under G. */
bool run_own_cancel(Packet *p, KIRQL irql)
{
    PDRIVER_CANCEL routine = p->own_cancel;
    if (!routine)
        return false;
    p->own_cancel = p->irp->CancelRoutine = NULL;
    p->irp->CancelIrql = irql;
    let_driver_run();
    routine(own_device(p), p->irp);
    driver_came_back();
    return true;
}

/* A packet is sent with a cancel routine of its originator's. */
void tell_own_cancel(Packet *p)
{
    if (!p->own_cancel)
        return;
    fault("CancelRoutineSet", p, "is sent with the cancel routine %s of its originator", function_name((void *)p->own_cancel));
    p->own_cancel = p->irp->CancelRoutine = NULL;
}

/* Whether the originator went to its topmost location by hand, and the call is none by which the packet goes elsewhere. */
bool is_moved_by_hand(Packet *p)
{
    const PIRP irp = p->irp;
    return p->owner == ORIGINATOR && !p->asking && p->current == p->size + 1 && irp->CurrentLocation == p->size &&
        irp->Tail.Overlay.CurrentStackLocation == raw_at(p, p->size) && strcmp(self.calls->name, "IoCallDriver");
}

static bool wants(const IO_STACK_LOCATION *l, const IRP *irp)
{
    const UCHAR met = NT_SUCCESS(irp->IoStatus.Status) ? SL_INVOKE_ON_SUCCESS : SL_INVOKE_ON_ERROR;
    return l->CompletionRoutine && l->Control & (met | (irp->Cancel ? SL_INVOKE_ON_CANCEL : 0));
}

/* The originator completes its packet at the location that it went to by hand: the routine that it set there runs, where it
   is for that. Returns whether that is so. Under G. */
bool complete_unsent(Packet *p)
{
    if (!is_with_originator(p) || !is_moved_by_hand(p))
        return false;
    const IO_STACK_LOCATION l = *raw_at(p, p->size);
    put_back(p);
    prepare_nothing(p);
    memset(raw_at(p, p->size), 0, sizeof l);
    NTSTATUS answer = STATUS_SUCCESS;
    if (wants(&l, p->irp)) {
        let_driver_run();
        answer = l.CompletionRoutine(NULL, p->irp, l.Context);
        driver_came_back();
    }
    if (answer != STATUS_MORE_PROCESSING_REQUIRED)
        fault("NotKept", p, "is completed by its originator, and no routine kept it");
    return true;
}
