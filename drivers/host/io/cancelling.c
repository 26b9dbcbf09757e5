/* cancelling.c: cancel routines, IoCancelIrp, the cancel spin lock. */
#include "io/own.h"
#include "ke/ke.h"
#include "mm/mm.h"
#include "record/record.h"
#include "rules/rules.h"

static KSPIN_LOCK cancel_lock;

/* Where a driver wanted to take the cancel routine out after that had begun, as the second half of a fault; empty where
   none did. What it does then without looking is mostly the cause. */
const char *none_taken(const Packet *p)
{
    static _Thread_local char text[240];
    *text = 0;
    if (p && p->called && p->sites.none_taken.file)
        snprintf(text, sizeof text, "; IoSetCancelRoutine at %s returned NULL: %s had begun", place(p->sites.none_taken),
                 function_name((void *)p->called));
    return text;
}

/* A cancel routine that came after the cancel, and that wasn't taken back: now it becomes an entry. */
void tell_ghost(Packet *p)
{
    PDRIVER_CANCEL routine = p->ghost;
    p->ghost = NULL;
    if (!lives(p))
        return;
    Entry *e = begin(SET_CANCEL, p, p->owner);
    e->routine = routine;
    const char *no = rules_refusal(e);
    if (no)
        refuse(e, no);
    else
        free(e);
}

PDRIVER_CANCEL WdmIoSetCancelRoutine(PIRP Irp, PDRIVER_CANCEL Routine, WDM_SITE at)
{
    Call c;
    enter_host(&c, "IoSetCancelRoutine", at);
    Packet *p = find(Irp);
    await(p);
    Frame *f = dispatching(p), *own = on_top(p);
    PDRIVER_CANCEL old = NULL;
    if (Routine && lives(p))
        p->sites.cancel = at;
    if (exchange_own_cancel(p, Routine, &old)) {
        leave_host();
        return old;
    }
    if (f && !p->next.skipped) {
        old = f->cancel;
        f->cancel = Irp->CancelRoutine = Routine;
    } else if (p->ghost || (own && own == p->asking && !Routine && !p->routine)) {
        old = p->ghost; /* taken back, or none to take: nothing that the rules know of */
        p->ghost = Irp->CancelRoutine = Routine;
    } else {
        if (lives(p))
            settle(p, false);
        Entry *e = begin(SET_CANCEL, p, party_with_location(p));
        e->routine = Routine;
        const char *no = rules_refusal(e);
        if (no && !strcmp(no, "AlreadyCancelled")) { /* the driver looks at Irp->Cancel next, and takes it back */
            p->ghost = Irp->CancelRoutine = Routine;
            free(e);
        } else if (no)
            refuse(e, no);
        else {
            old = p->routine;
            e->reply = PREVIOUS;
            e->seen.routine = old;
            seal(e, false);
            p->routine = Irp->CancelRoutine = Routine;
        }
    }
    if (!Routine && !old && lives(p) && p->called)
        p->sites.none_taken = at;
    leave_host();
    return old;
}

VOID WdmIoAcquireCancelSpinLock(PKIRQL Irql, WDM_SITE at)
{
    *Irql = take_spin_lock(&cancel_lock, CANCEL_LOCK, "IoAcquireCancelSpinLock", at);
    self.has_cancel_lock = true;
}

static void release_cancel_lock(KIRQL irql)
{
    self.has_cancel_lock = false;
    drop_spin_lock(&cancel_lock, CANCEL_LOCK, irql);
}

VOID WdmIoReleaseCancelSpinLock(KIRQL Irql, WDM_SITE at)
{
    self.has_cancel_lock &= !give_spin_lock(&cancel_lock, CANCEL_LOCK, "IoReleaseCancelSpinLock", Irql, true, at);
}

/* Whether a cancel may come: to a packet on its way up only from its own completion routine. */
static bool may_be_cancelled(const void *packet)
{
    const Packet *p = packet;
    return !p->unwinding || (p->asking && is_this_thread(p->asking->thread));
}

/* A packet and its use: it may be over by now. */
typedef struct { Packet *p; uint64_t use; } Request;
static bool is_over(const Request *r) { return r && (!lives(r->p) || r->p->use != r->use); }

/* The packet that stands in for it, in its memory. */
static Packet *rider_of(Packet *p)
{
    while (p->stands_in.by)
        p = p->stands_in.by;
    return p;
}

/* Enters the host for a cancel, with the cancel spin lock: a packet on its way up is cancelled once it is up. The packet
   is known by its pointer, or as a request. */
static KIRQL begin_cancel(Call *c, Packet **p, PIRP irp, const Request *r, WDM_SITE at)
{
    KIRQL irql;
    for (;;) {
        WdmIoAcquireCancelSpinLock(&irql, at);
        enter_quietly(c, "IoCancelIrp", at);
        *p = r ? rider_of(r->p) : find(irp);
        const Wait w = { .ready = may_be_cancelled, .context = *p, .on = &host_settled, .patience = DEADLOCK,
                         .what = "IoCancelIrp", .at = at };
        if (is_over(r) || may_be_cancelled(*p))
            return irql;
        release_cancel_lock(irql);
        if (wait_for(&w) == STUCK)
            give_up("a packet on its way up is cancelled, and never comes up");
        leave_host();
    }
}

/* The packets that this one stands in for are cancelled first. */
static void cancel_ridden(Packet *p)
{
    if (!p)
        return;
    cancel_ridden(p->stands_in.of);
    if (lives(p)) {
        p->cancel = true;
        answered(begin(CANCEL, p, ORIGINATOR), CANCELLED, 0);
    }
}

static void run_cancel_routine(Packet *p, Entry *e, KIRQL irql)
{
    PDRIVER_CANCEL routine = p->routine;
    const int d = p->owner;
    p->routine = p->irp->CancelRoutine = NULL;
    p->called = routine;
    p->irp->CancelIrql = irql;
    Frame f = { .kind = CANCELLING, .p = p, .use = p->use, .fn = (void *)routine, .device = d, .location = p->current,
                .e = e, .i = ask(e, p, CANCELLING, (void *)routine, d, p->current), .before = irql };
    e->reply = CANCELLED;
    e->answer = 1;
    e->asked[0].cancel = routine;
    enter_frame(&f);
    p->asking = &f;
    let_driver_run();
    point("the cancel routine", (WDM_SITE){ 0 });
    routine(devices[d].raw, p->irp);
    driver_came_back();
    leave_frame();
    if (self.has_cancel_lock) {
        fault_of("CancelSpinLock", p, &f, "keeps the cancel spin lock");
        release_cancel_lock(irql);
    }
    if (p->asking == &f)
        settle(p, true);
}

/* Under G and the cancel spin lock, which it gives back. */
static BOOLEAN cancel(Packet *p, KIRQL irql)
{
    Entry *e = begin(CANCEL, p, ORIGINATOR);
    const char *no = rules_refusal(e);
    if (no) {
        release_cancel_lock(irql);
        refuse(e, no);
        return FALSE;
    }
    cancel_ridden(p->stands_in.of);
    /* A routine that a dispatch has set by now: the hold comes before the cancel. One that came after an earlier cancel
       is for its driver to take back, as if this cancel came a moment later. */
    if (!p->cancel && p->asking && p->asking->kind == DISPATCH && p->asking->cancel)
        settle(p, false);
    /* Another cancel's routine runs and hasn't decided: it came before this one, and leaves the packet so far. */
    if (p->asking && p->asking->kind == CANCELLING)
        settle(p, false);
    p->cancel = true;
    p->irp->Cancel = TRUE;
    const bool routine = p->routine != NULL;
    if (routine)
        run_cancel_routine(p, e, irql);
    else {
        answered(e, CANCELLED, 0);
        if (run_own_cancel(p, irql))
            return TRUE;
        release_cancel_lock(irql);
    }
    return routine;
}

BOOLEAN WdmIoCancelIrp(PIRP Irp, WDM_SITE at)
{
    Call c;
    Packet *p;
    const KIRQL irql = begin_cancel(&c, &p, Irp, NULL, at);
    const BOOLEAN routine = cancel(p, irql);
    leave_host();
    return routine;
}

/* The same of a packet that may be over by now: then nothing is done. */
BOOLEAN cancel_if_alive(Packet *p, uint64_t use, WDM_SITE at)
{
    const Request r = { p, use };
    Call c;
    const KIRQL irql = begin_cancel(&c, &p, NULL, &r, at);
    const bool is_late = is_over(&r);
    if (is_late)
        release_cancel_lock(irql);
    const BOOLEAN routine = !is_late && cancel(p, irql);
    leave_host();
    return routine;
}

BOOLEAN WdmCancelSent(PIRP Irp, WDM_SITE at)
{
    Call c;
    Packet *p;
    const KIRQL irql = begin_cancel(&c, &p, Irp, NULL, at);
    const bool is_there = lives(p);
    if (!is_there)
        release_cancel_lock(irql);
    const BOOLEAN routine = is_there && cancel(p, irql);
    leave_host();
    return routine;
}
