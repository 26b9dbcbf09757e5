/*
 * ex_timers.c: timers that call back (ExAllocateTimer), over a timer and a deferred call of the host's. One that is deleted
 * stays as long as the run, so that who uses it then is told.
 */
#include "ke/own.h"
#include "explore/explore.h"
#include "mm/mm.h"
#include "record/record.h"
#include "rules/rules.h"
#include "wdm_timers.h"

struct _EX_TIMER {
    KTIMER timer; /* first: it can be waited for */
    KDPC dpc;
    PEXT_CALLBACK callback;
    PVOID context;
    PEXT_DELETE_CALLBACK deleted;
    PVOID delete_context;
    bool is_deleted, tells_end; /* tells_end: its routine of deletion is to be called */
    WDM_SITE deleted_at;
};

/* Under G: its routine for the end is called once, where nothing of it is on its way. */
static PEXT_DELETE_CALLBACK end_of(PEX_TIMER t)
{
    PEXT_DELETE_CALLBACK routine = t->tells_end && !t->timer.Header.Inserted ? t->deleted : NULL;
    if (routine)
        t->tells_end = false;
    return routine;
}

/* The deferred call: named by the driver's routine. */
static VOID call_back(PKDPC Dpc, PVOID Context, PVOID A, PVOID B)
{
    PEX_TIMER t = Context;
    (void)Dpc, (void)A, (void)B;
    self.frames->fn = (void *)t->callback;
    t->callback(t, t->context);
    hold_host("an ended timer", t, SYNCS);
    PEXT_DELETE_CALLBACK routine = end_of(t);
    pthread_mutex_unlock(&host_lock);
    if (routine)
        routine(t->delete_context);
}

PEX_TIMER WdmExAllocateTimer(PEXT_CALLBACK Callback, PVOID Context, ULONG Attributes, WDM_SITE at)
{
    Call c;
    enter_host(&c, "ExAllocateTimer", at);
    PEX_TIMER t = memory_is_refused(c.name, at) ? NULL : host_memory(sizeof *t);
    if (t) {
        t->callback = Callback;
        t->context = Context;
        give_out(t, "the timer", c.name, at);
    }
    leave_host();
    if (t) {
        KeInitializeTimerEx(&t->timer, Attributes & EX_TIMER_NOTIFICATION ? NotificationTimer : SynchronizationTimer);
        WdmKeInitializeDpc(&t->dpc, call_back, t, at);
    }
    return t;
}

/* Under G. */
static bool can_be_used(PEX_TIMER t)
{
    touch(t, SYNCS);
    if (t->is_deleted)
        broken("UsedInFreedMemory", NULL, "the timer was deleted at %s", place(t->deleted_at));
    return !t->is_deleted;
}

BOOLEAN WdmExSetTimer(PEX_TIMER Timer, LONGLONG DueTime, LONGLONG Period, WDM_SITE at)
{
    Call c;
    enter_host(&c, "ExSetTimer", at);
    const bool is_there = can_be_used(Timer);
    if (Period < 0)
        fault("ExTimer", NULL, "a period of %lld", (long long)Period);
    leave_host();
    const LONG milliseconds = (LONG)((Period + 9999) / 10000);
    return is_there && WdmKeSetTimer(&Timer->timer, (LARGE_INTEGER){ .QuadPart = DueTime }, milliseconds > 0 ? milliseconds : 0,
                                     Timer->callback ? &Timer->dpc : NULL, at);
}

BOOLEAN WdmExCancelTimer(PEX_TIMER Timer, WDM_SITE at)
{
    Call c;
    enter_host(&c, "ExCancelTimer", at);
    const bool is_there = can_be_used(Timer);
    leave_host();
    return is_there && KeCancelTimer(&Timer->timer);
}

static bool is_over(const void *timer) { return !dpc_is_on_its_way(&((const struct _EX_TIMER *)timer)->dpc); }

/* Under G: what the two may not be together. Who waits does so below DISPATCH_LEVEL. */
static bool may_wait(bool cancels, bool waits, PEXT_DELETE_PARAMETERS parameters, WDM_SITE at)
{
    const Call c = { .name = "ExDeleteTimer (waits)", .at = at };
    if (!waits)
        return false;
    if (!cancels || (parameters && parameters->DeleteCallback))
        fault("ExTimer", NULL, cancels ? "Wait is TRUE, and there is a DeleteCallback: one of both" : "Wait is TRUE, and Cancel isn't");
    check_call(&c);
    return self.irql < DISPATCH_LEVEL;
}

BOOLEAN WdmExDeleteTimer(PEX_TIMER Timer, BOOLEAN Cancel, BOOLEAN Wait, PEXT_DELETE_PARAMETERS Parameters, WDM_SITE at)
{
    Call c;
    enter_host(&c, "ExDeleteTimer", at);
    const bool is_there = can_be_used(Timer), waits = may_wait(Cancel, Wait, Parameters, at);
    if (is_there) {
        Timer->is_deleted = true;
        Timer->deleted_at = at;
        Timer->deleted = Parameters ? Parameters->DeleteCallback : NULL;
        Timer->delete_context = Parameters ? Parameters->DeleteContext : NULL;
        Timer->tells_end = Timer->deleted != NULL;
        take_back(Timer, NULL);
    }
    leave_host();
    const BOOLEAN was = is_there && Cancel && KeCancelTimer(&Timer->timer);
    enter_quietly(&c, "ExDeleteTimer", at);
    if (is_there && waits)
        wait_for_host(is_over, Timer);
    touch(Timer, SYNCS);
    PEXT_DELETE_CALLBACK routine = is_there && is_over(Timer) ? end_of(Timer) : NULL;
    leave_host();
    if (routine)
        routine(Timer->delete_context);
    return was;
}
