/*
 * refusals.c: which call docs/RULES.md refuses, and under which name. Only this file decides
 * it. Others act on what it says: grep the refusal's name.
 *
 * The interface is one question: the call, not yet in the history; the answer is the refusal's name or NULL. So a
 * program that keeps the state by itself can answer in its place: it gets each settled entry, and this question before
 * a call. The shadow, which is all that is read here, would then stay for what the host itself has to know. The proved
 * irp_live isn't that program: it takes only final entries, and here a settled one may still change, since the reply of
 * a send comes when it returns.
 */
#include "rules/rules.h"

/* How many devices stand from this one down. */
static int rules_stack_size(int device)
{
    int n = 0;
    for (; device >= 0; device = devices[device].lower)
        n++;
    return n;
}

bool rules_completable(ULONG status)
{
    return status != (ULONG)STATUS_PENDING && status != (ULONG)STATUS_MORE_PROCESSING_REQUIRED;
}

static const char *attach_refusal(const Entry *e)
{
    const int d = e->device;
    int top = e->other;
    if (!devices[d].live || !devices[top].live)
        return "DeviceGone";
    while (devices[top].upper >= 0)
        top = devices[top].upper;
    for (int i = top; i >= 0; i = devices[i].lower)
        if (i == d)
            return "SameStack";
    if (devices[d].upper >= 0 || devices[d].lower >= 0)
        return "StillAttached";
    return rules_stack_size(top) == MAX_SIZE ? "TooDeep" : NULL;
}

static const char *detach_refusal(const Entry *e)
{
    return !devices[e->device].live ? "DeviceGone" : devices[e->device].upper < 0 ? "NothingAttached" : NULL;
}

/* Whether a live packet is owned by the device, or has it in a location from `current` up. */
static bool has_packet(int device)
{
    for (int i = 0; i < n_packets; i++) {
        const Packet *p = packets[i];
        if (!p->live || p->owner == ENDED)
            continue;
        if (p->owner == device)
            return true;
        for (int j = p->current; j <= p->size; j++)
            if (p->at[j].device == device)
                return true;
    }
    return false;
}

static const char *delete_refusal(const Entry *e)
{
    const Device *d = &devices[e->device];
    if (!d->live)
        return "DeviceGone";
    if (d->upper >= 0 || d->lower >= 0)
        return "StillAttached";
    return has_packet(e->device) ? "InFlight" : !e->drained ? "NotDrained" : NULL;
}

static const char *allocate_refusal(const Entry *e)
{
    return e->status < 1 || e->status > MAX_SIZE ? "BadSize" : n_live == MAX_LIVE ? "Full" : NULL;
}

/* The checks that every call on a packet's content begins with. */
static const char *party_refusal(const Entry *e)
{
    const Packet *p = e->p;
    return !p->live ? "NoIrp" : p->owner == ENDED ? "Ended" : p->owner != e->by ? "NotOwner" : NULL;
}

static const char *location_refusal(const Entry *e)
{
    const char *no = party_refusal(e);
    if (no)
        return no;
    return e->by == ORIGINATOR ? "NoLocation" : e->p->next.how == SKIPPED ? "AfterSkip" : NULL;
}

static const char *call_refusal(const Entry *e)
{
    const Packet *p = e->p;
    const char *no = party_refusal(e);
    if (no)
        return no;
    if (!devices[e->other].live)
        return "DeviceGone";
    if (e->by != ORIGINATOR && devices[e->by].lower != e->other)
        return "WrongTarget";
    if (p->next.how == NOTHING)
        return "NotPrepared";
    if (p->current - 1 < rules_stack_size(e->other))
        return "TooShort";
    return p->routine ? "CancelRoutineSet" : NULL;
}

static const char *preparing_refusal(const Entry *e)
{
    const char *no = e->op == COPY ? location_refusal(e) : party_refusal(e);
    if (no)
        return no;
    if (e->p->next.how == SKIPPED)
        return "AfterSkip";
    if (e->op == SET_ROUTINE)
        return e->p->next.how == NOTHING ? "NotPrepared" : NULL;
    if (e->p->current == 1)
        return "TooShort";
    return e->op == SET_NEXT && e->major > IRP_MJ_MAXIMUM_FUNCTION ? "BadMajor" : NULL;
}

static const char *holders_refusal(const Entry *e)
{
    const Packet *p = e->p;
    const char *no = location_refusal(e);
    if (no || e->op == MARK)
        return no;
    if (e->op == SET_CANCEL)
        return e->routine && p->cancel ? "AlreadyCancelled" : NULL;
    if (e->op == COMPLETE && !rules_completable(e->status))
        return "BadStatus";
    return p->routine ? "CancelRoutineSet" : NULL;
}

const char *rules_refusal(const Entry *e)
{
    switch (e->op) {
    case ATTACH: return attach_refusal(e);
    case DETACH: return detach_refusal(e);
    case REMOVE: return delete_refusal(e);
    case ALLOCATE: return allocate_refusal(e);
    case FREE:
    case REUSE: return !e->p->live ? "NoIrp" : e->p->owner >= 0 ? "InFlight" : NULL;
    case SET_NEXT:
    case COPY:
    case SET_ROUTINE: return preparing_refusal(e);
    case SKIP:
    case MARK:
    case COMPLETE:
    case SET_CANCEL: return holders_refusal(e);
    case CALL: return call_refusal(e);
    case CANCEL: return !e->p->live ? "NoIrp" : e->p->owner == ENDED ? "Ended" : NULL;
    default: return NULL;
    }
}
