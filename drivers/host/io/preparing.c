/* preparing.c: the next lower location is filled: by hand, by a copy, by a skip; and its routine is set. */
#include "io/own.h"
#include "ke/ke.h"
#include "mm/mm.h"
#include "record/record.h"
#include "rules/rules.h"

/* In a dispatch that is asked, preparing is told with its plan; else it is an entry of the owner's. */
static Frame *preparing(Packet *p)
{
    await(p);
    Frame *f = dispatching(p);
    if (!f && lives(p))
        settle(p, false);
    return f;
}

static void copy_shadow(Packet *p)
{
    p->at[p->current - 1] = (Location){ .device = NOBODY, .major = p->at[p->current].major,
                                        .word = p->at[p->current].word };
    p->next.how = FILLED;
}

/* No major: it stands in a next location that nobody has filled, so that one who only looks there fills nothing. */
enum { NO_MAJOR = 0xfe };

/* Whether the owner wrote into its next location by hand. */
bool is_filled_by_hand(Packet *p)
{
    return p->next.touched && p->current > 1 && raw_at(p, p->current - 1)->MajorFunction != NO_MAJOR;
}

/* What the owner wrote by hand into the next location becomes a SetNext, and what it set a SetRoutine. */
void flush_next(Packet *p, int by)
{
    if (p->next.how != SKIPPED && p->current > 1 && (is_filled_by_hand(p) || p->next.how == FILLED)) {
        PIO_STACK_LOCATION raw = raw_at(p, p->current - 1);
        Location *l = &p->at[p->current - 1];
        const uint64_t word = word_of(raw);
        if (p->next.how == NOTHING || raw->MajorFunction != l->major || word != l->word) {
            Entry *e = begin(SET_NEXT, p, by);
            e->major = raw->MajorFunction;
            e->word = word;
            const char *no = rules_refusal(e);
            if (no)
                refuse(e, no);
            else {
                answered(e, DONE, 0);
                *l = (Location){ .device = NOBODY, .major = raw->MajorFunction, .word = word };
                p->next.how = FILLED;
            }
        }
    }
    if (p->next.set) {
        Entry *e = begin(SET_ROUTINE, p, by);
        e->set = p->next.set;
        const char *no = rules_refusal(e);
        if (no)
            refuse(e, no);
        else {
            answered(e, DONE, 0);
            p->at[p->current - 1].set = p->next.set;
        }
        p->next.set = NULL;
    }
}

PIO_STACK_LOCATION WdmIoGetNextIrpStackLocation(PIRP Irp, WDM_SITE at)
{
    static IO_STACK_LOCATION nowhere;
    Call c;
    enter_host(&c, "IoGetNextIrpStackLocation", at);
    Packet *p = find(Irp);
    const bool in_routine = p->asking && p->asking->kind == ROUTINE && on_top(p) == p->asking;
    const int here = p->current + (in_routine || (p->next.skipped && p->asking) ? 1 : 0);
    if (here > 1 && lives(p) && !p->next.touched && !p->next.copied && p->next.how == NOTHING)
        raw_at(p, here - 1)->MajorFunction = NO_MAJOR;
    p->next.touched = true;
    if (lives(p) && here == 1) {
        settle(p, false);
        refuse(begin(SET_NEXT, p, party(p)), "TooShort");
    }
    leave_host();
    return here > 1 ? raw_at(p, here - 1) : &nowhere;
}

VOID WdmIoCopyToNext(PIRP Irp, WDM_SITE at)
{
    Call c;
    enter_host(&c, "IoCopyCurrentIrpStackLocationToNext", at);
    Packet *p = find(Irp);
    Frame *f = preparing(p);
    if (f && (p->next.skipped || p->current == 1)) {
        settle(p, false);
        f = NULL;
    }
    Entry *e = f ? NULL : begin(COPY, p, party_with_location(p));
    const char *no = e ? rules_refusal(e) : NULL;
    if (no)
        refuse(e, no);
    else {
        if (p->next.set)
            fault("RoutineLost", p, "the completion routine that was set is copied over");
        PIO_STACK_LOCATION next = raw_at(p, p->current - 1);
        *next = *raw_at(p, p->current);
        next->Control = 0;
        next->CompletionRoutine = NULL;
        next->Context = NULL;
        p->next.set = NULL;
        p->next.copied = true;
        if (e) {
            answered(e, DONE, 0);
            copy_shadow(p);
        }
    }
    leave_host();
}

static void skip(Packet *p)
{
    Frame *f = preparing(p);
    if (f && (p->next.skipped || f->cancel)) {
        settle(p, false);
        f = NULL;
    }
    Entry *e = f ? NULL : begin(SKIP, p, party_with_location(p));
    const char *no = e ? rules_refusal(e) : NULL;
    if (no)
        refuse(e, no);
    else {
        if (p->next.set)
            fault("RoutineLost", p, "a completion routine is set, and then the location is skipped");
        if (p->current > 1)
            clear_location(p, p->current - 1);
        prepare_nothing(p);
        p->irp->CurrentLocation++;
        p->irp->Tail.Overlay.CurrentStackLocation++;
        if (f)
            p->next.skipped = true;
        else {
            answered(e, DONE, 0);
            p->current++;
            p->next.how = SKIPPED;
        }
    }
}

VOID WdmIoSkip(PIRP Irp, WDM_SITE at)
{
    Call c;
    enter_host(&c, "IoSkipCurrentIrpStackLocation", at);
    skip(find(Irp));
    leave_host();
}

/* Whether the packet's own words say what IoSkipCurrentIrpStackLocation makes of them, and it wasn't called. */
bool is_skipped_by_hand(const Packet *p)
{
    return lives(p) && !p->next.skipped && p->next.how != SKIPPED && p->irp->CurrentLocation == p->current + 1 &&
        p->irp->Tail.Overlay.CurrentStackLocation == raw_at((Packet *)p, p->current + 1);
}

/* At the call that follows: a skip that is written by hand counts as one. Under G. */
void take_hand_skip(Packet *p)
{
    if (!is_skipped_by_hand(p) || on_top(p) != p->asking)
        return;
    put_back(p);
    skip(p);
}

static Setting *new_setting(PIO_COMPLETION_ROUTINE routine, PVOID context, UCHAR flags)
{
    Setting *set = calloc(1, sizeof *set);
    if (!set)
        give_up("out of memory");
    *set = (Setting){ .fn = routine, .raw = context, .context = number_of(context), .flags = flags };
    return set;
}

VOID WdmIoSetCompletionRoutine(PIRP Irp, PIO_COMPLETION_ROUTINE Routine, PVOID Context, UCHAR Flags, WDM_SITE at)
{
    Call c;
    enter_host(&c, "IoSetCompletionRoutine", at);
    Packet *p = find(Irp);
    if (!Routine && Flags)
        broken("NullRoutine", p, "no routine is set, and is to be called: Windows jumps to 0 when the packet comes up");
    Frame *f = preparing(p);
    Entry *e = begin(SET_ROUTINE, p, party(p));
    e->set = new_setting(Routine, Context, Flags);
    if (f && p->next.skipped) {
        settle(p, false);
        f = NULL;
    }
    const char *no = f ? NULL : rules_refusal(e);
    if (no && !strcmp(no, "NotPrepared") && p->current > 1)
        no = NULL; /* the location may be filled later: flush_next decides */
    if (!no && p->current == 1) {
        settle(p, false);
        no = rules_refusal(e);
    }
    if (no)
        refuse(e, no);
    else {
        p->next.set = Routine ? e->set : NULL;
        PIO_STACK_LOCATION next = raw_at(p, p->current - 1);
        next->CompletionRoutine = Routine;
        next->Context = Context;
        next->Control = Flags;
        free(e);
    }
    leave_host();
}
