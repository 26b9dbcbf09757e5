/* within.c: steps that are made within a dispatch or routine, as drivers make them: a completion in the dispatch that
   has marked its packet; what a party does with a packet once a routine has kept it for it; a forward that waits until its
   packet is back. Other steps there the recorder takes for a part of the dispatch's plan. */
#include "state.h"

static BOOLEAN is_own(const PLAY_STEP *s, const PLAY_PACKET *p, LONG owner)
{
    return s->Do >= DO_FREE && s->Do <= DO_SET_CANCEL && !s->If.Place && !s->Refused && s->By == (uint64_t)(owner + 2) &&
        s->A == (uint64_t)(p - play.Packets) && PlayIsThere(s);
}

/* The next step, where it is of the same thread, packet and party, and no reply decides on it; or NULL. */
static const PLAY_STEP *next_step(const PLAY_PACKET *p, LONG owner)
{
    const PLAY_STEP *s = play.Now + 1;
    return s < play.Steps + play.nSteps && s->Seat == play.Now->Seat && is_own(s, p, owner) ? s : NULL;
}

static VOID make(const PLAY_STEP *s)
{
    play.nWithin++;
    (void)PlayStep(s, &play.Replies[s - play.Steps]);
}

/* In a routine the recorder takes a mark, and another status, for the routine's answer. */
static BOOLEAN may_come_first(const PLAY_STEP *s, PIRP irp, PLAY_MOMENT moment)
{
    if (moment != PLAY_IN_ROUTINE)
        return moment == PLAY_IN_FORWARD || s->Do == DO_COMPLETE;
    return s->Do != DO_MARK && (s->Do != DO_COMPLETE || (irp->IoStatus.Status == (NTSTATUS)s->B &&
                                                         irp->IoStatus.Information == (ULONG_PTR)s->C));
}

VOID PlayWithin(PLAY_PACKET *Packet, LONG Owner, PLAY_MOMENT Moment)
{
    const PLAY_STEP *s = play.Threads == PLAY_WITHIN ? next_step(Packet, Owner) : NULL;
    if (!s || !may_come_first(s, Packet->Irp, Moment))
        return;
    for (; s; s = next_step(Packet, Owner))
        make(s);
}

/* Where the packet is still below, other threads go on, until this one has a step to make: one on the packet, which is
   back, or any other, for which the dispatch returns. Sent is the step of the send, which is answered PENDING. */
VOID PlayAwait(PLAY_PACKET *Packet, LONG Owner, const PLAY_STEP *Sent)
{
    const unsigned seat = (unsigned)Sent->Seat;
    if (!(Packet->Waits >> Owner & 1))
        return;
    if (!play.HasTurn[seat] && Packet->Owner >= 0 && Packet->Owner != Owner) {
        play.Replies[Sent - play.Steps] = (ULONG)STATUS_PENDING;
        PlayHandOn(seat);
    }
    if (play.HasTurn[seat]) {
        if (play.Ends || !is_own(play.Now, Packet, Owner))
            return;
        play.HasTurn[seat] = FALSE;
        make(play.Now);
    }
    PlayWithin(Packet, Owner, PLAY_IN_FORWARD);
}

size_t PlayCountWithin(VOID) { return play.nWithin; }
