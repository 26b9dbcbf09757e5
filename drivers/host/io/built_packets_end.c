/*
 * built_packets_end.c: the end of packets that the I/O manager builds: what whoever had one built gets, and a completion
 * once more of one that its builder's own routine kept.
 *
 * A packet of IoBuildDeviceIoControlRequest or IoBuildSynchronousFsdRequest is on the list of the thread that builds it.
 * Where it fails at once, that is with an error and before a dispatch has returned STATUS_PENDING, IoCallDriver has returned
 * the error, and the I/O manager leaves the event and the IoStatusBlock alone.
 */
#include "io/own.h"
#include "ke/ke.h"
#include "mm/mm.h"
#include "record/record.h"

/* What was read goes to the buffer of whoever had the packet built: with a warning too, and not with an error. */
static void copy_out(const Packet *p)
{
    const bool is_direct = p->buffer.given && p->irp->MdlAddress == p->buffer.given;
    PVOID from = is_direct ? p->buffer.bytes->bytes : p->irp->AssociatedIrp.SystemBuffer, to = p->irp->UserBuffer;
    if (from && to && from != to && !NT_ERROR(p->irp->IoStatus.Status) && p->irp->IoStatus.Information <= p->buffer.room)
        memcpy(to, from, p->irp->IoStatus.Information);
}

/* What whoever had the packet built gets at its end. Returns the event that is to be set, or NULL. */
PKEVENT hand_back(Packet *p)
{
    PKEVENT event = p->built.event_gone ? NULL : p->irp->UserEvent;
    if (p->buffer.bytes && p->buffer.bytes->unprobed)
        open_pages(p->buffer.bytes);
    if (p->buffer.writes_back)
        copy_out(p);
    end_lent_mdl(p);
    p->built.fails_at_once = p->built.is_threaded && NT_ERROR(p->irp->IoStatus.Status) && !p->irp->PendingReturned;
    if (p->built.fails_at_once) {
        p->built.never_set = event;
        return NULL;
    }
    if (p->irp->UserIosb && !is_associated(p) && !p->built.status_gone && is_in_page(p->irp))
        *p->irp->UserIosb = p->irp->IoStatus;
    return event;
}

/* Whether its originator has the packet back from a routine of its own, and its thread still waits for the packet's end. */
static bool is_kept_back(const Packet *p)
{
    return lives(p) && p->built.is_threaded && p->kept_by && p->owner == ORIGINATOR && p->current == p->size + 1 &&
        party(p) == ORIGINATOR;
}

/*
 * Its originator completes once more a packet that its own routine kept: the I/O manager ends it now, as it would have
 * done without the routine. The rules know no completion by an originator. Recorded is what the originator could do instead:
 * it frees the packet. Returns whether that is so. Under G.
 */
bool complete_kept(Packet *p)
{
    if (p->built.is_threaded && p->asking && p->asking->kind == ROUTINE && p->asking->device == ORIGINATOR)
        settle(p, false); /* the routine has told that it keeps, and only returns */
    if (!is_kept_back(p))
        return false;
    p->sites.completed = self.calls->at;
    keep_callers(&p->completers, self.calls);
    PKEVENT event = hand_back(p);
    hand_over_block((PVOID)p->irp->IoStatus.Information);
    answered(begin(FREE, p, ORIGINATOR), DONE, 0);
    free_now(p);
    p->sites.freed = self.calls->at;
    shut(p);
    if (event)
        set_event(event);
    return true;
}

/* Where a thread waits for the event of a packet that failed at once, as the second half of a fault; empty where none
   does. Under G. */
const char *never_set(void)
{
    static char text[300];
    WDM_SITE at;
    *text = 0;
    for (int i = n_packets - 1; i >= 0 && !*text; i--) {
        const Packet *p = packets[i];
        if (lives(p) && p->built.is_threaded && waited_in(p->irp->UserEvent, sizeof(KEVENT), &at))
            return text; /* it has the event now */
        if (p->built.fails_at_once && p->built.never_set && waited_in(p->built.never_set, sizeof(KEVENT), &at))
            snprintf(text, sizeof text, "; the event is that of IRP %u.%lu, built at %s, which failed at once with %#x: then "
                     "it is never set. Wait only where IoCallDriver returned STATUS_PENDING", p->slot,
                     (unsigned long)p->use, place(p->sites.allocated), p->status);
    }
    return text;
}
