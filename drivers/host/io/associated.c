/*
 * associated.c: packets that drivers make for a part of another one, and a location of one's own in a packet.
 *
 * The I/O manager frees an associated packet at its end, and completes its master with the last of them. In the record
 * the master is completed by the device that holds it.
 */
#include "io/own.h"
#include "ke/ke.h"
#include "mm/mm.h"
#include "record/record.h"
#include "rules/rules.h"

bool is_associated(const Packet *p) { return (p->irp->Flags & IRP_ASSOCIATED_IRP) != 0; }

PIRP WdmIoMakeAssociatedIrp(PIRP Master, CCHAR Size, WDM_SITE at)
{
    PIRP irp = WdmIoAllocateIrp(Size, at);
    if (!irp)
        return NULL;
    irp->Flags |= IRP_ASSOCIATED_IRP;
    irp->AssociatedIrp.MasterIrp = Master;
    irp->Tail.Overlay.Thread = Master->Tail.Overlay.Thread;
    return irp;
}

/* An associated packet has ended and nobody kept it. Its master counts down, and is completed with the last one. Under G,
   which the master's completion routines give back meanwhile. */
void associated_ended(Packet *p)
{
    PIRP raw = p->irp->AssociatedIrp.MasterIrp;
    Packet *master = find(raw);
    if (!lives(master)) {
        fault("NoMaster", p, "has ended, and its master has ended before");
        return;
    }
    if (--raw->AssociatedIrp.IrpCount < 0)
        fault_at("NoMaster", p, "IoMakeAssociatedIrp", p->sites.allocated, "has ended, and IrpCount of its master was 0 "
                 "before: set it before the first of them is sent, else the master is never completed");
    if (raw->AssociatedIrp.IrpCount != 0)
        return;
    settle(master, false);
    put_status_back(master);
    complete(master, master->owner, (ULONG)raw->IoStatus.Status, raw->IoStatus.Information);
}

/* Whether it was allocated and not prepared yet: only then may its topmost location become its allocator's own. */
static bool is_fresh(const Packet *p)
{
    return lives(p) && p->owner == ORIGINATOR && p->current == p->size + 1 && p->next.how == NOTHING;
}

/* The packet's topmost location is its allocator's own from now on: the record's packet begins below it. */
static void give_own_location(Packet *p)
{
    for (size_t i = n_history; i > 0; i--)
        if (history[i - 1]->op == ALLOCATE && history[i - 1]->p == p) {
            history[i - 1]->status = (ULONG)--p->size;
            break;
        }
    p->current = p->size + 1;
    p->has_own_location = true;
    put_back(p);
}

VOID WdmIoSetNextIrpStackLocation(PIRP Irp, WDM_SITE at)
{
    Call c;
    enter_host(&c, "IoSetNextIrpStackLocation", at);
    Packet *p = find(Irp);
    if (!is_fresh(p) || (!p->has_own_location && p->size < 2))
        fault("TooShort", p, "has no location to spare for its allocator: allocate one more than the target's StackSize");
    else if (!p->has_own_location)
        give_own_location(p);
    leave_host();
}

/* At a call on the packet: where its originator has done the same by hand, it counts as done. */
void take_own_location(Packet *p)
{
    const PIRP irp = p->irp;
    if (is_fresh(p) && !p->has_own_location && p->size > 1 && irp->CurrentLocation == p->current - 1 &&
        irp->Tail.Overlay.CurrentStackLocation == raw_at(p, p->current - 1))
        give_own_location(p);
}

/* The device that the allocator wrote into its own location, which its routine is called with; or NULL. */
PDEVICE_OBJECT own_device(Packet *p) { return p->has_own_location ? raw_at(p, p->size + 1)->DeviceObject : NULL; }
