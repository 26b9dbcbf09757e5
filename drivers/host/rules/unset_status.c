/* unset_status.c: a status that nobody has set when a request is completed. Until somebody does, a pattern stands there in
   place of the I/O manager's zero. A request of Plug and Play, of power or of WMI comes with a status of its own. */
#include "rules/rules.h"
#include "io/io.h"
#include "record/record.h"

enum { NEVER_SET = 0x4dcdcdcd }; /* of a status of success */

/* It is sent, and no driver has had it. A driver that built it may look at its status while another holds it. The recorder,
   where it is linked, writes down statuses as they stand. Under G, as is all here. */
void expect_status(Packet *p)
{
    extern VOID IrpxForget(VOID) __attribute__((weak));
    const bool is_programs = p->built.by_manager && p->allocator == NOBODY;
    if (IrpxForget || !is_programs || p->asking || p->current != p->size + 1 || p->irp->IoStatus.Status != STATUS_SUCCESS)
        return;
    const UCHAR major = raw_at(p, p->current - 1)->MajorFunction;
    if (major != IRP_MJ_PNP && major != IRP_MJ_POWER && major != IRP_MJ_SYSTEM_CONTROL)
        p->irp->IoStatus.Status = NEVER_SET;
}

/* The status is what it would be on Windows. Returns whether nobody has set it. */
bool put_status_back(Packet *p)
{
    const bool is_unset = p->irp->IoStatus.Status == NEVER_SET;
    if (is_unset)
        p->irp->IoStatus.Status = STATUS_SUCCESS;
    return is_unset;
}

/* A device completes it. One that has given it away is told for that. */
void check_status_set(Packet *p, int by)
{
    const bool is_its = p->owner == by || (p->asking && p->asking->device == by);
    if (put_status_back(p) && by >= 0 && is_its)
        broken("NoStatus", p, "%s completes it, and no driver has set Irp->IoStatus.Status", who(by));
}
