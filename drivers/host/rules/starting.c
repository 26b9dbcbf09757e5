/*
 * starting.c: what a driver does on a packet's way down that belongs on its way up, or the other way round: a device that
 * is used before the devices below it are started; for drivers of a Windows before Vista, power packets that are passed on
 * without PoStartNextPowerIrp.
 */
#include "rules/rules.h"
#include "io/io.h"
#include "ke/ke.h"
#include "mm/mm.h"
#include "record/record.h"

enum { MAX_OLD = 64 };

/* The dispatch of IRP_MN_START_DEVICE on this thread that hasn't passed the packet down, or NULL. */
static const Frame *starting(void)
{
    const Frame *f = self.frames;
    while (f && (f->kind != DISPATCH || f->major != IRP_MJ_PNP))
        f = f->up;
    return f && !f->sent && devices[f->device].lower >= 0 && lives(f->p) && f->p->use == f->use &&
        raw_at(f->p, f->location)->MinorFunction == IRP_MN_START_DEVICE ? f : NULL;
}

static bool moves_data(UCHAR major)
{
    return major == IRP_MJ_READ || major == IRP_MJ_WRITE || major == IRP_MJ_DEVICE_CONTROL ||
        major == IRP_MJ_INTERNAL_DEVICE_CONTROL;
}

/* Under G: the hardware is used. */
void check_started(void)
{
    const Frame *f = starting();
    if (f)
        broken("StartedEarly", f->p, "called before IRP_MN_START_DEVICE was passed down: %s isn't started",
               who(devices[f->device].lower));
}

/* Under G: a packet is sent to the device below, with this location. */
void check_started_below(const Packet *p, const IO_STACK_LOCATION *next, int device)
{
    const Frame *f = starting();
    if (f && f->p != p && devices[f->device].lower == device && moves_data(next->MajorFunction))
        broken("StartedEarly", p, "%s is sent before IRP_MN_START_DEVICE was passed down: %s isn't started",
               major_name(next->MajorFunction), who(device));
}

static const char *old_files[MAX_OLD];
static int n_old;
static struct { uint64_t use, told, asked, promised; } of_slot[MAX_PACKETS]; /* a bit for each device */
static WDM_SITE promised_at[MAX_DEVICES];

VOID WdmIsOld(const char *File)
{
    pthread_mutex_lock(&host_lock);
    if (n_old < MAX_OLD)
        old_files[n_old++] = File;
    pthread_mutex_unlock(&host_lock);
}

static bool is_old(const char *file)
{
    for (int i = 0; file && i < n_old; i++)
        if (!strcmp(old_files[i], file))
            return true;
    return false;
}

static void know(const Packet *p)
{
    if (of_slot[p->slot].use != p->use)
        of_slot[p->slot].asked = of_slot[p->slot].told = of_slot[p->slot].promised = 0;
    of_slot[p->slot].use = p->use;
}

VOID WdmPoStartNext(PIRP Irp, WDM_SITE at)
{
    Call c;
    enter_host(&c, "PoStartNextPowerIrp", at);
    Packet *p = find(Irp);
    const Frame *f = on_top(p);
    const int by = f ? f->device : party_with_location(p);
    know(p);
    if (by >= 0)
        of_slot[p->slot].asked |= 1ull << by;
    leave_host();
}

static void tell_next_power(const Packet *p, int by)
{
    if ((of_slot[p->slot].asked | of_slot[p->slot].told) >> by & 1)
        return;
    of_slot[p->slot].told |= 1ull << by;
    broken("NextPowerIrp", p, "%s passes a power packet on without PoStartNextPowerIrp", who(by));
}

/* Under G: the device passes the packet on, or completes it. One with a routine may still call it there. */
void check_next_power(const Packet *p, int by, bool has_routine)
{
    if (by < 0 || p->current > p->size || !is_old(self.calls->at.file))
        return;
    const IO_STACK_LOCATION *l = raw_at((Packet *)p, p->current);
    if (l->MajorFunction != IRP_MJ_POWER || (l->MinorFunction != IRP_MN_SET_POWER && l->MinorFunction != IRP_MN_QUERY_POWER))
        return;
    know(p);
    if (!has_routine)
        tell_next_power(p, by);
    else {
        of_slot[p->slot].promised |= 1ull << by;
        promised_at[by] = self.calls->at;
    }
}

/* Under G: the device's routine lets the packet go on. */
void check_power_routine(const Packet *p, int by)
{
    if (by < 0 || of_slot[p->slot].use != p->use || !(of_slot[p->slot].promised >> by & 1))
        return;
    const Call c = { .up = self.calls, .name = "its routine", .at = promised_at[by] };
    self.calls = (Call *)&c;
    tell_next_power(p, by);
    self.calls = c.up;
}
