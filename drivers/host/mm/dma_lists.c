/*
 * dma_lists.c: scatter-gather lists. A list has an element for each page. Its routine is called before GetScatterGatherList
 * returns, or once another list or channel gives map registers back.
 */
#include "mm/dma.h"
#include "explore/explore.h"
#include "ke/ke.h"
#include "record/record.h"
#include "rules/rules.h"

/* How many of these bytes the MDLs have, from this address on. Where it is fewer, or no page is locked, that is told. */
ULONG check_buffer(PMDL mdl, const char *va, ULONG length)
{
    ULONG there = 0;
    const PMDL first = mdl;
    for (; mdl && there < length; mdl = mdl->Next) {
        const char *begin = MmGetMdlVirtualAddress(mdl), *from = mdl == first ? va : begin;
        if (!(mdl->MdlFlags & (MDL_PAGES_LOCKED | MDL_SOURCE_IS_NONPAGED_POOL | MDL_PARTIAL)))
            dma_fault("DmaNotLocked", "the pages of the MDL aren't locked");
        if (from >= begin && from < begin + mdl->ByteCount)
            there += (ULONG)(begin + mdl->ByteCount - from);
    }
    if (there < length)
        dma_fault("DmaBeyond", "%u bytes from this address on, and the MDL has %u there", length, there);
    return there < length ? there : length;
}

Wanted *new_wanted(Adapter *a, PDEVICE_OBJECT device, void *routine, PVOID context, WDM_SITE at)
{
    Wanted *w = host_memory(sizeof *w), **end = &a->wanted;
    if (!w)
        return NULL;
    *w = (Wanted){ .adapter = a, .device = device, .routine = routine, .context = context, .driver = calling_driver(), .at = at };
    while (*end)
        end = &(*end)->next;
    *end = w;
    return w;
}

void drop_wanted(Wanted *w)
{
    Wanted **it = &w->adapter->wanted;
    while (*it && *it != w)
        it = &(*it)->next;
    if (*it)
        *it = w->next;
    w->adapter->left += w->is_out ? w->registers : 0;
    if (w->has_channel)
        w->adapter->channel_is_busy = false;
    take_back(w, NULL);
    free_host_memory(w);
}

void tell_wanted_kept(Adapter *a)
{
    for (const Wanted *w = a->wanted; w; w = w->next)
        dma_fault("DmaKept", "the %s that was got at %s isn't given back", w->is_list ? "scatter-gather list" : w->has_channel ?
                  "adapter channel" : "block of map registers", place(w->at));
}

/* Goes over the pieces of the buffer that lie in one page each. Returns how many there are; each is mapped where that is
   wanted. */
ULONG pieces(const Wanted *w, PSCATTER_GATHER_LIST list)
{
    ULONG n = 0, left = w->length;
    for (PMDL mdl = w->mdl; mdl && left; mdl = mdl->Next) {
        char *from = mdl == w->mdl ? w->va : MmGetMdlVirtualAddress(mdl);
        ULONG here = (ULONG)((char *)MmGetMdlVirtualAddress(mdl) + mdl->ByteCount - from);
        for (here = here < left ? here : left, left -= here; here; n++) {
            const ULONG room = PAGE_SIZE - BYTE_OFFSET(from), length = here < room ? here : room;
            if (list) {
                const Mapping *m = map_memory(w->adapter, w, from, length, w->to_device);
                list->Elements[n] = (SCATTER_GATHER_ELEMENT){ { .QuadPart = (LONGLONG)m->logical }, length, 0 };
            }
            from += length;
            here -= length;
        }
    }
    return n;
}

ULONG size_of_list(ULONG elements) { return (ULONG)(sizeof(SCATTER_GATHER_LIST) + elements * sizeof(SCATTER_GATHER_ELEMENT)); }

/* Under G: it has its map registers, and the list is made. */
static void make_list(Wanted *w)
{
    w->list = w->room ? w->room : host_memory(size_of_list(w->registers));
    if (!w->list)
        give_up("out of memory");
    w->list->NumberOfElements = pieces(w, w->list);
}

/* The list is there, and its routine runs, which may put it back. Without G. */
static void hand_out_list(const Wanted *w)
{
    Running r;
    PSCATTER_GATHER_LIST list = w->list;
    const PDRIVER_LIST_CONTROL routine = (PDRIVER_LIST_CONTROL)w->routine;
    PDEVICE_OBJECT device = w->device;
    PVOID context = w->context;
    begin_routine(&r, "a list's routine", (void *)routine, w->driver, device->HostNumber, DISPATCH_LEVEL);
    routine(device, device->CurrentIrp, list, context);
    end_routine(&r);
}

static void run_list(Wanted *w)
{
    Call c;
    enter_quietly(&c, "GetScatterGatherList", w->at);
    make_list(w);
    leave_host();
    hand_out_list(w);
}

/* First come, first served. */
static Wanted *first_that_waits(Adapter *a)
{
    Wanted *w = a->wanted;
    while (w && w->is_out)
        w = w->next;
    return w;
}

bool fits_at_once(Wanted *w)
{
    Adapter *a = w->adapter;
    if (w != first_that_waits(a) || w->registers > a->left || (!w->is_list && a->channel_is_busy))
        return false;
    w->is_out = true;
    w->has_channel = !w->is_list;
    a->channel_is_busy |= !w->is_list;
    a->left -= w->registers;
    return true;
}

/* The next one that fits, and counts as out from now on. */
static Wanted *next_that_fits(Adapter *a)
{
    Wanted *w = first_that_waits(a);
    return w && fits_at_once(w) ? w : NULL;
}

void serve_wanted(Adapter *a)
{
    for (;;) {
        hold_host("map registers", a, SYNCS);
        Wanted *w = next_that_fits(a);
        pthread_mutex_unlock(&host_lock);
        if (!w)
            return;
        if (w->is_list)
            run_list(w);
        else
            run_channel(w);
    }
}

static Wanted *new_list(Adapter *a, const ListWanted *l, WDM_SITE at)
{
    const ULONG length = check_buffer(l->mdl, l->va, l->length);
    Wanted *w = memory_is_refused(self.calls->name, at) ? NULL : new_wanted(a, l->device, (void *)l->routine, l->context, at);
    if (!w)
        return NULL;
    w->mdl = l->mdl;
    w->va = l->va;
    w->length = length;
    w->to_device = l->to_device;
    w->is_list = true;
    w->room = l->room;
    w->transfer = l->transfer;
    w->registers = pieces(w, NULL);
    return w;
}

NTSTATUS want_list(Adapter *a, const ListWanted *l, WDM_SITE at)
{
    NTSTATUS status = STATUS_INSUFFICIENT_RESOURCES;
    Wanted *w = a ? new_list(a, l, at) : NULL;
    if (w && l->room && l->room_length < size_of_list(w->registers))
        status = STATUS_BUFFER_TOO_SMALL;
    else if (w && w->registers <= a->registers && (!l->now || fits_at_once(w)))
        status = STATUS_SUCCESS;
    if (NT_SUCCESS(status))
        give_out(w, "the scatter-gather list", self.calls->name, at);
    else if (w)
        drop_wanted(w);
    if (NT_SUCCESS(status) && l->now) {
        make_list(w);
        *l->now = w->list;
    }
    leave_host();
    if (NT_SUCCESS(status) && !l->now)
        serve_wanted(a);
    else if (NT_SUCCESS(status) && l->routine)
        hand_out_list(w);
    return status;
}

NTSTATUS build_list(PDMA_ADAPTER Given, PDEVICE_OBJECT Device, PMDL Mdl, PVOID Va, ULONG Length, PDRIVER_LIST_CONTROL Routine,
                    PVOID Context, BOOLEAN ToDevice, PVOID Room, ULONG RoomLength)
{
    Call c;
    const WDM_SITE at = dma_site();
    const ListWanted l = { Device, Mdl, Va, Length, RoomLength, Routine, Context, Room, ToDevice, NULL, NULL };
    enter_host(&c, "GetScatterGatherList", at);
    Adapter *a = adapter_in(Given);
    needs_dispatch_level();
    return want_list(a, &l, at);
}

NTSTATUS get_list(PDMA_ADAPTER Given, PDEVICE_OBJECT Device, PMDL Mdl, PVOID Va, ULONG Length, PDRIVER_LIST_CONTROL Routine,
                  PVOID Context, BOOLEAN ToDevice)
{
    return build_list(Given, Device, Mdl, Va, Length, Routine, Context, ToDevice, NULL, 0);
}

NTSTATUS list_size(PDMA_ADAPTER Given, PMDL Mdl, PVOID Va, ULONG Length, PULONG Size, PULONG Registers)
{
    const Wanted w = { .mdl = Mdl, .va = Va, .length = Length };
    const ULONG n = Mdl ? pieces(&w, NULL) : ADDRESS_AND_SIZE_TO_SPAN_PAGES(Va, Length);
    (void)Given;
    *Size = size_of_list(n);
    if (Registers)
        *Registers = n;
    return STATUS_SUCCESS;
}

void put_list(PDMA_ADAPTER Given, PSCATTER_GATHER_LIST List, BOOLEAN ToDevice)
{
    Call c;
    enter_host(&c, "PutScatterGatherList", dma_site());
    Adapter *a = adapter_in(Given);
    Wanted *w = a ? a->wanted : NULL;
    while (w && (!w->list || w->list != List))
        w = w->next;
    if (a && !w)
        dma_fault("DmaFreedTwice", "%p is no scatter-gather list of this adapter, or was put back before", (void *)List);
    else if (w && w->to_device != ToDevice)
        dma_fault("DmaDirection", "put back with WriteToDevice %s, and got at %s with %s", ToDevice ? "TRUE" : "FALSE", place(w->at),
                  w->to_device ? "TRUE" : "FALSE");
    if (w) {
        for (Mapping *m = mapping_of(w, NULL); m; m = mapping_of(w, m))
            unmap_memory(m, true);
        if (!w->room)
            free_host_memory(w->list);
        drop_wanted(w);
    }
    leave_host();
    if (w)
        serve_wanted(a);
}
