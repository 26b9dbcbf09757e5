/*
 * dma_channels.c: adapter channels, and transfers with map registers. One routine at a time has an adapter's channel; the
 * others wait for it. What it returns says what is kept.
 */
#include "mm/dma.h"
#include "explore/explore.h"
#include "ke/ke.h"
#include "record/record.h"
#include "rules/rules.h"

NTSTATUS want_channel(Adapter *a, Wanted *w, PVOID *base)
{
    bool has_it = w && w->registers <= a->registers && (!base || fits_at_once(w));
    if (has_it)
        give_out(w, "the adapter channel", self.calls->name, w->at);
    else if (w)
        drop_wanted(w);
    if (has_it && base)
        *base = w;
    leave_host();
    if (has_it && !base)
        serve_wanted(a);
    else if (has_it && w->routine)
        run_channel(w);
    return has_it ? STATUS_SUCCESS : STATUS_INSUFFICIENT_RESOURCES;
}

NTSTATUS allocate_channel(PDMA_ADAPTER Given, PDEVICE_OBJECT Device, ULONG Registers, PDRIVER_CONTROL Routine, PVOID Context)
{
    Call c;
    const WDM_SITE at = dma_site();
    enter_host(&c, "AllocateAdapterChannel", at);
    Adapter *a = adapter_in(Given);
    needs_dispatch_level();
    Wanted *w = a && !memory_is_refused(c.name, at) ? new_wanted(a, Device, (void *)Routine, Context, at) : NULL;
    if (w)
        w->registers = Registers;
    return want_channel(a, w, NULL);
}

/* Its transfers have to be flushed when its registers go. */
static void tell_not_flushed(const Wanted *w)
{
    for (Mapping *m = mapping_of(w, NULL); m; m = mapping_of(w, m)) {
        dma_fault("DmaNotFlushed", "the transfer of %u bytes that was mapped at %s isn't flushed", m->length, place(m->at));
        unmap_memory(m, false);
    }
}

/* The routine's answer: what of the channel and the registers goes now. */
static void take_action(Wanted *w, IO_ALLOCATION_ACTION action)
{
    if (action == KeepObject)
        return;
    w->has_channel = w->adapter->channel_is_busy = false;
    if (action == DeallocateObjectKeepRegisters)
        return;
    tell_not_flushed(w);
    drop_wanted(w);
}

/* Without G. Registers and channel may be free again, and more, when the routine returns: then nothing is to be done. */
void run_channel(Wanted *w)
{
    Running r;
    Call c;
    Adapter *a = w->adapter;
    const PDRIVER_CONTROL routine = (PDRIVER_CONTROL)w->routine;
    PDEVICE_OBJECT device = w->device;
    const WDM_SITE at = w->at;
    begin_routine(&r, "a channel's routine", w->routine, w->driver, device->HostNumber, DISPATCH_LEVEL);
    const IO_ALLOCATION_ACTION action = routine(device, device->CurrentIrp, w, w->context);
    end_routine(&r);
    enter_quietly(&c, "AllocateAdapterChannel", at);
    touch(a, SYNCS);
    const Wanted *still = a->wanted;
    while (still && still != w)
        still = still->next;
    if (still)
        take_action(w, action);
    leave_host();
}

Wanted *registers_in(Adapter *a, PVOID base)
{
    Wanted *w = a ? a->wanted : NULL;
    while (w && (w->is_list || !w->is_out || w != base))
        w = w->next;
    if (a && !w)
        dma_fault("DmaFreedTwice", "%p is no base of map registers of this adapter, or they were freed before", base);
    return w;
}

/* Maps so much of the buffer as lies in this MDL, each page by itself where the device has lists, or where `most` says that one
   is wanted with so many elements. Returns how many bytes are mapped. */
ULONG map_pieces(Wanted *w, PMDL mdl, char *va, ULONG length, bool to_device, PSCATTER_GATHER_LIST list, ULONG most)
{
    ULONG done = 0, n = 0, here = (ULONG)((char *)MmGetMdlVirtualAddress(mdl) + mdl->ByteCount - va);
    length = length < here ? length : here;
    while (done < length && n < most) {
        const ULONG room = PAGE_SIZE - BYTE_OFFSET(va + done), left = length - done;
        const ULONG now = w->adapter->description.ScatterGather && left > room ? room : left;
        const ULONG pages = ADDRESS_AND_SIZE_TO_SPAN_PAGES(va + done, now);
        if (w->used + pages > w->registers) {
            dma_fault("DmaBeyond", "%u map registers more than the %u that were allocated at %s", w->used + pages - w->registers,
                      w->registers, place(w->at));
            break;
        }
        w->used += pages;
        const Mapping *m = map_memory(w->adapter, w, va + done, now, to_device);
        list->Elements[n++] = (SCATTER_GATHER_ELEMENT){ { .QuadPart = (LONGLONG)m->logical }, now, 0 };
        done += now;
    }
    list->NumberOfElements = n;
    return done;
}

PHYSICAL_ADDRESS map_transfer(PDMA_ADAPTER Given, PMDL Mdl, PVOID Base, PVOID Va, PULONG Length, BOOLEAN ToDevice)
{
    Call c;
    union { SCATTER_GATHER_LIST list; UCHAR room[sizeof(SCATTER_GATHER_LIST) + sizeof(SCATTER_GATHER_ELEMENT)]; } made = { .room = { 0 } };
    enter_host(&c, "MapTransfer", dma_site());
    Adapter *a = adapter_in(Given);
    Wanted *w = registers_in(a, Base);
    const ULONG length = w ? check_buffer(Mdl, Va, *Length) : 0;
    const ULONG mapped = length ? map_pieces(w, Mdl, Va, length, ToDevice, &made.list, 1) : 0;
    if (mapped)
        *Length = mapped;
    leave_host();
    return made.list.Elements[0].Address;
}

void flush_mapped(Wanted *w, char *va, ULONG length, bool to_device)
{
    ULONG flushed = 0;
    for (Mapping *m = mapping_of(w, NULL); m; m = mapping_of(w, m)) {
        if (m->original < va || m->original >= va + length)
            continue;
        if (m->to_device != to_device)
            dma_fault("DmaDirection", "flushed with WriteToDevice %s, and mapped at %s with %s", to_device ? "TRUE" : "FALSE",
                      place(m->at), m->to_device ? "TRUE" : "FALSE");
        flushed += m->length;
        w->used -= ADDRESS_AND_SIZE_TO_SPAN_PAGES(m->original, m->length);
        unmap_memory(m, true);
    }
    if (flushed < length)
        dma_fault("DmaBeyond", "%u bytes are flushed, and %u of them are mapped", length, flushed);
}

BOOLEAN flush_buffers(PDMA_ADAPTER Given, PMDL Mdl, PVOID Base, PVOID Va, ULONG Length, BOOLEAN ToDevice)
{
    Call c;
    (void)Mdl;
    enter_host(&c, "FlushAdapterBuffers", dma_site());
    Wanted *w = registers_in(adapter_in(Given), Base);
    if (w)
        flush_mapped(w, Va, Length, ToDevice);
    leave_host();
    return w != NULL;
}

void free_registers(PDMA_ADAPTER Given, PVOID Base, ULONG Registers)
{
    Call c;
    enter_host(&c, "FreeMapRegisters", dma_site());
    Adapter *a = adapter_in(Given);
    Wanted *w = registers_in(a, Base);
    needs_dispatch_level();
    if (w && w->registers != Registers)
        dma_fault("DmaFreedTwice", "%u map registers are freed, and %u were allocated at %s", Registers, w->registers, place(w->at));
    if (w) {
        tell_not_flushed(w);
        drop_wanted(w);
    }
    leave_host();
    if (w)
        serve_wanted(a);
}

/* What goes of the channel and its registers. */
void free_the_channel(Adapter *a, IO_ALLOCATION_ACTION action)
{
    Wanted *w = a ? a->wanted : NULL;
    while (w && !w->has_channel)
        w = w->next;
    if (a && !w)
        dma_fault("DmaFreedTwice", "nobody has the adapter's channel");
    if (w)
        take_action(w, action);
}

void free_channel(PDMA_ADAPTER Given)
{
    Call c;
    enter_host(&c, "FreeAdapterChannel", dma_site());
    Adapter *a = adapter_in(Given);
    needs_dispatch_level();
    free_the_channel(a, DeallocateObject);
    leave_host();
    if (a)
        serve_wanted(a);
}
