/*
 * dma_newer.c: what DmaOperations has for adapters of version 3. A transfer has a context, which its driver initializes: by it a
 * list or channel that waits is cancelled. With DMA_SYNCHRONOUS_CALLBACK it is there when the call returns, or never.
 */
#include "mm/dma.h"
#include "ke/ke.h"
#include "record/record.h"

/* What stands at the begin of a context that is initialized. */
static uint64_t mark_of(const void *transfer) { return (uint64_t)(uintptr_t)transfer ^ 0xD3A5C0117E47ull; }

/* The list or channel whose context this is, or NULL. */
static Wanted *with_context(Adapter *a, const void *transfer)
{
    Wanted *w = a && transfer ? a->wanted : NULL;
    while (w && w->transfer != transfer)
        w = w->next;
    return w;
}

/* One that may be used. */
static void check_context(Adapter *a, const void *transfer)
{
    uint64_t mark = 0;
    const Wanted *w = with_context(a, transfer);
    if (transfer)
        memcpy(&mark, transfer, sizeof mark);
    if (w)
        dma_fault("DmaContext", "the %s that was wanted at %s has this context", w->is_list ? "list" : "channel", place(w->at));
    else if (a && mark != mark_of(transfer))
        dma_fault("DmaContext", "this context isn't initialized");
}

NTSTATUS initialize_transfer(PDMA_ADAPTER Given, PVOID Transfer)
{
    Call c;
    enter_host(&c, "InitializeDmaTransferContext", dma_site());
    Adapter *a = newer_adapter_in(Given);
    const Wanted *w = with_context(a, Transfer);
    const uint64_t mark = mark_of(Transfer);
    if (w)
        dma_fault("DmaContext", "the %s that was wanted at %s has this context", w->is_list ? "list" : "channel", place(w->at));
    else {
        memset(Transfer, 0, DMA_TRANSFER_CONTEXT_SIZE_V1);
        memcpy(Transfer, &mark, sizeof mark);
    }
    leave_host();
    return STATUS_SUCCESS;
}

/* Goes from the begin of a chain of MDLs to the one in which this byte of the buffer lies. */
static PMDL mdl_at(PMDL mdl, ULONGLONG *offset)
{
    for (; mdl->Next && *offset >= mdl->ByteCount; mdl = mdl->Next)
        *offset -= mdl->ByteCount;
    return mdl;
}

static void tell_no_routine(PDMA_COMPLETION_ROUTINE routine)
{
    if (routine)
        note("not there", "a DMA completion routine, of a system's controller, is never called");
}

static char *address_at(PMDL mdl, ULONGLONG offset) { return (char *)MmGetMdlVirtualAddress(mdl) + offset; }

NTSTATUS get_list_ex(PDMA_ADAPTER Given, PDEVICE_OBJECT Device, PVOID Transfer, PMDL Mdl, ULONGLONG Offset, ULONG Length, ULONG Flags,
                     PDRIVER_LIST_CONTROL Routine, PVOID Context, BOOLEAN ToDevice, PDMA_COMPLETION_ROUTINE Completed,
                     PVOID CompletionContext, PSCATTER_GATHER_LIST *List)
{
    Call c;
    const WDM_SITE at = dma_site();
    PSCATTER_GATHER_LIST made = NULL;
    (void)CompletionContext;
    enter_host(&c, "GetScatterGatherListEx", at);
    Adapter *a = newer_adapter_in(Given);
    const bool is_now = Flags & DMA_SYNCHRONOUS_CALLBACK;
    PMDL mdl = mdl_at(Mdl, &Offset);
    tell_no_routine(Completed);
    check_context(a, Transfer);
    if (!Routine && (!is_now || !List)) {
        leave_host();
        return STATUS_INVALID_PARAMETER;
    }
    const ListWanted l = { Device, mdl, address_at(mdl, Offset), Length, 0, Routine, Context, NULL, ToDevice, Transfer,
                           is_now ? List ? List : &made : NULL };
    return want_list(a, &l, at);
}

NTSTATUS allocate_channel_ex(PDMA_ADAPTER Given, PDEVICE_OBJECT Device, PVOID Transfer, ULONG Registers, ULONG Flags,
                             PDRIVER_CONTROL Routine, PVOID Context, PVOID *Base)
{
    Call c;
    const WDM_SITE at = dma_site();
    PVOID made = NULL;
    enter_host(&c, "AllocateAdapterChannelEx", at);
    Adapter *a = newer_adapter_in(Given);
    const bool is_now = Flags & DMA_SYNCHRONOUS_CALLBACK;
    check_context(a, Transfer);
    if (!Routine && (!is_now || !Base)) {
        leave_host();
        return STATUS_INVALID_PARAMETER;
    }
    Wanted *w = a && !memory_is_refused(c.name, at) ? new_wanted(a, Device, (void *)Routine, Context, at) : NULL;
    if (w) {
        w->registers = Registers;
        w->transfer = Transfer;
    }
    return want_channel(a, w, is_now ? Base ? Base : &made : NULL);
}

/* What has its map registers isn't cancelled any more. */
BOOLEAN cancel_channel(PDMA_ADAPTER Given, PDEVICE_OBJECT Device, PVOID Transfer)
{
    Call c;
    (void)Device;
    enter_host(&c, "CancelAdapterChannel", dma_site());
    Adapter *a = newer_adapter_in(Given);
    Wanted *w = with_context(a, Transfer);
    const bool waits = w && !w->is_out;
    if (waits)
        drop_wanted(w);
    leave_host();
    if (waits)
        serve_wanted(a);
    return waits;
}

VOID free_adapter_object(PDMA_ADAPTER Given, IO_ALLOCATION_ACTION Action)
{
    Call c;
    enter_host(&c, "FreeAdapterObject", dma_site());
    Adapter *a = newer_adapter_in(Given);
    free_the_channel(a, Action);
    leave_host();
    if (a)
        serve_wanted(a);
}

NTSTATUS map_transfer_ex(PDMA_ADAPTER Given, PMDL Mdl, PVOID Base, ULONGLONG Offset, ULONG DeviceOffset, PULONG Length,
                         BOOLEAN ToDevice, PSCATTER_GATHER_LIST List, ULONG ListLength, PDMA_COMPLETION_ROUTINE Completed,
                         PVOID CompletionContext)
{
    Call c;
    (void)DeviceOffset, (void)CompletionContext;
    enter_host(&c, "MapTransferEx", dma_site());
    Wanted *w = registers_in(newer_adapter_in(Given), Base);
    const ULONG most = !List || ListLength < size_of_list(1) ? 0 : (ListLength - size_of_list(0)) / (ULONG)sizeof *List->Elements;
    PMDL mdl = mdl_at(Mdl, &Offset);
    tell_no_routine(Completed);
    const ULONG length = w && most ? check_buffer(mdl, address_at(mdl, Offset), *Length) : 0;
    if (length)
        *Length = map_pieces(w, mdl, address_at(mdl, Offset), length, ToDevice, List, most);
    leave_host();
    return !w ? STATUS_INVALID_PARAMETER : most ? STATUS_SUCCESS : STATUS_BUFFER_TOO_SMALL;
}

NTSTATUS flush_buffers_ex(PDMA_ADAPTER Given, PMDL Mdl, PVOID Base, ULONGLONG Offset, ULONG Length, BOOLEAN ToDevice)
{
    Call c;
    enter_host(&c, "FlushAdapterBuffersEx", dma_site());
    Wanted *w = registers_in(newer_adapter_in(Given), Base);
    PMDL mdl = mdl_at(Mdl, &Offset);
    if (w)
        flush_mapped(w, address_at(mdl, Offset), Length, ToDevice);
    leave_host();
    return w ? STATUS_SUCCESS : STATUS_INVALID_PARAMETER;
}

NTSTATUS adapter_info(PDMA_ADAPTER Given, PDMA_ADAPTER_INFO Info)
{
    Call c;
    enter_host(&c, "GetDmaAdapterInfo", dma_site());
    const Adapter *a = newer_adapter_in(Given);
    const bool is_known = a && Info->Version == DMA_ADAPTER_INFO_VERSION1;
    if (is_known)
        Info->V1 = (DMA_ADAPTER_INFO_V1){ 0, a->description.ScatterGather ? a->registers : 1, 32, ADAPTER_INFO_SYNCHRONOUS_CALLBACK, 1 };
    leave_host();
    return is_known ? STATUS_SUCCESS : STATUS_NOT_SUPPORTED;
}

NTSTATUS transfer_info(PDMA_ADAPTER Given, PMDL Mdl, ULONGLONG Offset, ULONG Length, BOOLEAN WriteOnly, PDMA_TRANSFER_INFO Info)
{
    Call c;
    (void)WriteOnly;
    enter_host(&c, "GetDmaTransferInfo", dma_site());
    const bool is_known = newer_adapter_in(Given) && Info->Version == DMA_TRANSFER_INFO_VERSION1;
    PMDL mdl = mdl_at(Mdl, &Offset);
    const Wanted w = { .mdl = mdl, .va = address_at(mdl, Offset), .length = Length };
    const ULONG n = is_known ? pieces(&w, NULL) : 0;
    if (is_known)
        Info->V1 = (DMA_TRANSFER_INFO_V1){ n, n, size_of_list(n) };
    leave_host();
    return is_known ? STATUS_SUCCESS : STATUS_NOT_SUPPORTED;
}

/* Addresses of devices lie below 4 GB: who wants lower ones gets none. */
PVOID allocate_common_below(PDMA_ADAPTER Given, PPHYSICAL_ADDRESS Highest, ULONG Length, PPHYSICAL_ADDRESS Logical, BOOLEAN Cache,
                            NODE_REQUIREMENT Node)
{
    Call c;
    const WDM_SITE at = dma_site();
    (void)Cache, (void)Node;
    enter_host(&c, "AllocateCommonBufferEx", at);
    Adapter *a = newer_adapter_in(Given);
    const bool is_there = !Highest || Highest->QuadPart >= 0xFFFFFFFF;
    PVOID buffer = is_there ? new_common(a, Length, Logical, c.name, at) : NULL;
    leave_host();
    return buffer;
}
