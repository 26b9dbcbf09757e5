/*
 * dma.c: DMA adapters and common buffers. What a driver leaves or does wrong is told by the rules that Driver Verifier has for
 * DMA (bug check 0xE6).
 */
#include "mm/dma.h"
#include "explore/explore.h"
#include "ke/ke.h"
#include "record/record.h"
#include "rules/rules.h"
#include <stdarg.h>

enum { FENCE = 16, FENCED = 0xFD };
static Adapter *adapters;

/* Whether Driver Verifier tells the rules of version 3 isn't known. */
static const struct { const char *rule, *remedy, *page; bool is_newer; } rules[] = {
    { "DmaKept", "give it back before: once the device has done, and before the request is completed", "PutDmaAdapter callback", false },
    { "DmaNotFlushed", "call FlushAdapterBuffers once the device has done", "FlushAdapterBuffers callback", false },
    { "DmaBeyond", "check lengths: the device gets the addresses and lengths of the list, or of MapTransfer",
      "Using Scatter/Gather DMA", false },
    { "DmaAfterEnd", "put the list back, or flush, once the device has done", "PutScatterGatherList callback", false },
    { "DmaFreedTwice", "give it back once, with what it was got by", "PutScatterGatherList callback", false },
    { "DmaNotLocked", "lock its pages by MmProbeAndLockPages, or call MmBuildMdlForNonPagedPool", "Using MDLs", false },
    { "DmaDirection", "WriteToDevice is TRUE where the device reads memory, in each call of a transfer",
      "GetScatterGatherList callback", false },
    { "DmaVersion", "ask for DEVICE_DESCRIPTION_VERSION3, or call what version 2 has", "DMA_OPERATIONS structure", true },
    { "DmaContext", "call InitializeDmaTransferContext before, and only once the transfer that had it is over",
      "InitializeDmaTransferContext callback", true },
    { "DmaIrql", "raise the level by KeRaiseIrql around the call", "GetScatterGatherList callback", false },
};

static const char *with_remedy(const char *rule, const char *text)
{
    static _Thread_local char whole[800];
    for (size_t i = 0; i < ARRAYSIZE(rules); i++)
        if (!strcmp(rules[i].rule, rule))
            snprintf(whole, sizeof whole, "%s%s. Remedy: %s (WDK: %s)", text, rules[i].is_newer ? "" : ": Driver Verifier's 0xE6",
                     rules[i].remedy, rules[i].page);
    return whole;
}

void dma_fault(const char *rule, const char *how, ...)
{
    char text[500];
    va_list list;
    va_start(list, how);
    vsnprintf(text, sizeof text, how, list);
    va_end(list);
    fault(rule, NULL, "%s", with_remedy(rule, text));
}

void dma_fault_at(const char *rule, const char *call, WDM_SITE at, const char *text)
{
    fault_at(rule, NULL, call, at, "%s", with_remedy(rule, text));
}

/* Where each thread, by its seat, is about to call. */
static WDM_SITE sites[MAX_SEATS + 1];

PDMA_ADAPTER WdmDmaAt(PDMA_ADAPTER Given, WDM_SITE at)
{
    sites[self.seat + 1] = at;
    return Given;
}

WDM_SITE dma_site(void)
{
    const WDM_SITE at = sites[self.seat + 1];
    sites[self.seat + 1] = (WDM_SITE){ 0 };
    return at;
}

void needs_dispatch_level(void)
{
    if (self.irql < DISPATCH_LEVEL)
        dma_fault("DmaIrql", "called at %s, and DISPATCH_LEVEL is wanted", level_name(self.irql));
}

Adapter *adapter_in(PDMA_ADAPTER given)
{
    Adapter *a = adapters;
    while (a && &a->given != given)
        a = a->next;
    if (!a)
        dma_fault("DmaFreedTwice", "this is no DMA adapter");
    else if (a->is_put)
        dma_fault("DmaFreedTwice", "the DMA adapter was put at %s", place(a->put));
    else
        touch(a, SYNCS);
    return a && !a->is_put ? a : NULL;
}

Adapter *newer_adapter_in(PDMA_ADAPTER given)
{
    Adapter *a = adapter_in(given);
    if (a && a->description.Version < DEVICE_DESCRIPTION_VERSION3)
        dma_fault("DmaVersion", "the adapter was got at %s by a description of version %u, whose DmaOperations don't have it",
                  place(a->made), a->description.Version);
    return a;
}

static int bottom_of(const DEVICE_OBJECT *device)
{
    int d = device->HostNumber;
    while (devices[d].lower >= 0)
        d = devices[d].lower;
    return d;
}

static DMA_OPERATIONS operations[2];

PDMA_ADAPTER WdmIoGetDmaAdapter(PDEVICE_OBJECT Pdo, PDEVICE_DESCRIPTION Description, PULONG Registers, WDM_SITE at)
{
    Call c;
    enter_host(&c, "IoGetDmaAdapter", at);
    const bool is_known = Description->Version <= DEVICE_DESCRIPTION_VERSION3;
    Adapter *a = memory_is_refused(c.name, at) || !is_known ? NULL : host_memory(sizeof *a);
    if (a) {
        a->given = (DMA_ADAPTER){ 1, sizeof a->given, &operations[Description->Version == DEVICE_DESCRIPTION_VERSION3] };
        a->bottom = bottom_of(Pdo);
        a->driver = calling_driver();
        a->description = *Description;
        a->registers = a->left = BYTES_TO_PAGES(Description->MaximumLength) + 1;
        a->made = at;
        a->next = adapters;
        adapters = a;
        *Registers = a->registers;
        give_out(a, "the DMA adapter", c.name, at);
    }
    leave_host();
    return a ? &a->given : NULL;
}

static void put_adapter(PDMA_ADAPTER Given)
{
    Call c;
    const WDM_SITE at = dma_site();
    enter_host(&c, "PutDmaAdapter", at);
    Adapter *a = adapter_in(Given);
    if (a) {
        tell_wanted_kept(a);
        for (const Mapping *m = mapping_of(NULL, NULL); m; m = mapping_of(NULL, m))
            if (m->adapter == a && m->is_both)
                dma_fault("DmaKept", "the common buffer that was got at %s isn't freed", place(m->at));
        take_back(a, NULL);
        a->is_put = true;
        a->put = at;
    }
    leave_host();
}

/* The room behind it tells who writes beyond it. */
PVOID new_common(Adapter *a, ULONG length, PPHYSICAL_ADDRESS logical, const char *call, WDM_SITE at)
{
    char *memory = !a || memory_is_refused(call, at) ? NULL : host_memory(length + 2 * PAGE_SIZE);
    if (!memory)
        return NULL;
    char *buffer = (char *)ROUND_TO_PAGES((ULONG_PTR)memory);
    Mapping *m = map_memory(a, memory, NULL, length, false);
    memset(buffer + length, FENCED, FENCE);
    m->memory = buffer;
    m->is_both = true;
    logical->QuadPart = (LONGLONG)m->logical;
    give_out(memory, "the common buffer", call, at);
    return buffer;
}

static PVOID allocate_common(PDMA_ADAPTER Given, ULONG Length, PPHYSICAL_ADDRESS Logical, BOOLEAN Cache)
{
    Call c;
    const WDM_SITE at = dma_site();
    (void)Cache;
    enter_host(&c, "AllocateCommonBuffer", at);
    PVOID buffer = new_common(adapter_in(Given), Length, Logical, c.name, at);
    leave_host();
    return buffer;
}

static Mapping *common_at(const Adapter *a, PVOID buffer)
{
    Mapping *m = mapping_of(NULL, NULL);
    while (m && (m->adapter != a || !m->is_both || m->memory != buffer))
        m = mapping_of(NULL, m);
    return m;
}

static void free_common(PDMA_ADAPTER Given, ULONG Length, PHYSICAL_ADDRESS Logical, PVOID Virtual, BOOLEAN Cache)
{
    Call c;
    (void)Cache;
    enter_host(&c, "FreeCommonBuffer", dma_site());
    Adapter *a = adapter_in(Given);
    Mapping *m = a ? common_at(a, Virtual) : NULL;
    if (a && !m)
        dma_fault("DmaFreedTwice", "%p is no common buffer of this adapter, or was freed before", Virtual);
    else if (m && (m->length != Length || m->logical != (uint64_t)Logical.QuadPart))
        dma_fault("DmaFreedTwice", "the common buffer that was got at %s has %u bytes at %#llx", place(m->at), m->length,
                  (unsigned long long)m->logical);
    if (m) {
        for (int i = 0; i < FENCE; i++)
            if ((UCHAR)m->memory[m->length + (ULONG)i] != FENCED) {
                dma_fault("DmaBeyond", "byte %d behind the end of the common buffer that was got at %s was written", i + 1, place(m->at));
                break;
            }
        take_back(m->of, NULL);
        unmap_memory(m, false);
        free_host_memory((void *)m->of);
    }
    leave_host();
}

static ULONG alignment(PDMA_ADAPTER Given) { return (void)Given, 1; }
static ULONG counter(PDMA_ADAPTER Given) { return (void)Given, 0; }

#define BEFORE_3 \
    .PutDmaAdapter = put_adapter, .AllocateCommonBuffer = allocate_common, .FreeCommonBuffer = free_common, \
    .AllocateAdapterChannel = allocate_channel, .FlushAdapterBuffers = flush_buffers, .FreeAdapterChannel = free_channel, \
    .FreeMapRegisters = free_registers, .MapTransfer = map_transfer, .GetDmaAlignment = alignment, .ReadDmaCounter = counter, \
    .GetScatterGatherList = get_list, .PutScatterGatherList = put_list, .CalculateScatterGatherList = list_size, \
    .BuildScatterGatherList = build_list
/* Those before version 3, and with it. Version 3's stand in both, so that who calls them with an older adapter is told. */
#define WITH_3 \
    .GetDmaAdapterInfo = adapter_info, .GetDmaTransferInfo = transfer_info, .InitializeDmaTransferContext = initialize_transfer, \
    .AllocateCommonBufferEx = allocate_common_below, .AllocateAdapterChannelEx = allocate_channel_ex, \
    .CancelAdapterChannel = cancel_channel, .MapTransferEx = map_transfer_ex, .GetScatterGatherListEx = get_list_ex, \
    .FlushAdapterBuffersEx = flush_buffers_ex, .FreeAdapterObject = free_adapter_object
static DMA_OPERATIONS operations[2] = {
    { .Size = offsetof(DMA_OPERATIONS, GetDmaAdapterInfo), BEFORE_3, WITH_3 },
    { .Size = sizeof(DMA_OPERATIONS), BEFORE_3, WITH_3 },
};
