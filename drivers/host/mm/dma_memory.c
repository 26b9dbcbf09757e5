/*
 * dma_memory.c: addresses of devices. A mapping has addresses of its own below 4 GB, each with the offset in its page that the
 * driver's memory has, and memory of its own: what the device writes there is copied to the driver's when the mapping ends.
 * A page that nobody has lies behind each mapping. Those that are over stay, so that a device that uses them is told of.
 */
#include "mm/dma.h"
#include "explore/explore.h"
#include "ke/ke.h"
#include "record/record.h"
#include "wdm_test.h"

static Mapping *mappings;
static const uint64_t FIRST = 0x10000000, PER_SEAT = 0x2000000;

/* Addresses of this thread: the same in each order of the others' steps. */
static uint64_t addresses_for(const char *original, ULONG length)
{
    static uint64_t used[MAX_SEATS];
    const uint64_t pages = ADDRESS_AND_SIZE_TO_SPAN_PAGES(original, length) + 1u;
    if ((used[self.seat] + pages) * PAGE_SIZE > PER_SEAT)
        used[self.seat] = 0;
    const uint64_t at = FIRST + (uint64_t)self.seat * PER_SEAT + used[self.seat] * PAGE_SIZE;
    used[self.seat] += pages;
    return at + BYTE_OFFSET(original);
}

Mapping *map_memory(Adapter *a, const void *of, char *original, ULONG length, bool to_device)
{
    Mapping *m = host_memory(sizeof *m);
    char *memory = original ? host_memory(length + 1) : NULL;
    if (!m || (original && !memory))
        give_up("out of memory");
    *m = (Mapping){ mappings, a, of, addresses_for(original, length), memory, original, length, to_device, false, false,
                    self.calls->name, NULL, self.calls->at, { 0 } };
    if (original) {
        touch_memory(original, length, READS);
        memcpy(memory, original, length);
    }
    mappings = m;
    return m;
}

/* Memory that went meanwhile was told of then. */
void unmap_memory(Mapping *m, bool copies_back)
{
    if (copies_back && m->original && !m->to_device) {
        touch_memory(m->original, m->length, WRITES);
        memcpy(m->original, m->memory, m->length);
    }
    if (m->original || !m->is_both)
        free_host_memory(m->memory);
    m->memory = m->original = NULL;
    m->is_over = true;
    m->over = self.calls->at;
    m->over_call = self.calls->name;
    m->of = NULL;
}

/* The next one that is there, of this, or of whatever where that is NULL. */
Mapping *mapping_of(const void *of, const Mapping *before)
{
    Mapping *m = before ? before->next : mappings;
    while (m && (m->is_over || (of && m->of != of)))
        m = m->next;
    return m;
}

/* Memory goes that a device may read or write yet. */
void check_dma_gone(const void *from, size_t size, const char *what)
{
    for (Mapping *m = mapping_of(NULL, NULL); m; m = mapping_of(NULL, m)) {
        if (!m->original || m->original + m->length <= (const char *)from || m->original >= (const char *)from + size)
            continue;
        dma_fault("DmaKept", "the %s goes, and %s at %s has mapped it for the device", what, m->call, place(m->at));
        for (Mapping *other = mapping_of(m->of, NULL); other; other = mapping_of(m->of, other))
            other->original = NULL;
    }
}

/* A request is completed whose buffer a device may read or write yet. */
void check_dma_completed(PMDL mdl)
{
    for (; mdl; mdl = mdl->Next) {
        const char *from = MmGetMdlVirtualAddress(mdl);
        Mapping *m = mapping_of(NULL, NULL);
        while (m && (!m->original || m->original < from || m->original >= from + mdl->ByteCount))
            m = mapping_of(NULL, m);
        if (m)
            dma_fault("DmaKept", "the request is completed, and %s at %s has mapped its buffer for the device", m->call, place(m->at));
    }
}

/* The mapping that has this address, or was the last one that had it, or ends next below it; or NULL. */
static Mapping *nearest(int bottom, uint64_t address)
{
    Mapping *best = NULL;
    for (Mapping *m = mappings; m; m = m->next) {
        if (m->adapter->bottom != bottom || address < m->logical || address > m->logical + m->length + PAGE_SIZE)
            continue;
        const bool has_it = address < m->logical + m->length, best_has = best && address < best->logical + best->length;
        if (!m->is_over && has_it)
            return m;
        if (!best || (has_it && !best_has) || (has_it == best_has && m->logical > best->logical))
            best = m;
    }
    return best;
}

static const Adapter *adapter_of(int bottom)
{
    for (const Mapping *m = mappings; m; m = m->next)
        if (m->adapter->bottom == bottom)
            return m->adapter;
    return NULL;
}

/* Whether the device may do this there. Where not, its driver is told of, at the call that mapped it or ended that. */
static bool may_transfer(int bottom, const Mapping *m, uint64_t address, ULONG length, bool reads)
{
    char text[300];
    const char *does = reads ? "reads" : "writes";
    const Adapter *a = adapter_of(bottom);
    const bool is_known = m && (address < m->logical + m->length || !m->is_over);
    if (is_known && m->is_over) {
        snprintf(text, sizeof text, "the device %s %u bytes that were mapped by %s at %s until here", does, length, m->call, place(m->at));
        dma_fault_at("DmaAfterEnd", m->over_call, m->over, text);
    } else if (is_known && address + length > m->logical + m->length) {
        snprintf(text, sizeof text, "the device %s %llu bytes beyond the end of %u bytes that are mapped here", does,
                 (unsigned long long)(address + length - m->logical - m->length), m->length);
        dma_fault_at("DmaBeyond", m->call, m->at, text);
    } else if (is_known && !m->is_both && m->to_device != reads) {
        snprintf(text, sizeof text, "the device %s what is mapped here with WriteToDevice %s", does, m->to_device ? "TRUE" : "FALSE");
        dma_fault_at("DmaDirection", m->call, m->at, text);
    } else if (!is_known) {
        snprintf(text, sizeof text, "the device %s %u bytes at %#llx, which nobody has mapped for it: it got no address of its adapter", does,
                 length, (unsigned long long)address);
        if (a)
            dma_fault_at("DmaBeyond", "IoGetDmaAdapter", a->made, text);
        else
            dma_fault("DmaBeyond", "%s", text);
    } else
        return true;
    return false;
}

BOOLEAN WdmDma(PDEVICE_OBJECT Pdo, PHYSICAL_ADDRESS Address, PVOID Data, ULONG Length, BOOLEAN Reads, WDM_SITE at)
{
    Call c;
    learn_test(at.file);
    enter_host(&c, Reads ? "WdmDmaRead" : "WdmDmaWrite", at);
    int bottom = Pdo->HostNumber;
    while (devices[bottom].lower >= 0)
        bottom = devices[bottom].lower;
    const uint64_t address = (uint64_t)Address.QuadPart;
    Mapping *m = nearest(bottom, address);
    const BOOLEAN may = may_transfer(bottom, m, address, Length, Reads);
    if (m)
        touch(m->adapter, SYNCS);
    if (may)
        memcpy(Reads ? Data : m->memory + (address - m->logical), Reads ? m->memory + (address - m->logical) : Data, Length);
    leave_host();
    return may;
}
