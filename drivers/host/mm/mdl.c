/*
 * mdl.c: memory descriptor lists. Memory is mapped at its own address. What is told: an MDL used before its pages are
 * locked or it was built, locked or unlocked twice, freed while its pages are locked, and locked at the end.
 */
#include "mm/own.h"
#include "explore/explore.h"
#include "io/io.h"
#include "ke/ke.h"
#include "record/record.h"
#include "rules/rules.h"

enum { MAX_LOCKED = 256 };
static struct { PMDL mdl; WDM_SITE at; } locked[MAX_LOCKED];
static int n_locked;

static void forget_lock(PMDL mdl)
{
    for (int i = 0; i < n_locked; i++)
        if (locked[i].mdl == mdl)
            locked[i--] = locked[--n_locked];
}

static WDM_SITE lock_of(PMDL mdl)
{
    for (int i = 0; i < n_locked; i++)
        if (locked[i].mdl == mdl)
            return locked[i].at;
    return (WDM_SITE){ 0 };
}

static void lock_pages(PMDL mdl, bool for_writing, WDM_SITE at)
{
    lock_block(MmGetMdlVirtualAddress(mdl), 1);
    mdl->MdlFlags |= MDL_PAGES_LOCKED | (for_writing ? MDL_WRITE_OPERATION : 0);
    forget_lock(mdl);
    if (n_locked < MAX_LOCKED) {
        locked[n_locked].mdl = mdl;
        locked[n_locked++].at = at;
    }
}

static void unlock_pages(PMDL mdl)
{
    lock_block(MmGetMdlVirtualAddress(mdl), -1);
    mdl->MdlFlags &= (CSHORT)~(MDL_PAGES_LOCKED | MDL_MAPPED_TO_SYSTEM_VA | MDL_WRITE_OPERATION);
    mdl->MappedSystemVa = NULL;
    forget_lock(mdl);
}

/* An asynchronous packet's MDL describes its builder's own buffer, and its system buffer is pool: whoever had it built
   unlocks and frees them before the packet. */
void lend_buffers(Packet *p, PVOID buffer, ULONG length, bool is_read)
{
    p->buffer.is_lent = true;
    if (p->irp->MdlAddress && buffer && (p->buffer.lent = host_memory(MmSizeOfMdl(buffer, length)))) {
        MmInitializeMdl(p->buffer.lent, buffer, length);
        lock_pages(p->buffer.lent, is_read, self.calls->at);
        p->irp->MdlAddress = p->buffer.lent;
        p->buffer.writes_back = false;
    } else if (p->irp->AssociatedIrp.SystemBuffer && p->buffer.bytes) {
        p->buffer.bytes->is_buffer = false;
        p->buffer.bytes->lent_by = p;
        p->irp->Flags |= IRP_BUFFERED_IO | IRP_DEALLOCATE_BUFFER | (is_read ? IRP_INPUT_OPERATION : 0);
    }
}

/* Nobody kept the packet: the I/O manager unlocks and frees its MDL. */
void end_lent_mdl(Packet *p)
{
    if (p->buffer.lent && p->irp->MdlAddress == p->buffer.lent && p->buffer.lent->MdlFlags & MDL_PAGES_LOCKED) {
        unlock_pages(p->buffer.lent);
        free_host_memory(p->buffer.lent);
        p->irp->MdlAddress = NULL;
    }
    p->buffer.lent = NULL;
}

PMDL WdmIoAllocateMdl(PVOID Address, ULONG Length, BOOLEAN Secondary, PIRP Irp, WDM_SITE at)
{
    Call c;
    enter_host(&c, "IoAllocateMdl", at);
    PMDL mdl = memory_is_refused(c.name, at) ? NULL : host_memory(MmSizeOfMdl(Address, Length));
    if (mdl)
        MmInitializeMdl(mdl, Address, Length);
    if (mdl && Irp && Secondary) {
        PMDL *end = &Irp->MdlAddress;
        while (*end)
            end = &(*end)->Next;
        *end = mdl;
    } else if (mdl && Irp)
        Irp->MdlAddress = mdl;
    leave_host();
    return mdl;
}

/* The packet that was built with this MDL, and frees it: the I/O manager locked its pages. */
static Packet *built_with(PMDL mdl)
{
    for (int i = 0; i < n_packets; i++)
        if (packets[i]->buffer.given && (mdl == packets[i]->buffer.given || mdl == packets[i]->buffer.direct))
            return packets[i];
    return NULL;
}

static void tell_freed_locked(PMDL mdl)
{
    const WDM_SITE at = lock_of(mdl);
    if (mdl->MdlFlags & MDL_PAGES_LOCKED)
        fault("MdlLocked", NULL, "an MDL is freed whose pages are locked%s%s: call MmUnlockPages before",
              at.file ? " since " : "", at.file ? place(at) : "");
}

VOID WdmIoFreeMdl(PMDL Mdl, WDM_SITE at)
{
    Call c;
    enter_host(&c, "IoFreeMdl", at);
    touch_memory(Mdl, sizeof *Mdl, WRITES);
    tell_freed_locked(Mdl);
    forget_lock(Mdl);
    if (!built_with(Mdl))
        free_host_memory(Mdl);
    leave_host();
}

VOID WdmMmBuildMdlForNonPagedPool(PMDL Mdl, WDM_SITE at)
{
    Call c;
    enter_host(&c, "MmBuildMdlForNonPagedPool", at);
    touch_memory(Mdl, sizeof *Mdl, WRITES);
    if (Mdl->MdlFlags & MDL_PAGES_LOCKED)
        fault("MdlLocked", NULL, "an MDL is built whose pages are locked since %s", place(lock_of(Mdl)));
    Mdl->MdlFlags |= MDL_SOURCE_IS_NONPAGED_POOL | MDL_MAPPED_TO_SYSTEM_VA;
    Mdl->MappedSystemVa = MmGetMdlVirtualAddress(Mdl);
    leave_host();
}

VOID WdmMmProbeAndLockPages(PMDL Mdl, KPROCESSOR_MODE Mode, LOCK_OPERATION Operation, WDM_SITE at)
{
    Call c;
    enter_host(&c, "MmProbeAndLockPages", at);
    touch_memory(Mdl, sizeof *Mdl, WRITES);
    if (Mode == KernelMode && is_unprobed(MmGetMdlVirtualAddress(Mdl)))
        broken("Unprobed", NULL, "a program's pointer, of a METHOD_NEITHER control, is locked with KernelMode, which probes nothing: "
               "hand over Irp->RequestorMode");
    probed(MmGetMdlVirtualAddress(Mdl));
    if (Mdl->MdlFlags & (MDL_PAGES_LOCKED | MDL_SOURCE_IS_NONPAGED_POOL | MDL_PARTIAL))
        fault("MdlLocked", NULL, "the pages of an MDL are locked that was %s",
              Mdl->MdlFlags & MDL_PAGES_LOCKED ? "locked before" : "built for memory that needs no lock");
    lock_pages(Mdl, Operation != IoReadAccess, at);
    leave_host();
}

VOID WdmMmUnlockPages(PMDL Mdl, WDM_SITE at)
{
    Call c;
    enter_host(&c, "MmUnlockPages", at);
    touch_memory(Mdl, sizeof *Mdl, WRITES);
    if (!(Mdl->MdlFlags & MDL_PAGES_LOCKED))
        fault("MdlNotLocked", NULL, "the pages of an MDL are unlocked that aren't locked");
    else
        unlock_pages(Mdl);
    leave_host();
}

/* One that isn't mapped yet takes system addresses, of which there may be none left. */
PVOID WdmMmMapMdl(PMDL Mdl, BOOLEAN MayFail, WDM_SITE at)
{
    Call c;
    enter_host(&c, "MmGetSystemAddressForMdlSafe", at);
    touch_memory(Mdl, sizeof *Mdl, WRITES);
    if (!(Mdl->MdlFlags & (MDL_PAGES_LOCKED | MDL_SOURCE_IS_NONPAGED_POOL | MDL_PARTIAL)))
        fault("MdlNotLocked", NULL, "an MDL is mapped that was neither locked nor built");
    const bool is_mapped = Mdl->MdlFlags & (MDL_MAPPED_TO_SYSTEM_VA | MDL_SOURCE_IS_NONPAGED_POOL);
    const bool fails = MayFail && !is_mapped && memory_is_refused(c.name, at);
    if (!fails) {
        Mdl->MdlFlags |= MDL_MAPPED_TO_SYSTEM_VA;
        Mdl->MappedSystemVa = MmGetMdlVirtualAddress(Mdl);
    }
    leave_host();
    return fails ? NULL : Mdl->MappedSystemVa;
}

VOID WdmMmUnmapLockedPages(PVOID Base, PMDL Mdl, WDM_SITE at)
{
    Call c;
    enter_host(&c, "MmUnmapLockedPages", at);
    touch_memory(Mdl, sizeof *Mdl, WRITES);
    if (!(Mdl->MdlFlags & MDL_MAPPED_TO_SYSTEM_VA) || Base != Mdl->MappedSystemVa)
        fault("MdlNotLocked", NULL, "an MDL is unmapped that isn't mapped there");
    Mdl->MdlFlags &= (CSHORT)~MDL_MAPPED_TO_SYSTEM_VA;
    leave_host();
}

VOID WdmIoBuildPartialMdl(PMDL Source, PMDL Target, PVOID Address, ULONG Length, WDM_SITE at)
{
    Call c;
    enter_host(&c, "IoBuildPartialMdl", at);
    touch_memory(Source, sizeof *Source, READS);
    touch_memory(Target, sizeof *Target, WRITES);
    const PUCHAR begin = MmGetMdlVirtualAddress(Source), end = begin + Source->ByteCount;
    const ULONG length = Length ? Length : (ULONG)(end - (PUCHAR)Address);
    if (!(Source->MdlFlags & (MDL_PAGES_LOCKED | MDL_SOURCE_IS_NONPAGED_POOL | MDL_PARTIAL)))
        fault("MdlNotLocked", NULL, "a partial MDL is built of one that was neither locked nor built");
    if ((PUCHAR)Address < begin || (PUCHAR)Address + length > end)
        fault("MdlRange", NULL, "a partial MDL of %u bytes reaches beyond its source of %u", length, Source->ByteCount);
    Target->StartVa = PAGE_ALIGN(Address);
    Target->ByteOffset = BYTE_OFFSET(Address);
    Target->ByteCount = length;
    Target->MappedSystemVa = Address;
    Target->MdlFlags = (CSHORT)(MDL_PARTIAL | MDL_MAPPED_TO_SYSTEM_VA | (Target->MdlFlags & MDL_ALLOCATED_FIXED_SIZE));
    leave_host();
}

/* A program's memory is pageable, and nobody has probed it. Where it can't be had the buffer stays as it was built. */
static void give_programs_memory(Packet *p, PIO_STACK_LOCATION next)
{
    Block *old = p->buffer.bytes, *b = new_block(old->size, 0, WDM_POOL_ZERO | WDM_POOL_PAGED, p->sites.allocated);
    if (!b)
        return;
    b->is_buffer = true;
    memcpy(b->bytes, old->bytes, old->size);
    if (p->irp->UserBuffer == old->bytes)
        p->irp->UserBuffer = b->bytes;
    if (next->Parameters.DeviceIoControl.Type3InputBuffer == old->bytes)
        next->Parameters.DeviceIoControl.Type3InputBuffer = b->bytes;
    p->buffer.bytes = b;
    free_block(old, self.calls->at);
}

/* A control of METHOD_IN_DIRECT or METHOD_OUT_DIRECT that is built has an MDL of its output buffer, and one of
   METHOD_NEITHER no system buffer: given at its first send, when its code is known. Under G. */
void give_mdl(Packet *p)
{
    if (!p->buffer.direct || p->irp->MdlAddress || p->current < 2)
        return;
    const PIO_STACK_LOCATION next = raw_at(p, p->current - 1);
    const ULONG method = METHOD_FROM_CTL_CODE(next->Parameters.DeviceIoControl.IoControlCode);
    const bool is_control =
        next->MajorFunction == IRP_MJ_DEVICE_CONTROL || next->MajorFunction == IRP_MJ_INTERNAL_DEVICE_CONTROL;
    if (next->MajorFunction == IRP_MJ_DEVICE_CONTROL && method == METHOD_NEITHER && p->buffer.bytes &&
        p->irp->AssociatedIrp.SystemBuffer) {
        if (!next->Parameters.DeviceIoControl.Type3InputBuffer)
            next->Parameters.DeviceIoControl.Type3InputBuffer = p->buffer.bytes->bytes;
        p->irp->AssociatedIrp.SystemBuffer = NULL;
        p->irp->Flags &= ~(ULONG)(IRP_BUFFERED_IO | IRP_DEALLOCATE_BUFFER);
        if (p->irp->RequestorMode == UserMode)
            give_programs_memory(p, next);
        close_until_probed(p->buffer.bytes, p->irp->RequestorMode == UserMode);
    }
    if (is_control && method == METHOD_BUFFERED && p->irp->AssociatedIrp.SystemBuffer && next->Parameters.DeviceIoControl.OutputBufferLength)
        p->irp->Flags |= IRP_INPUT_OPERATION;
    if (next->MajorFunction == IRP_MJ_DEVICE_CONTROL && method == METHOD_BUFFERED && p->irp->RequestorMode == UserMode)
        fill_behind_input(p, next->Parameters.DeviceIoControl.InputBufferLength);
    if (!is_control || (method != METHOD_IN_DIRECT && method != METHOD_OUT_DIRECT))
        return;
    const ULONG length = next->Parameters.DeviceIoControl.OutputBufferLength;
    if (!p->buffer.writes_back && length && (p->buffer.direct_bytes = new_block(length, 0, WDM_POOL_ZERO, p->sites.allocated)))
        p->buffer.direct_bytes->is_buffer = true;
    PVOID out = p->buffer.writes_back ? p->irp->UserBuffer : p->buffer.direct_bytes ? p->buffer.direct_bytes->bytes : NULL;
    if (!out || !length)
        return;
    lock_block(out, 1); /* for as long as it lives */
    MmInitializeMdl(p->buffer.direct, out, length);
    p->buffer.direct->MdlFlags |= MDL_PAGES_LOCKED;
    p->irp->MdlAddress = p->buffer.direct;
    p->buffer.writes_back = false; /* what is written there is in the caller's buffer already */
}

/* Who touches address 0 in a read or write may have wanted a buffer that the stack's topmost device doesn't ask for: says
   so of the packet. Empty where it has its system buffer, or is none of these. */
const char *buffer_missing(const Packet *p)
{
    static char text[300];
    const int top = p->size ? p->at[p->size].device : NOBODY;
    *text = 0;
    if (!p->buffer.bytes || p->irp->AssociatedIrp.SystemBuffer || top < 0 || (p->major != IRP_MJ_READ && p->major != IRP_MJ_WRITE))
        return text;
    const int n = snprintf(text, sizeof text, "; IRP %u.%lu (%s) has %s and no SystemBuffer, because %s doesn't set "
                           "DO_BUFFERED_IO%s", p->slot, (unsigned long)p->use, major_name(p->major),
                           p->irp->MdlAddress ? "an MdlAddress" : "no MdlAddress", who(top),
                           p->irp->MdlAddress ? "" : " or DO_DIRECT_IO");
    const int below = devices[top].lower;
    if (below >= 0 && devices[below].raw->Flags & DO_BUFFERED_IO)
        snprintf(text + n, sizeof text - (size_t)n, " (a filter copies it from the device below)");
    return text;
}

/* At the end: under G. */
void tell_locked_mdls(void)
{
    for (int i = 0; i < n_locked; i++)
        note("at the end", "the pages of an MDL that were locked at %s are still locked", place(locked[i].at));
}

VOID ProbeForRead(const VOID *Address, SIZE_T Length, ULONG Alignment)
{
    (void)Length, (void)Alignment;
    probed(Address);
}

VOID ProbeForWrite(PVOID Address, SIZE_T Length, ULONG Alignment) { ProbeForRead(Address, Length, Alignment); }

PVOID MmAllocateContiguousMemory(SIZE_T Bytes, PHYSICAL_ADDRESS Highest)
{
    (void)Highest;
    return aligned_alloc(PAGE_SIZE, ROUND_TO_PAGES(Bytes ? Bytes : 1));
}

VOID MmFreeContiguousMemory(PVOID Base) { free(Base); }
