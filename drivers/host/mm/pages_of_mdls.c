/* pages_of_mdls.c: pages that are allocated with an MDL (MmAllocatePagesForMdlEx), and handles of objects by their pointers. */
#include "mm/mm.h"
#include "explore/explore.h"
#include "ke/ke.h"
#include "ob/ob.h"
#include "record/record.h"
#include "rules/rules.h"
#include "wdm_callbacks.h"

enum { MDL_TAG = 0x6c4d6d4d }; /* MmMl */

/* Under G: the MDL is pool, which the driver frees by ExFreePool; its pages have memory of the host's. */
static PMDL new_pages(SIZE_T bytes, WDM_SITE at)
{
    const SIZE_T whole = ROUND_TO_PAGES(bytes);
    char *memory = host_memory(whole + PAGE_SIZE), *pages = (char *)ROUND_TO_PAGES((ULONG_PTR)memory);
    Block *b = memory ? new_block(MmSizeOfMdl(pages, whole) + sizeof(char *), MDL_TAG, WDM_POOL_ZERO, at) : NULL;
    if (!b) {
        free_host_memory(memory);
        return NULL;
    }
    PMDL mdl = (PMDL)b->bytes;
    MmInitializeMdl(mdl, pages, whole);
    mdl->MdlFlags |= MDL_PAGES_LOCKED;
    memcpy(b->bytes + b->size - sizeof memory, &memory, sizeof memory);
    give_out(mdl, "the block of pages", "MmAllocatePagesForMdlEx", at);
    return mdl;
}

PMDL WdmMmAllocatePages(SIZE_T Bytes, ULONG Flags, WDM_SITE at)
{
    Call c;
    enter_host(&c, "MmAllocatePagesForMdlEx", at);
    PMDL mdl = !Bytes || memory_is_refused(c.name, at) ? NULL : new_pages(Bytes, at);
    if (mdl && Flags & MM_DONT_ZERO_ALLOCATION)
        memset(MmGetMdlVirtualAddress(mdl), 0xCD, mdl->ByteCount);
    leave_host();
    return mdl;
}

VOID WdmMmFreePages(PMDL Mdl, WDM_SITE at)
{
    Call c;
    enter_host(&c, "MmFreePagesFromMdl", at);
    touch_memory(Mdl, sizeof *Mdl, WRITES);
    if (!take_back(Mdl, NULL))
        fault("NotAllocated", NULL, "the MDL has no pages of MmAllocatePagesForMdlEx, or they were freed before");
    else {
        char *memory;
        memcpy(&memory, (char *)Mdl + MmSizeOfMdl(Mdl->StartVa, Mdl->ByteCount), sizeof memory);
        Mdl->MdlFlags = 0;
        Mdl->MappedSystemVa = NULL;
        free_host_memory(memory);
    }
    leave_host();
}

/* The handle has no type, so that its close does nothing else. */
NTSTATUS WdmObOpenByPointer(PVOID Object, POBJECT_TYPE Type, PHANDLE Handle, WDM_SITE at)
{
    Call c;
    const POBJECT_TYPE is = ObGetObjectType(Object);
    if (Type && is && is != Type)
        return STATUS_OBJECT_TYPE_MISMATCH;
    *Handle = WdmIsRefused("ObOpenObjectByPointer", at) ? NULL : new_handle(NULL, Object);
    if (!*Handle)
        return STATUS_INSUFFICIENT_RESOURCES;
    enter_host(&c, "ObOpenObjectByPointer", at);
    give_out(*Handle, "the handle", c.name, at);
    leave_host();
    return STATUS_SUCCESS;
}
