/* wdm_mm.h: memory descriptor lists (MDLs). Memory of this process is its own mapping: an MDL's addresses are its bytes'. */
#ifndef WDM_MM_H
#define WDM_MM_H

#include "wdm_ke.h"

#define PAGE_SIZE 0x1000
#define PAGE_SHIFT 12
#define BYTE_OFFSET(va) ((ULONG)((ULONG_PTR)(va) & (PAGE_SIZE - 1)))
#define PAGE_ALIGN(va) ((PVOID)((ULONG_PTR)(va) & ~(ULONG_PTR)(PAGE_SIZE - 1)))
#define BYTES_TO_PAGES(n) (((n) >> PAGE_SHIFT) + (((n) & (PAGE_SIZE - 1)) != 0))
#define ROUND_TO_PAGES(n) (((ULONG_PTR)(n) + PAGE_SIZE - 1) & ~(ULONG_PTR)(PAGE_SIZE - 1))
#define ADDRESS_AND_SIZE_TO_SPAN_PAGES(va, n) ((ULONG)BYTES_TO_PAGES((ULONG_PTR)BYTE_OFFSET(va) + (n)))
#define COMPUTE_PAGES_SPANNED ADDRESS_AND_SIZE_TO_SPAN_PAGES
#define PAGE_NOACCESS 0x01
#define PAGE_READONLY 0x02
#define PAGE_READWRITE 0x04
#define PAGE_WRITECOPY 0x08
#define PAGE_EXECUTE 0x10
#define PAGE_EXECUTE_READ 0x20
#define PAGE_EXECUTE_READWRITE 0x40
#define PAGE_EXECUTE_WRITECOPY 0x80
#define PAGE_GUARD 0x100
#define PAGE_NOCACHE 0x200
#define PAGE_WRITECOMBINE 0x400
typedef enum _LOCK_OPERATION { IoReadAccess, IoWriteAccess, IoModifyAccess } LOCK_OPERATION;
typedef enum _MEMORY_CACHING_TYPE { MmNonCached, MmCached, MmWriteCombined } MEMORY_CACHING_TYPE;
enum { LowPagePriority = 0, NormalPagePriority = 16, HighPagePriority = 32 };
#define MdlMappingNoWrite 0x80000000
#define MdlMappingNoExecute 0x40000000
typedef ULONG MM_PAGE_PRIORITY;
enum {
    MDL_MAPPED_TO_SYSTEM_VA = 0x01, MDL_PAGES_LOCKED = 0x02, MDL_SOURCE_IS_NONPAGED_POOL = 0x04,
    MDL_ALLOCATED_FIXED_SIZE = 0x08, MDL_PARTIAL = 0x10, MDL_PARTIAL_HAS_BEEN_MAPPED = 0x20, MDL_IO_PAGE_READ = 0x40,
    MDL_WRITE_OPERATION = 0x80, MDL_MAPPING_CAN_FAIL = 0x2000
};
typedef struct _MDL {
    struct _MDL *Next;
    CSHORT Size, MdlFlags;
    PVOID Process, MappedSystemVa, StartVa;
    ULONG ByteCount, ByteOffset;
} MDL, *PMDL, *PMDLX;
#define MmGetMdlVirtualAddress(mdl) ((PVOID)((PUCHAR)(mdl)->StartVa + (mdl)->ByteOffset))
#define MmGetMdlByteCount(mdl) ((mdl)->ByteCount)
#define MmGetMdlByteOffset(mdl) ((mdl)->ByteOffset)
#define MmGetMdlBaseVa(mdl) ((mdl)->StartVa)
#define MmGetMdlPfnArray(mdl) ((PPFN_NUMBER)((mdl) + 1))
#define MmSizeOfMdl(va, n) (sizeof(MDL) + sizeof(PFN_NUMBER) * ADDRESS_AND_SIZE_TO_SPAN_PAGES((va), (n)))
#define MmInitializeMdl(mdl, va, n) \
    ((void)(*(mdl) = (MDL){ .Size = (CSHORT)MmSizeOfMdl((va), (n)), .StartVa = PAGE_ALIGN(va), \
                            .ByteOffset = BYTE_OFFSET(va), .ByteCount = (ULONG)(n) }))
PVOID WdmMmMapMdl(PMDL Mdl, BOOLEAN MayFail, WDM_SITE at);
#define MmGetSystemAddressForMdlSafe(mdl, priority) ((void)(priority), WdmMmMapMdl((mdl), TRUE, WDM_HERE))
#define MmGetSystemAddressForMdl(mdl) WdmMmMapMdl((mdl), FALSE, WDM_HERE)
#define MmMapLockedPages(mdl, mode) ((void)(mode), WdmMmMapMdl((mdl), FALSE, WDM_HERE))
#define MmMapLockedPagesSpecifyCache(mdl, mode, cache, base, bug, priority) \
    ((void)(mode), (void)(cache), (void)(base), (void)(priority), WdmMmMapMdl((mdl), !(bug), WDM_HERE))
VOID WdmMmUnmapLockedPages(PVOID Base, PMDL Mdl, WDM_SITE at);
VOID WdmMmProbeAndLockPages(PMDL Mdl, KPROCESSOR_MODE Mode, LOCK_OPERATION Operation, WDM_SITE at);
VOID WdmMmUnlockPages(PMDL Mdl, WDM_SITE at);
VOID WdmMmBuildMdlForNonPagedPool(PMDL Mdl, WDM_SITE at);
#define MmUnmapLockedPages(base, mdl) WdmMmUnmapLockedPages((base), (mdl), WDM_HERE)
#define MmProbeAndLockPages(mdl, mode, operation) WdmMmProbeAndLockPages((mdl), (KPROCESSOR_MODE)(mode), (operation), WDM_HERE)
#define MmUnlockPages(mdl) WdmMmUnlockPages((mdl), WDM_HERE)
#define MmBuildMdlForNonPagedPool(mdl) WdmMmBuildMdlForNonPagedPool((mdl), WDM_HERE)
#define MmPrepareMdlForReuse(mdl) ((void)(mdl))
#define MmProtectMdlSystemAddress(mdl, protection) ((void)(mdl), (void)(protection), STATUS_SUCCESS)
#define MmIsAddressValid(va) ((BOOLEAN)((va) != NULL))
#define MmGetPhysicalAddress(va) ((PHYSICAL_ADDRESS){ .QuadPart = (LONGLONG)(ULONG_PTR)(va) })
PVOID MmAllocateContiguousMemory(SIZE_T Bytes, PHYSICAL_ADDRESS Highest);
VOID MmFreeContiguousMemory(PVOID Base);
VOID ProbeForRead(const VOID *Address, SIZE_T Length, ULONG Alignment);
VOID ProbeForWrite(PVOID Address, SIZE_T Length, ULONG Alignment);
#define MmLockPagableCodeSection(address) ((PVOID)(address))
#define MmLockPagableDataSection(address) ((PVOID)(address))
#define MmUnlockPagableImageSection(handle) ((void)(handle))
#define MmPageEntireDriver(address) ((PVOID)(address))
#define MmResetDriverPaging(address) ((void)(address))
#define MmIsThisAnNtAsSystem() FALSE

#endif
