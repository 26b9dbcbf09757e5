/* wdm_ex.h: device queues, deferred calls, resources (ERESOURCE), guarded mutexes, rundown protection, lookaside lists,
   interlocked singly linked lists, critical regions, processors, time. */
#ifndef WDM_EX_H
#define WDM_EX_H

#include "wdm_ke.h"

/* Device queues: what IoStartPacket keeps packets in, and drivers may use for themselves. */
typedef struct _KDEVICE_QUEUE_ENTRY {
    LIST_ENTRY DeviceListEntry;
    ULONG SortKey;
    BOOLEAN Inserted;
} KDEVICE_QUEUE_ENTRY, *PKDEVICE_QUEUE_ENTRY;
typedef struct _KDEVICE_QUEUE {
    CSHORT Type, Size;
    LIST_ENTRY DeviceListHead;
    KSPIN_LOCK Lock;
    BOOLEAN Busy;
} KDEVICE_QUEUE, *PKDEVICE_QUEUE;
VOID KeInitializeDeviceQueue(PKDEVICE_QUEUE Queue);
BOOLEAN KeInsertDeviceQueue(PKDEVICE_QUEUE Queue, PKDEVICE_QUEUE_ENTRY Entry);
BOOLEAN KeInsertByKeyDeviceQueue(PKDEVICE_QUEUE Queue, PKDEVICE_QUEUE_ENTRY Entry, ULONG Key);
PKDEVICE_QUEUE_ENTRY KeRemoveDeviceQueue(PKDEVICE_QUEUE Queue);
PKDEVICE_QUEUE_ENTRY KeRemoveByKeyDeviceQueue(PKDEVICE_QUEUE Queue, ULONG Key);
BOOLEAN KeRemoveEntryDeviceQueue(PKDEVICE_QUEUE Queue, PKDEVICE_QUEUE_ENTRY Entry);

/* Levels and deferred calls. */
BOOLEAN KeRemoveQueueDpc(PKDPC Dpc);
KIRQL WdmKeRaiseIrqlToDpcLevel(WDM_SITE at);
#define KeRaiseIrqlToDpcLevel() WdmKeRaiseIrqlToDpcLevel(WDM_HERE)
#define KeRaiseIrqlToSynchLevel KeRaiseIrqlToDpcLevel
typedef enum _KDPC_IMPORTANCE { LowImportance, MediumImportance, HighImportance, MediumHighImportance } KDPC_IMPORTANCE;
#define KeSetImportanceDpc(dpc, importance) ((void)(dpc), (void)(importance))
#define KeSetTargetProcessorDpc(dpc, number) ((void)(dpc), (void)(number))
#define KeInitializeThreadedDpc KeInitializeDpc
LONG KeReadStateSemaphore(PKSEMAPHORE Semaphore);
LONG KeReadStateMutex(PKMUTEX Mutex);
#define KeWaitForMutexObject KeWaitForSingleObject
#define KeAcquireInStackQueuedSpinLockAtDpcLevel(lock, handle) \
    ((handle)->Lock = (lock), (void)((handle)->OldIrql = DISPATCH_LEVEL), KeAcquireSpinLockAtDpcLevel(lock))
#define KeReleaseInStackQueuedSpinLockFromDpcLevel(handle) KeReleaseSpinLockFromDpcLevel((handle)->Lock)
VOID KeEnterCriticalRegion(VOID);
VOID KeLeaveCriticalRegion(VOID);
VOID KeEnterGuardedRegion(VOID);
VOID KeLeaveGuardedRegion(VOID);
BOOLEAN KeAreApcsDisabled(VOID);
BOOLEAN KeAreAllApcsDisabled(VOID);
#define FsRtlEnterFileSystem KeEnterCriticalRegion
#define FsRtlExitFileSystem KeLeaveCriticalRegion

/* Processors: there is one, by its number. */
#define ALL_PROCESSOR_GROUPS 0xffff
#define KeNumberProcessors ((CCHAR)1)
#define KeQueryActiveProcessorCount(affinity) ((void)(affinity), 1u)
#define KeQueryActiveProcessorCountEx(group) ((void)(group), 1u)
#define KeQueryMaximumProcessorCountEx(group) ((void)(group), 1u)
#define KeQueryActiveProcessors() ((KAFFINITY)1)
#define KeGetCurrentProcessorNumber() 0u
#define KeGetCurrentProcessorNumberEx(number) ((void)(number), 0u)
NTSTATUS KeGetProcessorNumberFromIndex(ULONG Index, PPROCESSOR_NUMBER Number);
KAFFINITY KeSetSystemAffinityThreadEx(KAFFINITY Affinity);
VOID KeRevertToUserAffinityThreadEx(KAFFINITY Affinity);
#define KeSetSystemAffinityThread(affinity) ((void)KeSetSystemAffinityThreadEx(affinity))
#define KeRevertToUserAffinityThread() KeRevertToUserAffinityThreadEx(0)
#define KeSetSystemGroupAffinityThread(affinity, before) ((void)(affinity), (void)(before))
#define KeRevertToUserGroupAffinityThread(before) ((void)(before))
ULONGLONG KeQueryInterruptTime(VOID);
#define KeQueryUnbiasedInterruptTime KeQueryInterruptTime
#define KeQuerySystemTimePrecise KeQuerySystemTime
typedef struct _DEFERRED_REVERSE_BARRIER { ULONG Barrier, TotalProcessors; } DEFERRED_REVERSE_BARRIER,
    *PDEFERRED_REVERSE_BARRIER;
VOID WdmKeGenericCallDpc(PKDEFERRED_ROUTINE Routine, PVOID Context, WDM_SITE at);
#define KeGenericCallDpc(routine, context) WdmKeGenericCallDpc((routine), (context), WDM_HERE)
VOID KeSignalCallDpcDone(PVOID Count);
LOGICAL KeSignalCallDpcSynchronize(PVOID Barrier);
typedef VOID EXPAND_STACK_CALLOUT(PVOID Parameter);
typedef EXPAND_STACK_CALLOUT *PEXPAND_STACK_CALLOUT;
NTSTATUS KeExpandKernelStackAndCalloutEx(PEXPAND_STACK_CALLOUT Callout, PVOID Parameter, SIZE_T Size, BOOLEAN Wait, PVOID Context);
#define KeExpandKernelStackAndCallout(callout, parameter, size) \
    KeExpandKernelStackAndCalloutEx((callout), (parameter), (size), FALSE, NULL)
#define WDM_BUILD 19045 /* of the last Windows 10 */
BOOLEAN PsGetVersion(PULONG Major, PULONG Minor, PULONG Build, PUNICODE_STRING Pack);
#define KeFlushIoBuffers(mdl, read, dma) ((void)(mdl), (void)(read), (void)(dma))

/* Resources: shared by readers, or exclusive to one thread, which may take it again. */
typedef struct _HOST_READER { PVOID Thread; LONG Count; } HOST_READER;
typedef struct _ERESOURCE {
    union { LIST_ENTRY SystemResourcesList; struct { HOST_READER *HostReaders; LONG HostShared, HostExclusive; }; };
    PVOID OwnerTable;
    SHORT ActiveCount; /* how many have it */
    USHORT Flag;
    union { struct { PVOID SharedWaiters, ExclusiveWaiters, OwnerThread; }; KEVENT HostChanged; };
    PVOID HostOwner;
    ULONG ActiveEntries, ContentionCount, NumberOfSharedWaiters, NumberOfExclusiveWaiters;
    PVOID Reserved2, Address;
    KSPIN_LOCK SpinLock;
} ERESOURCE, *PERESOURCE;
NTSTATUS ExInitializeResourceLite(PERESOURCE Resource);
NTSTATUS ExReinitializeResourceLite(PERESOURCE Resource);
NTSTATUS WdmExDeleteResource(PERESOURCE Resource, WDM_SITE at);
BOOLEAN WdmExAcquireResource(PERESOURCE Resource, BOOLEAN Exclusive, BOOLEAN Wait, WDM_SITE at);
BOOLEAN WdmExAcquireStarving(PERESOURCE Resource, BOOLEAN Wait, WDM_SITE at);
BOOLEAN WdmExAcquireYielding(PERESOURCE Resource, BOOLEAN Wait, WDM_SITE at);
VOID WdmExReleaseResource(PERESOURCE Resource, WDM_SITE at);
ULONG ExGetExclusiveWaiterCount(PERESOURCE Resource);
ULONG ExGetSharedWaiterCount(PERESOURCE Resource);
BOOLEAN ExIsResourceAcquiredExclusiveLite(PERESOURCE Resource);
ULONG ExIsResourceAcquiredSharedLite(PERESOURCE Resource);
VOID ExConvertExclusiveToSharedLite(PERESOURCE Resource);
#define ExDeleteResourceLite(resource) WdmExDeleteResource((resource), WDM_HERE)
#define ExAcquireResourceExclusiveLite(resource, wait) WdmExAcquireResource((resource), TRUE, (BOOLEAN)(wait), WDM_HERE)
#define ExAcquireResourceSharedLite(resource, wait) WdmExAcquireResource((resource), FALSE, (BOOLEAN)(wait), WDM_HERE)
#define ExAcquireSharedStarveExclusive(resource, wait) \
    WdmExAcquireStarving((resource), (BOOLEAN)(wait), WDM_HERE)
#define ExAcquireSharedWaitForExclusive(resource, wait) \
    WdmExAcquireYielding((resource), (BOOLEAN)(wait), WDM_HERE)
#define ExTryToAcquireResourceExclusiveLite(resource) WdmExAcquireResource((resource), TRUE, FALSE, WDM_HERE)
#define ExReleaseResourceLite(resource) WdmExReleaseResource((resource), WDM_HERE)
#define ExReleaseResourceForThreadLite(resource, thread) ((void)(thread), WdmExReleaseResource((resource), WDM_HERE))
#define ExEnterCriticalRegionAndAcquireResourceExclusive(resource) \
    (KeEnterCriticalRegion(), (void)ExAcquireResourceExclusiveLite((resource), TRUE))
#define ExEnterCriticalRegionAndAcquireResourceShared(resource) \
    (KeEnterCriticalRegion(), (void)ExAcquireResourceSharedLite((resource), TRUE))
#define ExEnterCriticalRegionAndAcquireSharedWaitForExclusive(resource) \
    (KeEnterCriticalRegion(), (void)ExAcquireSharedWaitForExclusive((resource), TRUE))
#define ExReleaseResourceAndLeaveCriticalRegion(resource) (ExReleaseResourceLite(resource), KeLeaveCriticalRegion())
#define ExIsResourceAcquiredLite ExIsResourceAcquiredSharedLite
#define ExGetCurrentResourceThread() ((ULONG_PTR)KeGetCurrentThread())
typedef ULONG_PTR ERESOURCE_THREAD;

/* Guarded mutexes, as fast ones. */
typedef FAST_MUTEX KGUARDED_MUTEX, *PKGUARDED_MUTEX;
#define KeInitializeGuardedMutex(m) ExInitializeFastMutex(m)
#define KeAcquireGuardedMutex(m) ExAcquireFastMutex(m)
#define KeReleaseGuardedMutex(m) ExReleaseFastMutex(m)
#define KeAcquireGuardedMutexUnsafe(m) ExAcquireFastMutex(m)
#define KeReleaseGuardedMutexUnsafe(m) ExReleaseFastMutex(m)
#define ExAcquireFastMutexUnsafe(m) ExAcquireFastMutex(m)
#define ExReleaseFastMutexUnsafe(m) ExReleaseFastMutex(m)
BOOLEAN WdmTryToAcquireFastMutex(PFAST_MUTEX Mutex, WDM_SITE at);
#define ExTryToAcquireFastMutex(m) WdmTryToAcquireFastMutex((m), WDM_HERE)
#define KeTryToAcquireGuardedMutex(m) WdmTryToAcquireFastMutex((m), WDM_HERE)

/* Rundown protection. */
typedef struct _EX_RUNDOWN_REF { KEVENT Over; LONG Count; BOOLEAN RunDown; } EX_RUNDOWN_REF, *PEX_RUNDOWN_REF;
VOID ExInitializeRundownProtection(PEX_RUNDOWN_REF Ref);
VOID ExReInitializeRundownProtection(PEX_RUNDOWN_REF Ref);
BOOLEAN ExAcquireRundownProtection(PEX_RUNDOWN_REF Ref);
VOID WdmExReleaseRundownProtection(PEX_RUNDOWN_REF Ref, WDM_SITE at);
VOID WdmExWaitForRundown(PEX_RUNDOWN_REF Ref, WDM_SITE at);
VOID ExRundownCompleted(PEX_RUNDOWN_REF Ref);
#define ExReleaseRundownProtection(ref) WdmExReleaseRundownProtection((ref), WDM_HERE)
#define ExWaitForRundownProtectionRelease(ref) WdmExWaitForRundown((ref), WDM_HERE)

/* Singly linked lists: their types. */
typedef struct _SLIST_ENTRY { struct _SLIST_ENTRY *Next; } SLIST_ENTRY, *PSLIST_ENTRY;
typedef struct _SLIST_HEADER {
    union {
        struct { ULONGLONG Alignment, Region; };
        struct { PSLIST_ENTRY First; ULONG Depth; };
    };
} SLIST_HEADER, *PSLIST_HEADER;

/* Lookaside lists: each block comes from pool and goes back there. */
typedef PVOID ALLOCATE_FUNCTION(POOL_TYPE Type, SIZE_T Bytes, ULONG Tag);
typedef VOID FREE_FUNCTION(PVOID Block);
typedef ALLOCATE_FUNCTION *PALLOCATE_FUNCTION;
typedef FREE_FUNCTION *PFREE_FUNCTION;
typedef struct _GENERAL_LOOKASIDE {
    union { SLIST_HEADER ListHead; SINGLE_LIST_ENTRY SingleListHead; };
    USHORT Depth, MaximumDepth;
    ULONG TotalAllocates;
    union { ULONG AllocateMisses, AllocateHits; };
    ULONG TotalFrees;
    union { ULONG FreeMisses, FreeHits; };
    POOL_TYPE Type;
    ULONG Tag, Size;
    PALLOCATE_FUNCTION Allocate;
    PFREE_FUNCTION Free;
    LIST_ENTRY ListEntry;
    ULONG LastTotalAllocates;
    union { ULONG LastAllocateMisses, LastAllocateHits; };
    ULONG Future[2], HostRest[8]; /* as large as in Windows, which aligns it to 64 bytes */
} GENERAL_LOOKASIDE, *PGENERAL_LOOKASIDE;
typedef struct _NPAGED_LOOKASIDE_LIST { GENERAL_LOOKASIDE L; } NPAGED_LOOKASIDE_LIST, *PNPAGED_LOOKASIDE_LIST;
typedef struct _PAGED_LOOKASIDE_LIST { GENERAL_LOOKASIDE L; } PAGED_LOOKASIDE_LIST, *PPAGED_LOOKASIDE_LIST;
#define LOOKASIDE_MINIMUM_BLOCK_SIZE sizeof(SLIST_ENTRY)
#define POOL_NX_ALLOCATION 512
#define WDM_LOOKASIDE(list, allocate, release, type, bytes, tag) \
    ((void)((list)->L = (GENERAL_LOOKASIDE){ .Depth = 4, .MaximumDepth = 256, .Type = (POOL_TYPE)(type), .Tag = (tag), \
                                             .Size = (ULONG)(bytes), .Allocate = (allocate), .Free = (release) }))
#define ExInitializeNPagedLookasideList(list, allocate, release, flags, bytes, tag, depth) \
    ((void)(depth), WDM_LOOKASIDE(list, allocate, release, NonPagedPool | (flags), bytes, tag))
#define ExInitializePagedLookasideList(list, allocate, release, flags, bytes, tag, depth) \
    ((void)(depth), WDM_LOOKASIDE(list, allocate, release, PagedPool | (flags), bytes, tag))
#define ExAllocateFromNPagedLookasideList(list) \
    ((list)->L.Allocate ? (list)->L.Allocate((list)->L.Type, (list)->L.Size, (list)->L.Tag) \
                        : ExAllocatePoolWithTag((list)->L.Type, (list)->L.Size, (list)->L.Tag))
#define ExFreeToNPagedLookasideList(list, block) \
    do { \
        if ((list)->L.Free) \
            (list)->L.Free(block); \
        else \
            ExFreePoolWithTag((block), (list)->L.Tag); \
    } while (0)
#define ExDeleteNPagedLookasideList(list) ((void)(list))
#define ExAllocateFromPagedLookasideList ExAllocateFromNPagedLookasideList
#define ExFreeToPagedLookasideList ExFreeToNPagedLookasideList
#define ExDeletePagedLookasideList ExDeleteNPagedLookasideList

/* The same of Windows Vista and later, where the routines get their list. */
typedef struct _LOOKASIDE_LIST_EX LOOKASIDE_LIST_EX, *PLOOKASIDE_LIST_EX;
typedef PVOID ALLOCATE_FUNCTION_EX(POOL_TYPE Type, SIZE_T Bytes, ULONG Tag, PLOOKASIDE_LIST_EX List);
typedef VOID FREE_FUNCTION_EX(PVOID Block, PLOOKASIDE_LIST_EX List);
typedef ALLOCATE_FUNCTION_EX *PALLOCATE_FUNCTION_EX;
typedef FREE_FUNCTION_EX *PFREE_FUNCTION_EX;
struct _LOOKASIDE_LIST_EX {
    PALLOCATE_FUNCTION_EX Allocate;
    PFREE_FUNCTION_EX Free;
    POOL_TYPE Type;
    ULONG Tag, Flags;
    SIZE_T Bytes;
};
#define EX_LOOKASIDE_LIST_EX_FLAGS_RAISE_ON_FAIL 1
#define EX_LOOKASIDE_LIST_EX_FLAGS_FAIL_NO_RAISE 2
NTSTATUS WdmExInitializeList(PLOOKASIDE_LIST_EX List, PALLOCATE_FUNCTION_EX Allocate, PFREE_FUNCTION_EX Free, POOL_TYPE Type,
                             ULONG Flags, SIZE_T Bytes, ULONG Tag, WDM_SITE at);
PVOID WdmExAllocateFromList(PLOOKASIDE_LIST_EX List, WDM_SITE at);
VOID WdmExFreeToList(PLOOKASIDE_LIST_EX List, PVOID Block, WDM_SITE at);
VOID WdmExDeleteList(PLOOKASIDE_LIST_EX List, BOOLEAN Deletes, WDM_SITE at);
#define ExInitializeLookasideListEx(list, allocate, release, type, flags, bytes, tag, depth) \
    ((void)(depth), WdmExInitializeList((list), (allocate), (release), (type), (flags), (bytes), (ULONG)(tag), WDM_HERE))
#define ExAllocateFromLookasideListEx(list) WdmExAllocateFromList((list), WDM_HERE)
#define ExFreeToLookasideListEx(list, block) WdmExFreeToList((list), (block), WDM_HERE)
#define ExDeleteLookasideListEx(list) WdmExDeleteList((list), TRUE, WDM_HERE)
#define ExFlushLookasideListEx(list) WdmExDeleteList((list), FALSE, WDM_HERE)

/* .. and their calls. */
VOID ExInitializeSListHead(PSLIST_HEADER Head);
PSLIST_ENTRY WdmPushEntrySList(PSLIST_HEADER Head, PSLIST_ENTRY Entry);
PSLIST_ENTRY WdmPopEntrySList(PSLIST_HEADER Head);
PSLIST_ENTRY ExInterlockedFlushSList(PSLIST_HEADER Head);
USHORT ExQueryDepthSList(PSLIST_HEADER Head);
#define InitializeSListHead ExInitializeSListHead
#define ExInterlockedPushEntrySList(head, entry, lock) ((void)(lock), WdmPushEntrySList((head), (entry)))
#define ExInterlockedPopEntrySList(head, lock) ((void)(lock), WdmPopEntrySList(head))
#define InterlockedPushEntrySList WdmPushEntrySList
#define InterlockedPopEntrySList WdmPopEntrySList
#define InterlockedFlushSList ExInterlockedFlushSList
PSINGLE_LIST_ENTRY ExInterlockedPushEntryList(PSINGLE_LIST_ENTRY Head, PSINGLE_LIST_ENTRY Entry, PKSPIN_LOCK Lock);
PSINGLE_LIST_ENTRY ExInterlockedPopEntryList(PSINGLE_LIST_ENTRY Head, PKSPIN_LOCK Lock);
LARGE_INTEGER ExInterlockedAddLargeInteger(PLARGE_INTEGER Sum, LARGE_INTEGER More, PKSPIN_LOCK Lock);

/* What drivers ask of pool, privileges and users. As functions, for who takes their addresses. */
PVOID (ExAllocatePoolWithTag)(POOL_TYPE Type, SIZE_T Bytes, ULONG Tag);
VOID (ExFreePoolWithTag)(PVOID Memory, ULONG Tag);
VOID (ExFreePool)(PVOID Memory);
#define ExAllocatePoolWithQuotaTag ExAllocatePoolWithTag
#define ExAllocatePoolWithQuota ExAllocatePool
#define ExAllocatePoolUninitialized ExAllocatePoolWithTag
#define ExInitializeDriverRuntime(flags) ((void)(flags))
#define DrvRtPoolNxOptIn 1
VOID DECLSPEC_NORETURN ExRaiseStatus(NTSTATUS Status);
BOOLEAN ExIsProcessorFeaturePresent(ULONG Feature);

#endif
