/* wdm_ke.h: events, timers, semaphores, mutexes, spin locks, threads, work, memory. */
#ifndef WDM_KE_H
#define WDM_KE_H

#include "wdm_base.h"

enum { PASSIVE_LEVEL = 0, APC_LEVEL = 1, DISPATCH_LEVEL = 2 };
enum { CMCI_LEVEL = 5, CLOCK_LEVEL = 13, IPI_LEVEL = 14, POWER_LEVEL = 14, PROFILE_LEVEL = 15, HIGH_LEVEL = 15 };
enum { EVENT_INCREMENT = 1, SEMAPHORE_INCREMENT = 1, MUTANT_INCREMENT = 1, IO_NO_INCREMENT = 0,
       IO_CD_ROM_INCREMENT = 1, IO_DISK_INCREMENT = 1, IO_KEYBOARD_INCREMENT = 6, IO_MAILSLOT_INCREMENT = 2,
       IO_MOUSE_INCREMENT = 6, IO_NAMED_PIPE_INCREMENT = 2, IO_NETWORK_INCREMENT = 2, IO_PARALLEL_INCREMENT = 1,
       IO_SERIAL_INCREMENT = 2, IO_SOUND_INCREMENT = 8, IO_VIDEO_INCREMENT = 1, LOW_PRIORITY = 0,
       LOW_REALTIME_PRIORITY = 16, HIGH_PRIORITY = 31 };
typedef enum { Executive, FreePage, PageIn, PoolAllocation, DelayExecution, Suspended, UserRequest } KWAIT_REASON;
typedef enum _MODE { KernelMode, UserMode, MaximumMode } MODE;
typedef CCHAR KPROCESSOR_MODE;
typedef struct _KWAIT_BLOCK { PVOID Object; } KWAIT_BLOCK, *PKWAIT_BLOCK;
#define THREAD_WAIT_OBJECTS 3
#define MAXIMUM_WAIT_OBJECTS 64

/* What can be waited for: laid out as in Windows on x64. What names begin with Host stands where nobody but the host looks. */
typedef struct _DISPATCHER_HEADER {
    UCHAR Type, Synchronizes, Size, Inserted;
    LONG SignalState;
    LIST_ENTRY WaitListHead;
} DISPATCHER_HEADER;
typedef struct _KEVENT { DISPATCHER_HEADER Header; } KEVENT, *PKEVENT, *PRKEVENT;
typedef struct _KSEMAPHORE { DISPATCHER_HEADER Header; LONG Limit; } KSEMAPHORE, *PKSEMAPHORE;
typedef struct _KMUTANT {
    DISPATCHER_HEADER Header;
    LIST_ENTRY MutantListEntry;
    PVOID OwnerThread;
    BOOLEAN Abandoned;
    UCHAR ApcDisable;
} KMUTANT, KMUTEX, *PKMUTEX;
typedef struct _KDPC *PKDPC;
typedef VOID KDEFERRED_ROUTINE(PKDPC Dpc, PVOID Context, PVOID Argument1, PVOID Argument2);
typedef KDEFERRED_ROUTINE *PKDEFERRED_ROUTINE;
typedef struct _KDPC {
    UCHAR Type, Importance;
    USHORT Number;
    union { SINGLE_LIST_ENTRY DpcListEntry; const WDM_SITE *HostQueued; };
    union { ULONG_PTR ProcessorHistory; int HostDriver; };
    PKDEFERRED_ROUTINE DeferredRoutine;
    PVOID DeferredContext, SystemArgument1, SystemArgument2;
    union { PVOID DpcData; ULONG_PTR HostIsQueued; };
} KDPC;
typedef struct _KTIMER {
    DISPATCHER_HEADER Header; /* Inserted while it is armed */
    LARGE_INTEGER DueTime;
    union { LIST_ENTRY TimerListEntry; struct { struct _KTIMER *HostNext; const WDM_SITE *HostSet; }; };
    PKDPC Dpc;
    ULONG Processor, Period;
} KTIMER, *PKTIMER;
typedef struct _KTHREAD *PKTHREAD, *PETHREAD;

VOID WdmKeInitializeEvent(PKEVENT Event, EVENT_TYPE Type, BOOLEAN State);
LONG WdmKeSetEvent(PKEVENT Event, WDM_SITE at);
VOID KeClearEvent(PKEVENT Event);
LONG KeResetEvent(PKEVENT Event);
LONG KeReadStateEvent(PKEVENT Event);
#define KeInitializeEvent(event, type, state) WdmKeInitializeEvent((event), (type), (state))
#define KeSetEvent(event, increment, wait) ((void)(increment), (void)(wait), WdmKeSetEvent((event), WDM_HERE))
VOID KeInitializeSemaphore(PKSEMAPHORE Semaphore, LONG Count, LONG Limit);
LONG WdmKeReleaseSemaphore(PKSEMAPHORE Semaphore, LONG Adjustment);
#define KeReleaseSemaphore(s, increment, n, wait) ((void)(increment), (void)(wait), WdmKeReleaseSemaphore((s), (n)))
VOID KeInitializeMutex(PKMUTEX Mutex, ULONG Level);
LONG WdmKeReleaseMutex(PKMUTEX Mutex, WDM_SITE at);
#define KeReleaseMutex(mutex, wait) ((void)(wait), WdmKeReleaseMutex((mutex), WDM_HERE))
NTSTATUS WdmKeWaitForSingleObject(PVOID Object, PLARGE_INTEGER Timeout, WDM_SITE at);
#define KeWaitForSingleObject(object, reason, mode, alertable, timeout) \
    ((void)(reason), (void)(mode), (void)(alertable), WdmKeWaitForSingleObject((object), (timeout), WDM_HERE))
NTSTATUS WdmKeWaitForMultipleObjects(ULONG Count, PVOID Objects[], WAIT_TYPE Type, PLARGE_INTEGER Timeout, WDM_SITE at);
#define KeWaitForMultipleObjects(count, objects, type, reason, mode, alertable, timeout, blocks) \
    ((void)(reason), (void)(mode), (void)(alertable), (void)(blocks), \
     WdmKeWaitForMultipleObjects((count), (objects), (type), (timeout), WDM_HERE))
NTSTATUS WdmKeDelayExecutionThread(PLARGE_INTEGER Interval, WDM_SITE at);
#define KeDelayExecutionThread(mode, alertable, interval) \
    ((void)(mode), (void)(alertable), WdmKeDelayExecutionThread((interval), WDM_HERE))
VOID KeStallExecutionProcessor(ULONG Microseconds);
VOID KeQuerySystemTime(PLARGE_INTEGER Now);
VOID KeQueryTickCount(PLARGE_INTEGER Ticks);
ULONG KeQueryTimeIncrement(VOID);
LARGE_INTEGER KeQueryPerformanceCounter(PLARGE_INTEGER Frequency);

/* Timers and deferred calls, run by a thread of the host. Due times are in 100 ns, relative where negative. */
VOID KeInitializeTimerEx(PKTIMER Timer, TIMER_TYPE Type);
#define KeInitializeTimer(timer) KeInitializeTimerEx((timer), NotificationTimer)
BOOLEAN WdmKeSetTimer(PKTIMER Timer, LARGE_INTEGER DueTime, LONG Period, PKDPC Dpc, WDM_SITE at);
#define KeSetTimerEx(timer, due, period, dpc) WdmKeSetTimer((timer), (due), (period), (dpc), WDM_HERE)
#define KeSetTimer(timer, due, dpc) WdmKeSetTimer((timer), (due), 0, (dpc), WDM_HERE)
BOOLEAN KeCancelTimer(PKTIMER Timer);
BOOLEAN KeReadStateTimer(PKTIMER Timer);
VOID WdmKeInitializeDpc(PKDPC Dpc, PKDEFERRED_ROUTINE Routine, PVOID Context, WDM_SITE at);
#define KeInitializeDpc(dpc, routine, context) WdmKeInitializeDpc((dpc), (routine), (context), WDM_HERE)
BOOLEAN WdmKeInsertQueueDpc(PKDPC Dpc, PVOID Argument1, PVOID Argument2, WDM_SITE at);
#define KeInsertQueueDpc(dpc, one, two) WdmKeInsertQueueDpc((dpc), (one), (two), WDM_HERE)
VOID KeFlushQueuedDpcs(VOID);

/* Spin locks and interrupt levels, which are checked. */
typedef ULONG_PTR KSPIN_LOCK, *PKSPIN_LOCK;
typedef struct _KSPIN_LOCK_QUEUE { struct _KSPIN_LOCK_QUEUE *Next; PKSPIN_LOCK Lock; } KSPIN_LOCK_QUEUE, *PKSPIN_LOCK_QUEUE;
typedef struct _KLOCK_QUEUE_HANDLE { KSPIN_LOCK_QUEUE LockQueue; KIRQL OldIrql; } KLOCK_QUEUE_HANDLE, *PKLOCK_QUEUE_HANDLE;
VOID WdmKeInitializeSpinLock(PKSPIN_LOCK Lock, WDM_SITE at);
#define KeInitializeSpinLock(lock) WdmKeInitializeSpinLock((lock), WDM_HERE)
KIRQL WdmKeAcquireSpinLock(PKSPIN_LOCK Lock, WDM_SITE at);
VOID WdmKeReleaseSpinLock(PKSPIN_LOCK Lock, KIRQL Irql, WDM_SITE at);
VOID WdmKeAcquireSpinLockAtDpcLevel(PKSPIN_LOCK Lock, WDM_SITE at);
VOID WdmKeReleaseSpinLockFromDpcLevel(PKSPIN_LOCK Lock, WDM_SITE at);
#define KeAcquireSpinLock(lock, irql) ((void)(*(irql) = WdmKeAcquireSpinLock((lock), WDM_HERE)))
#define KeReleaseSpinLock(lock, irql) WdmKeReleaseSpinLock((lock), (irql), WDM_HERE)
#define KeAcquireSpinLockRaiseToDpc(lock) WdmKeAcquireSpinLock((lock), WDM_HERE)
#define KeAcquireSpinLockAtDpcLevel(lock) WdmKeAcquireSpinLockAtDpcLevel((lock), WDM_HERE)
#define KeReleaseSpinLockFromDpcLevel(lock) WdmKeReleaseSpinLockFromDpcLevel((lock), WDM_HERE)
#define KeAcquireInStackQueuedSpinLock(lock, handle) \
    ((handle)->LockQueue.Lock = (lock), (void)((handle)->OldIrql = WdmKeAcquireSpinLock((lock), WDM_HERE)))
#define KeReleaseInStackQueuedSpinLock(handle) WdmKeReleaseSpinLock((handle)->LockQueue.Lock, (handle)->OldIrql, WDM_HERE)
KIRQL KeGetCurrentIrql(VOID);
VOID WdmKeRaiseIrql(KIRQL New, PKIRQL Old, WDM_SITE at);
VOID WdmKeLowerIrql(KIRQL Irql, WDM_SITE at);
#define KeRaiseIrql(new, old) WdmKeRaiseIrql((new), (old), WDM_HERE)
#define KeLowerIrql(irql) WdmKeLowerIrql((irql), WDM_HERE)
PLIST_ENTRY ExInterlockedInsertTailList(PLIST_ENTRY Head, PLIST_ENTRY Entry, PKSPIN_LOCK Lock);
PLIST_ENTRY ExInterlockedInsertHeadList(PLIST_ENTRY Head, PLIST_ENTRY Entry, PKSPIN_LOCK Lock);
PLIST_ENTRY ExInterlockedRemoveHeadList(PLIST_ENTRY Head, PKSPIN_LOCK Lock);
typedef struct _FAST_MUTEX {
    union {
        struct { LONG Count; PVOID Owner; ULONG Contention; KEVENT Event; ULONG OldIrql; };
        KMUTEX Mutex;
    };
} FAST_MUTEX, *PFAST_MUTEX;
#define ExInitializeFastMutex(m) KeInitializeMutex(&(m)->Mutex, 0)
VOID WdmExAcquireFastMutex(PFAST_MUTEX Mutex, WDM_SITE at);
VOID WdmExReleaseFastMutex(PFAST_MUTEX Mutex, WDM_SITE at);
#define ExAcquireFastMutex(m) WdmExAcquireFastMutex((m), WDM_HERE)
#define ExReleaseFastMutex(m) WdmExReleaseFastMutex((m), WDM_HERE)

/* Threads. */
typedef VOID KSTART_ROUTINE(PVOID Context);
typedef KSTART_ROUTINE *PKSTART_ROUTINE;
NTSTATUS PsTerminateSystemThread(NTSTATUS Status);
PKTHREAD KeGetCurrentThread(VOID);
#define PsGetCurrentThread() KeGetCurrentThread()
KPRIORITY KeSetPriorityThread(PKTHREAD Thread, KPRIORITY Priority);

/* Pool. */
enum { NonPagedPool = 0, PagedPool = 1, NonPagedPoolNx = 512 };
#define POOL_FLAG_NON_PAGED 0x40ull
#define POOL_FLAG_PAGED 0x100ull
#define POOL_FLAG_UNINITIALIZED 0x2ull
enum { WDM_POOL_PAGED = 1, WDM_POOL_ZERO = 2 };
PVOID WdmAllocatePool(ULONG Kind, SIZE_T Bytes, ULONG Tag, WDM_SITE at);
VOID WdmFreePool(PVOID Memory, ULONG Tag, BOOLEAN HasTag, WDM_SITE at);
#define WDM_POOL_OF(type) ((type) & PagedPool ? WDM_POOL_PAGED : 0)
#define WDM_POOL_BY(flags) (((flags) & POOL_FLAG_PAGED ? WDM_POOL_PAGED : 0) | \
                            ((flags) & POOL_FLAG_UNINITIALIZED ? 0 : WDM_POOL_ZERO))
#define ExAllocatePoolWithTag(type, n, tag) WdmAllocatePool(WDM_POOL_OF(type), (n), (ULONG)(tag), WDM_HERE)
#define ExAllocatePool(type, n) WdmAllocatePool(WDM_POOL_OF(type), (n), 0, WDM_HERE)
#define ExAllocatePool2(flags, n, tag) WdmAllocatePool(WDM_POOL_BY(flags), (n), (ULONG)(tag), WDM_HERE)
#define ExAllocatePoolZero(type, n, tag) \
    WdmAllocatePool(WDM_POOL_OF(type) | WDM_POOL_ZERO, (n), (ULONG)(tag), WDM_HERE)
#define ExFreePoolWithTag(p, tag) WdmFreePool((p), (ULONG)(tag), TRUE, WDM_HERE)
#define ExFreePool(p) WdmFreePool((p), 0, FALSE, WDM_HERE)

#endif
