/* wdm_base.h: lists, memory, interlocked operations, and what a driver prints. */
#ifndef WDM_BASE_H
#define WDM_BASE_H

#include "wdm_types.h"
#include "wdm_status.h"

/* What a driver prints for its debugger goes to standard error, whatever its level. */
ULONG DbgPrint(PCSTR Format, ...);
ULONG DbgPrintEx(ULONG Component, ULONG Level, PCSTR Format, ...);
ULONG vDbgPrintEx(ULONG Component, ULONG Level, PCSTR Format, va_list List);
#define KdPrint(x) ((void)DbgPrint x)
#define KdPrintEx(x) ((void)DbgPrintEx x)
#define DbgBreakPoint() ((void)0)
#define KdBreakPoint() ((void)0)
#define DPFLTR_IHVDRIVER_ID 77
#define DPFLTR_DEFAULT_ID 101
#define DPFLTR_MASK 0x80000000
#define DPFLTR_ERROR_LEVEL 0
#define DPFLTR_WARNING_LEVEL 1
#define DPFLTR_TRACE_LEVEL 2
#define DPFLTR_INFO_LEVEL 3

/* Where a call stands in a driver's source: the macros of wdm_io.h, wdm_ke.h and wdm_test.h hand it over. */
typedef struct { const char *file, *function; int line; } WDM_SITE;
#define WDM_HERE ((WDM_SITE){ __FILE__, __func__, __LINE__ })

/* Lists. Neighbours are checked, as Windows 8 and later do: an entry whose neighbours don't point to it is told. */
typedef struct _LIST_ENTRY { struct _LIST_ENTRY *Flink, *Blink; } LIST_ENTRY, *PLIST_ENTRY;
typedef struct _SINGLE_LIST_ENTRY { struct _SINGLE_LIST_ENTRY *Next; } SINGLE_LIST_ENTRY, *PSINGLE_LIST_ENTRY;
VOID WdmListIsCorrupt(PCSTR Call, WDM_SITE at);
static inline VOID InitializeListHead(PLIST_ENTRY h) { h->Flink = h->Blink = h; }
static inline BOOLEAN IsListEmpty(const LIST_ENTRY *h) { return h->Flink == h; }
static inline BOOLEAN WdmRemoveEntryList(PLIST_ENTRY e, PCSTR call, WDM_SITE at)
{
    PLIST_ENTRY next = e->Flink, before = e->Blink;
    if (next->Blink != e || before->Flink != e)
        WdmListIsCorrupt(call, at);
    before->Flink = next;
    next->Blink = before;
    return next == before;
}
static inline PLIST_ENTRY WdmTakeFromList(PLIST_ENTRY e, PCSTR call, WDM_SITE at)
{
    WdmRemoveEntryList(e, call, at);
    return e;
}
static inline VOID WdmInsertTailList(PLIST_ENTRY h, PLIST_ENTRY e, PCSTR call, WDM_SITE at)
{
    PLIST_ENTRY before = h->Blink;
    if (before->Flink != h)
        WdmListIsCorrupt(call, at);
    e->Flink = h;
    e->Blink = before;
    before->Flink = e;
    h->Blink = e;
}
#define RemoveEntryList(e) WdmRemoveEntryList((e), "RemoveEntryList", WDM_HERE)
#define RemoveHeadList(h) WdmTakeFromList((h)->Flink, "RemoveHeadList", WDM_HERE)
#define RemoveTailList(h) WdmTakeFromList((h)->Blink, "RemoveTailList", WDM_HERE)
#define InsertTailList(h, e) WdmInsertTailList((h), (e), "InsertTailList", WDM_HERE)
#define InsertHeadList(h, e) WdmInsertTailList((h)->Flink, (e), "InsertHeadList", WDM_HERE)
static inline VOID PushEntryList(PSINGLE_LIST_ENTRY h, PSINGLE_LIST_ENTRY e) { e->Next = h->Next, h->Next = e; }
static inline PSINGLE_LIST_ENTRY PopEntryList(PSINGLE_LIST_ENTRY h)
{
    PSINGLE_LIST_ENTRY e = h->Next;
    if (e)
        h->Next = e->Next;
    return e;
}
static inline BOOLEAN IsListEntryLinked(const LIST_ENTRY *e) { return e->Flink && e->Flink->Blink == e; }
static inline VOID AppendTailList(PLIST_ENTRY h, PLIST_ENTRY more)
{
    PLIST_ENTRY last = h->Blink;
    h->Blink->Flink = more;
    h->Blink = more->Blink;
    more->Blink->Flink = h;
    more->Blink = last;
}

/* Memory. */
#define RtlZeroMemory(p, n) memset((p), 0, (n))
#define RtlSecureZeroMemory(p, n) memset((p), 0, (n))
#define SecureZeroMemory RtlSecureZeroMemory
#define RtlFillMemory(p, n, b) memset((p), (b), (n))
#define RtlCopyMemory(d, s, n) memcpy((d), (s), (n))
#define RtlCopyBytes RtlCopyMemory
#define RtlCopyMemoryNonTemporal RtlCopyMemory
#define RtlMoveMemory(d, s, n) memmove((d), (s), (n))
#define RtlEqualMemory(a, b, n) (memcmp((a), (b), (n)) == 0)
#define RtlFillBytes RtlFillMemory
#define RtlZeroBytes RtlZeroMemory
static inline SIZE_T RtlCompareMemory(const VOID *a, const VOID *b, SIZE_T n)
{
    SIZE_T i = 0;
    while (i < n && ((const UCHAR *)a)[i] == ((const UCHAR *)b)[i])
        i++;
    return i;
}
#define RtlUshortByteSwap(n) __builtin_bswap16(n)
#define RtlUlongByteSwap(n) __builtin_bswap32(n)
#define RtlUlonglongByteSwap(n) __builtin_bswap64(n)
static inline VOID RtlStoreUlong(PULONG at, ULONG n) { memcpy(at, &n, sizeof n); }
static inline VOID RtlRetrieveUlong(PULONG to, const ULONG *at) { memcpy(to, at, sizeof *to); }

/* Interlocked operations. */
#define InterlockedIncrement(p) __atomic_add_fetch((p), 1, __ATOMIC_SEQ_CST)
#define InterlockedDecrement(p) __atomic_sub_fetch((p), 1, __ATOMIC_SEQ_CST)
#define InterlockedAdd(p, n) __atomic_add_fetch((p), (n), __ATOMIC_SEQ_CST)
#define InterlockedExchange(p, v) __atomic_exchange_n((p), (v), __ATOMIC_SEQ_CST)
#define InterlockedExchangeAdd(p, n) __atomic_fetch_add((p), (n), __ATOMIC_SEQ_CST)
#define InterlockedExchangePointer(p, v) __atomic_exchange_n((PVOID volatile *)(p), (PVOID)(v), __ATOMIC_SEQ_CST)
#define InterlockedOr(p, v) __atomic_fetch_or((p), (v), __ATOMIC_SEQ_CST)
#define InterlockedAnd(p, v) __atomic_fetch_and((p), (v), __ATOMIC_SEQ_CST)
#define InterlockedXor(p, v) __atomic_fetch_xor((p), (v), __ATOMIC_SEQ_CST)
#define InterlockedIncrement16 InterlockedIncrement
#define InterlockedDecrement16 InterlockedDecrement
#define InterlockedIncrement64 InterlockedIncrement
#define InterlockedDecrement64 InterlockedDecrement
#define InterlockedAdd64 InterlockedAdd
#define InterlockedExchange64 InterlockedExchange
#define InterlockedExchangeAdd64 InterlockedExchangeAdd
#define InterlockedOr64 InterlockedOr
#define InterlockedAnd64 InterlockedAnd
#define InterlockedXor64 InterlockedXor
#define ExInterlockedAddUlong(p, n, lock) ((void)(lock), InterlockedExchangeAdd((p), (n)))
#define ExInterlockedAddLargeStatistic(p, n) ((void)InterlockedExchangeAdd(&(p)->QuadPart, (n)))
#define InterlockedBitTestAndSet(p, n) \
    ((BOOLEAN)(__atomic_fetch_or((p), 1 << ((n) & 31), __ATOMIC_SEQ_CST) >> ((n) & 31) & 1))
#define InterlockedBitTestAndReset(p, n) \
    ((BOOLEAN)(__atomic_fetch_and((p), ~(1 << ((n) & 31)), __ATOMIC_SEQ_CST) >> ((n) & 31) & 1))
#define KeMemoryBarrier() __atomic_thread_fence(__ATOMIC_SEQ_CST)
#define MemoryBarrier KeMemoryBarrier
#define ReadAcquire(p) __atomic_load_n((p), __ATOMIC_ACQUIRE)
#define ReadNoFence(p) __atomic_load_n((p), __ATOMIC_RELAXED)
#define WriteRelease(p, v) __atomic_store_n((p), (v), __ATOMIC_RELEASE)
#define WriteNoFence(p, v) __atomic_store_n((p), (v), __ATOMIC_RELAXED)
#define ReadULongAcquire ReadAcquire
#define ReadPointerAcquire ReadAcquire
#define WritePointerRelease WriteRelease
static inline LONG InterlockedCompareExchange(volatile LONG *p, LONG wanted, LONG expected)
{
    __atomic_compare_exchange_n(p, &expected, wanted, 0, __ATOMIC_SEQ_CST, __ATOMIC_SEQ_CST);
    return expected;
}
static inline LONG64 InterlockedCompareExchange64(volatile LONG64 *p, LONG64 wanted, LONG64 expected)
{
    __atomic_compare_exchange_n(p, &expected, wanted, 0, __ATOMIC_SEQ_CST, __ATOMIC_SEQ_CST);
    return expected;
}
static inline PVOID WdmInterlockedCompareExchangePointer(PVOID volatile *p, PVOID wanted, PVOID expected)
{
    __atomic_compare_exchange_n(p, &expected, wanted, 0, __ATOMIC_SEQ_CST, __ATOMIC_SEQ_CST);
    return expected;
}
#define InterlockedCompareExchangePointer(p, wanted, expected) \
    WdmInterlockedCompareExchangePointer((PVOID volatile *)(p), (PVOID)(wanted), (PVOID)(expected))

VOID WdmPagedCode(WDM_SITE at);
#define PAGED_CODE() WdmPagedCode(WDM_HERE)
#define ALLOC_PRAGMA 1 /* there is `#pragma alloc_text`: which functions it names is read from the source (pageable.py) */

#endif
