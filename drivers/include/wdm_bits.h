/* wdm_bits.h: bitmaps (RTL_BITMAP), in memory of the driver's own, which it guards itself: so they are compiled with its
   code. A call that reaches beyond a bitmap is told. */
#ifndef WDM_BITS_H
#define WDM_BITS_H

#include "wdm_base.h"

typedef struct _RTL_BITMAP { ULONG SizeOfBitMap; PULONG Buffer; } RTL_BITMAP, *PRTL_BITMAP;
typedef struct _RTL_BITMAP_RUN { ULONG StartingIndex, NumberOfBits; } RTL_BITMAP_RUN, *PRTL_BITMAP_RUN;
VOID WdmBitsBeyond(PCSTR Call, ULONG From, ULONG Count, ULONG Size, WDM_SITE at);

static inline BOOLEAN WdmBit(const RTL_BITMAP *m, ULONG i) { return (m->Buffer[i / 32] >> i % 32 & 1) != 0; }

/* How many bits from this one on are alike `bit`. */
static inline ULONG WdmRun(const RTL_BITMAP *m, ULONG from, BOOLEAN bit)
{
    ULONG i = from;
    while (i < m->SizeOfBitMap && WdmBit(m, i) == bit)
        i++;
    return i - from;
}

static inline BOOLEAN WdmAreBits(const RTL_BITMAP *m, ULONG from, ULONG count, BOOLEAN bit)
{
    return count && from < m->SizeOfBitMap && count <= m->SizeOfBitMap - from && WdmRun(m, from, bit) >= count;
}

static inline VOID WdmChangeBits(PRTL_BITMAP m, ULONG from, ULONG count, BOOLEAN bit, PCSTR call, WDM_SITE at)
{
    if (from > m->SizeOfBitMap || count > m->SizeOfBitMap - from) {
        WdmBitsBeyond(call, from, count, m->SizeOfBitMap, at);
        return;
    }
    for (ULONG i = from; i < from + count; i++)
        m->Buffer[i / 32] = (m->Buffer[i / 32] & ~(1u << i % 32)) | (ULONG)bit << i % 32;
}

static inline BOOLEAN WdmTestBit(const RTL_BITMAP *m, ULONG i, WDM_SITE at)
{
    if (i < m->SizeOfBitMap)
        return WdmBit(m, i);
    WdmBitsBeyond("RtlTestBit", i, 1, m->SizeOfBitMap, at);
    return FALSE;
}

/* Where the first run of so many bits begins, between two bits; or 0xFFFFFFFF. */
static inline ULONG WdmFindBetween(const RTL_BITMAP *m, ULONG count, ULONG from, ULONG until, BOOLEAN bit)
{
    for (ULONG i = from; i < until && count <= m->SizeOfBitMap - i; i++) {
        const ULONG run = WdmRun(m, i, bit);
        if (run >= count)
            return i;
        i += run;
    }
    return MAXULONG;
}

/* The same, from the hint on, and then from the begin. */
static inline ULONG WdmFindBits(const RTL_BITMAP *m, ULONG count, ULONG hint, BOOLEAN bit)
{
    const ULONG from = hint < m->SizeOfBitMap ? hint : 0;
    if (!count || count > m->SizeOfBitMap)
        return count ? MAXULONG : from & ~7u;
    const ULONG found = WdmFindBetween(m, count, from, m->SizeOfBitMap, bit);
    return found != MAXULONG ? found : WdmFindBetween(m, count, 0, from, bit);
}

static inline ULONG WdmFindAndChange(PRTL_BITMAP m, ULONG count, ULONG hint, BOOLEAN bit, WDM_SITE at)
{
    const ULONG found = WdmFindBits(m, count, hint, bit);
    if (found != MAXULONG)
        WdmChangeBits(m, found, count, !bit, "RtlFindClearBitsAndSet", at);
    return found;
}

static inline ULONG WdmCountBits(const RTL_BITMAP *m, BOOLEAN bit)
{
    ULONG n = 0;
    for (ULONG i = 0; i < m->SizeOfBitMap; i++)
        n += WdmBit(m, i) == bit;
    return n;
}

static inline VOID RtlInitializeBitMap(PRTL_BITMAP m, PULONG buffer, ULONG size)
{
    m->SizeOfBitMap = size;
    m->Buffer = buffer;
}
static inline VOID RtlClearAllBits(PRTL_BITMAP m) { memset(m->Buffer, 0, (m->SizeOfBitMap + 31) / 32 * sizeof(ULONG)); }
static inline VOID RtlSetAllBits(PRTL_BITMAP m) { memset(m->Buffer, 0xff, (m->SizeOfBitMap + 31) / 32 * sizeof(ULONG)); }
#define RtlSetBits(m, from, n) WdmChangeBits((m), (from), (n), TRUE, "RtlSetBits", WDM_HERE)
#define RtlClearBits(m, from, n) WdmChangeBits((m), (from), (n), FALSE, "RtlClearBits", WDM_HERE)
#define RtlSetBit(m, i) WdmChangeBits((m), (i), 1, TRUE, "RtlSetBit", WDM_HERE)
#define RtlClearBit(m, i) WdmChangeBits((m), (i), 1, FALSE, "RtlClearBit", WDM_HERE)
#define RtlTestBit(m, i) WdmTestBit((m), (i), WDM_HERE)
#define RtlCheckBit(m, i) WdmTestBit((m), (i), WDM_HERE)
#define RtlFindClearBitsAndSet(m, n, hint) WdmFindAndChange((m), (n), (hint), FALSE, WDM_HERE)
#define RtlFindSetBitsAndClear(m, n, hint) WdmFindAndChange((m), (n), (hint), TRUE, WDM_HERE)
static inline ULONG RtlFindClearBits(PRTL_BITMAP m, ULONG n, ULONG hint) { return WdmFindBits(m, n, hint, FALSE); }
static inline ULONG RtlFindSetBits(PRTL_BITMAP m, ULONG n, ULONG hint) { return WdmFindBits(m, n, hint, TRUE); }
static inline BOOLEAN RtlAreBitsClear(PRTL_BITMAP m, ULONG from, ULONG n) { return WdmAreBits(m, from, n, FALSE); }
static inline BOOLEAN RtlAreBitsSet(PRTL_BITMAP m, ULONG from, ULONG n) { return WdmAreBits(m, from, n, TRUE); }
static inline ULONG RtlNumberOfClearBits(PRTL_BITMAP m) { return WdmCountBits(m, FALSE); }
static inline ULONG RtlNumberOfSetBits(PRTL_BITMAP m) { return WdmCountBits(m, TRUE); }

/* Runs of clear bits: each returns the run's length, or 0. */
static inline ULONG RtlFindNextForwardRunClear(PRTL_BITMAP m, ULONG from, PULONG start)
{
    ULONG i = from < m->SizeOfBitMap ? from : m->SizeOfBitMap;
    i += WdmRun(m, i, TRUE);
    *start = i;
    return WdmRun(m, i, FALSE);
}
static inline ULONG RtlFindFirstRunClear(PRTL_BITMAP m, PULONG start) { return RtlFindNextForwardRunClear(m, 0, start); }
static inline ULONG RtlFindLastBackwardRunClear(PRTL_BITMAP m, ULONG from, PULONG start)
{
    ULONG end = from < m->SizeOfBitMap ? from + 1 : m->SizeOfBitMap, i;
    while (end && WdmBit(m, end - 1))
        end--;
    for (i = end; i && !WdmBit(m, i - 1); i--)
        ;
    *start = i;
    return end - i;
}
static inline ULONG RtlFindLongestRunClear(PRTL_BITMAP m, PULONG start)
{
    ULONG longest = 0, n, at;
    *start = 0;
    for (ULONG i = 0; (n = RtlFindNextForwardRunClear(m, i, &at)); i = at + n)
        if (n > longest) {
            longest = n;
            *start = at;
        }
    return longest;
}
/* The first runs, or the longest ones, the longest first. Returns how many. */
static inline ULONG RtlFindClearRuns(PRTL_BITMAP m, PRTL_BITMAP_RUN runs, ULONG most, BOOLEAN longest)
{
    ULONG n = 0, size, at;
    for (ULONG i = 0; (size = RtlFindNextForwardRunClear(m, i, &at)) && (longest || n < most); i = at + size) {
        ULONG place = n;
        while (longest && place && runs[place - 1].NumberOfBits < size)
            place--;
        if (place == most)
            continue;
        n += n < most;
        memmove(runs + place + 1, runs + place, (n - place - 1) * sizeof *runs);
        runs[place] = (RTL_BITMAP_RUN){ at, size };
    }
    return n;
}

static inline CCHAR RtlFindLeastSignificantBit(ULONGLONG set) { return (CCHAR)(set ? __builtin_ctzll(set) : -1); }
static inline CCHAR RtlFindMostSignificantBit(ULONGLONG set) { return (CCHAR)(set ? 63 - __builtin_clzll(set) : -1); }
static inline ULONG RtlNumberOfSetBitsUlongPtr(ULONG_PTR set) { return (ULONG)__builtin_popcountll(set); }

#endif
