/* wdm_safe.h: what `#include <ntintsafe.h>` finds: sums, differences, products and conversions that tell where the result
   doesn't fit: then they return STATUS_INTEGER_OVERFLOW, and the result has all bits set. */
#ifndef WDM_SAFE_H
#define WDM_SAFE_H

#include "wdm_base.h"

typedef ptrdiff_t PTRDIFF_T;
#define WDM_SAFELY(Name, TYPE, how) \
    static inline NTSTATUS Name(TYPE a, TYPE b, TYPE *to) \
    { \
        if (!__builtin_##how##_overflow(a, b, to)) \
            return STATUS_SUCCESS; \
        *to = (TYPE)-1; \
        return STATUS_INTEGER_OVERFLOW; \
    }
#define WDM_SAFE(Name, TYPE) \
    WDM_SAFELY(Rtl##Name##Add, TYPE, add) \
    WDM_SAFELY(Rtl##Name##Sub, TYPE, sub) \
    WDM_SAFELY(Rtl##Name##Mult, TYPE, mul)
WDM_SAFE(Int8, INT8)
WDM_SAFE(UInt8, UINT8)
WDM_SAFE(Short, SHORT)
WDM_SAFE(UShort, USHORT)
WDM_SAFE(Int, INT)
WDM_SAFE(UInt, UINT)
WDM_SAFE(Long, LONG)
WDM_SAFE(ULong, ULONG)
WDM_SAFE(LongLong, LONGLONG)
WDM_SAFE(ULongLong, ULONGLONG)
WDM_SAFE(IntPtr, INT_PTR)
WDM_SAFE(UIntPtr, UINT_PTR)
WDM_SAFE(LongPtr, LONG_PTR)
WDM_SAFE(ULongPtr, ULONG_PTR)
WDM_SAFE(SizeT, SIZE_T)
WDM_SAFE(SSIZET, SSIZE_T)
WDM_SAFE(PtrdiffT, PTRDIFF_T)

/* Conversions between each two of these, as RtlULongToUShort. */
#define WDM_TO(From, FROM, Other, OTHER) \
    static inline NTSTATUS Rtl##From##To##Other(FROM a, OTHER *to) \
    { \
        if (!__builtin_add_overflow(a, (FROM)0, to)) \
            return STATUS_SUCCESS; \
        *to = (OTHER)-1; \
        return STATUS_INTEGER_OVERFLOW; \
    }
#define WDM_TO_ALL(From, FROM) \
    WDM_TO(From, FROM, Int8, INT8) WDM_TO(From, FROM, UInt8, UINT8) WDM_TO(From, FROM, UChar, UCHAR) \
    WDM_TO(From, FROM, Char, CHAR) WDM_TO(From, FROM, Short, SHORT) WDM_TO(From, FROM, UShort, USHORT) \
    WDM_TO(From, FROM, Int, INT) WDM_TO(From, FROM, UInt, UINT) WDM_TO(From, FROM, Long, LONG) \
    WDM_TO(From, FROM, ULong, ULONG) WDM_TO(From, FROM, LongLong, LONGLONG) WDM_TO(From, FROM, ULongLong, ULONGLONG) \
    WDM_TO(From, FROM, IntPtr, INT_PTR) WDM_TO(From, FROM, UIntPtr, UINT_PTR) WDM_TO(From, FROM, LongPtr, LONG_PTR) \
    WDM_TO(From, FROM, ULongPtr, ULONG_PTR) WDM_TO(From, FROM, SizeT, SIZE_T) WDM_TO(From, FROM, SSIZET, SSIZE_T) \
    WDM_TO(From, FROM, PtrdiffT, PTRDIFF_T)
WDM_TO_ALL(Int8, INT8)
WDM_TO_ALL(UInt8, UINT8)
WDM_TO_ALL(Short, SHORT)
WDM_TO_ALL(UShort, USHORT)
WDM_TO_ALL(Int, INT)
WDM_TO_ALL(UInt, UINT)
WDM_TO_ALL(Long, LONG)
WDM_TO_ALL(ULong, ULONG)
WDM_TO_ALL(LongLong, LONGLONG)
WDM_TO_ALL(ULongLong, ULONGLONG)
WDM_TO_ALL(IntPtr, INT_PTR)
WDM_TO_ALL(UIntPtr, UINT_PTR)
WDM_TO_ALL(LongPtr, LONG_PTR)
WDM_TO_ALL(ULongPtr, ULONG_PTR)
WDM_TO_ALL(SizeT, SIZE_T)
WDM_TO_ALL(SSIZET, SSIZE_T)
WDM_TO_ALL(PtrdiffT, PTRDIFF_T)
#define RtlUInt16Add RtlUShortAdd
#define RtlUInt16Sub RtlUShortSub
#define RtlUInt16Mult RtlUShortMult
#define RtlUInt32Add RtlUIntAdd
#define RtlUInt32Sub RtlUIntSub
#define RtlUInt32Mult RtlUIntMult
#define RtlDWordAdd RtlULongAdd
#define RtlDWordSub RtlULongSub
#define RtlDWordMult RtlULongMult
#define RtlInt64Add RtlLongLongAdd
#define RtlInt64Sub RtlLongLongSub
#define RtlInt64Mult RtlLongLongMult
#define RtlUInt64Add RtlULongLongAdd
#define RtlUInt64Sub RtlULongLongSub
#define RtlUInt64Mult RtlULongLongMult

#endif
