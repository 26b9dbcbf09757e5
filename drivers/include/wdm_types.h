/* wdm_types.h: plain types, calling conventions, annotations, limits. `run` compiles with -fshort-wchar, so that L"text"
   has 16-bit characters; a LONG has 32 bits. */
#ifndef WDM_TYPES_H
#define WDM_TYPES_H

#include <stdarg.h>
#include <stdbool.h>
#include <stddef.h>
#include <stdint.h>
#include <stdlib.h>
#include <string.h>

#define VOID void
typedef void *PVOID, *HANDLE, **PHANDLE, *PSECURITY_DESCRIPTOR, *PACCESS_STATE, *PACCESS_TOKEN;
typedef char CHAR, CCHAR, *PCHAR, *PSTR, *PSZ, *LPSTR, *PCCHAR;
typedef const char *PCSTR, *PCSZ, *LPCSTR;
typedef unsigned char UCHAR, *PUCHAR, BOOLEAN, *PBOOLEAN, KIRQL, *PKIRQL;
typedef int8_t INT8, *PINT8;
typedef uint8_t UINT8, *PUINT8;
typedef int16_t SHORT, CSHORT, *PSHORT, INT16, *PINT16;
typedef uint16_t USHORT, *PUSHORT, UINT16, *PUINT16;
typedef wchar_t WCHAR, *PWSTR, *PWCHAR, *PWCH, *LPWSTR;
typedef const wchar_t *PCWSTR, *PCWCH, *LPCWSTR;
typedef int32_t LONG, *PLONG, NTSTATUS, *PNTSTATUS, KPRIORITY, INT, *PINT, INT32, *PINT32, LONG32, HRESULT;
typedef uint32_t ULONG, *PULONG, DEVICE_TYPE, ACCESS_MASK, *PACCESS_MASK, POOL_TYPE, LOGICAL, UINT, *PUINT, UINT32,
    *PUINT32, ULONG32, CLONG, LCID, SECURITY_INFORMATION, *PSECURITY_INFORMATION;
typedef int64_t LONGLONG, LONG64, *PLONGLONG, INT64, *PINT64, *PLONG64, USN;
typedef uint64_t ULONGLONG, ULONG64, *PULONGLONG, UINT64, *PUINT64, *PULONG64, DWORDLONG;
typedef uintptr_t ULONG_PTR, SIZE_T, *PULONG_PTR, *PSIZE_T, UINT_PTR, KAFFINITY, PFN_NUMBER, *PPFN_NUMBER;
typedef intptr_t LONG_PTR, *PLONG_PTR, INT_PTR, SSIZE_T;
typedef float FLOAT;
typedef double DOUBLE;
typedef union _LARGE_INTEGER {
    struct { ULONG LowPart; LONG HighPart; };
    struct { ULONG LowPart; LONG HighPart; } u;
    LONGLONG QuadPart;
} LARGE_INTEGER, *PLARGE_INTEGER, PHYSICAL_ADDRESS, *PPHYSICAL_ADDRESS;
typedef union _ULARGE_INTEGER {
    struct { ULONG LowPart, HighPart; };
    struct { ULONG LowPart, HighPart; } u;
    ULONGLONG QuadPart;
} ULARGE_INTEGER, *PULARGE_INTEGER;
typedef struct _LUID { ULONG LowPart; LONG HighPart; } LUID, *PLUID;
typedef struct _UNICODE_STRING { USHORT Length, MaximumLength; PWSTR Buffer; } UNICODE_STRING, *PUNICODE_STRING;
typedef const UNICODE_STRING *PCUNICODE_STRING;
typedef struct _STRING { USHORT Length, MaximumLength; PCHAR Buffer; } STRING, ANSI_STRING, OEM_STRING, *PSTRING,
    *PANSI_STRING, *POEM_STRING;
typedef const STRING *PCANSI_STRING, *PCSTRING;
typedef struct _GUID { ULONG Data1; USHORT Data2, Data3; UCHAR Data4[8]; } GUID, *LPGUID, *PGUID, IID, CLSID;
typedef const GUID *LPCGUID;
typedef struct _CLIENT_ID { HANDLE UniqueProcess, UniqueThread; } CLIENT_ID, *PCLIENT_ID;
typedef struct _PROCESSOR_NUMBER { USHORT Group; UCHAR Number, Reserved; } PROCESSOR_NUMBER, *PPROCESSOR_NUMBER;
typedef struct _GROUP_AFFINITY { KAFFINITY Mask; USHORT Group, Reserved[3]; } GROUP_AFFINITY, *PGROUP_AFFINITY;
typedef enum _EVENT_TYPE { NotificationEvent, SynchronizationEvent } EVENT_TYPE;
typedef enum _TIMER_TYPE { NotificationTimer, SynchronizationTimer } TIMER_TYPE;
typedef enum _WAIT_TYPE { WaitAll, WaitAny } WAIT_TYPE;

#define TRUE 1
#define FALSE 0
#define CONST const
#define ANYSIZE_ARRAY 1
#define UNICODE_NULL ((WCHAR)0)
#define ANSI_NULL ((CHAR)0)
#define MINCHAR 0x80
#define MAXCHAR 0x7f
#define MINSHORT 0x8000
#define MAXSHORT 0x7fff
#define MAXUCHAR 0xff
#define MAXUSHORT 0xffff
#define MINLONG ((LONG)0x80000000)
#define MAXLONG 0x7fffffff
#define MAXULONG 0xffffffffu
#define MAXLONGLONG 0x7fffffffffffffffll
#define MAXULONGLONG 0xffffffffffffffffull
#define MAXLONG_PTR INTPTR_MAX
#define MAXULONG_PTR UINTPTR_MAX
#define MAXSIZE_T UINTPTR_MAX
#define MAXLONG64 MAXLONGLONG
#define MAXULONG64 MAXULONGLONG
#define MAXIMUM_PROCESSORS 64

/* Calling conventions and what compilers add. */
#define NTAPI
#define NTKERNELAPI
#define NTSYSAPI
#define NTSYSCALLAPI
#define NTHALAPI
#define DECLSPEC_IMPORT
#define DECLSPEC_NORETURN __attribute__((noreturn))
#define DECLSPEC_ALIGN(n) __attribute__((aligned(n)))
#define DECLSPEC_SELECTANY __attribute__((weak))
#define DECLSPEC_DEPRECATED_DDK
#define POINTER_ALIGNMENT __attribute__((aligned(8)))
#define UNALIGNED
#define RESTRICTED_POINTER
#define FASTCALL
#define CDECL
#define FORCEINLINE static inline
#define EXTERN_C extern
#define DUMMYUNIONNAME
#define DUMMYSTRUCTNAME
#define __stdcall
#define __cdecl
#define __fastcall
#define __forceinline inline __attribute__((always_inline))
#define __declspec(x) __declspec_##x
#define __declspec_dllimport
#define __declspec_dllexport
#define __declspec_noinline __attribute__((noinline))
#define __declspec_noreturn __attribute__((noreturn))
#define __declspec_selectany __attribute__((weak))
#define __declspec_align(n) __attribute__((aligned(n)))
#define __declspec_allocate(s)
#define __declspec_code_seg(s)
#define __int64 long long
#define __int32 int
#define __int16 short
#define __int8 char
#define __w64
#define __ptr64
#define __unaligned
#define __analysis_assume(x) ((void)0)
#define _Analysis_assume_(x) ((void)0)

#include "wdm_annotations.h"

/* Structured exceptions: none is raised here, so a handler's block compiles and never runs. There is no __finally and
   no __leave: they can't be compiled truly. */
#define __try if (1)
#define __except(filter) else if (((void)(filter), 0))
#define try __try
#define except __except
#define EXCEPTION_EXECUTE_HANDLER 1
#define EXCEPTION_CONTINUE_SEARCH 0
#define EXCEPTION_CONTINUE_EXECUTION (-1)
#define GetExceptionCode() STATUS_UNSUCCESSFUL
#define exception_code() STATUS_UNSUCCESSFUL
#define GetExceptionInformation() NULL
#define AbnormalTermination() FALSE

#define UNREFERENCED_PARAMETER(x) ((void)(x))
#define DBG_UNREFERENCED_PARAMETER(x) ((void)(x))
#define UNREFERENCED_LOCAL_VARIABLE(x) ((void)(x))
#define DBG_UNREFERENCED_LOCAL_VARIABLE(x) ((void)(x))
#define NT_ASSERT(x) ((void)sizeof(x))
#define NT_ASSERTMSG(m, x) ((void)sizeof(x))
#define ASSERT(x) ((void)sizeof(x))
#define ASSERTMSG(m, x) ((void)sizeof(x))
#define C_ASSERT(x) _Static_assert(x, #x)
#define NT_VERIFY(x) ((x) ? TRUE : FALSE)
#define ARRAYSIZE(x) (sizeof(x) / sizeof(*(x)))
#define RTL_NUMBER_OF(x) ARRAYSIZE(x)
#define RTL_FIELD_SIZE(type, field) sizeof(((type *)0)->field)
#define RTL_SIZEOF_THROUGH_FIELD(type, field) (offsetof(type, field) + RTL_FIELD_SIZE(type, field))
#define FIELD_OFFSET(type, field) ((LONG)offsetof(type, field))
#define CONTAINING_RECORD(p, type, field) ((type *)((char *)(p) - offsetof(type, field)))
#define TYPE_ALIGNMENT(t) _Alignof(t)
#define ALIGN_DOWN_BY(n, by) ((ULONG_PTR)(n) & ~((ULONG_PTR)(by) - 1))
#define ALIGN_UP_BY(n, by) ALIGN_DOWN_BY((ULONG_PTR)(n) + (by) - 1, by)
#define ALIGN_DOWN(n, type) ALIGN_DOWN_BY(n, sizeof(type))
#define ALIGN_UP(n, type) ALIGN_UP_BY(n, sizeof(type))
#define min(a, b) ((a) < (b) ? (a) : (b))
#define max(a, b) ((a) > (b) ? (a) : (b))
#define HandleToULong(h) ((ULONG)(ULONG_PTR)(h))
#define HandleToUlong HandleToULong
#define PtrToUlong(p) ((ULONG)(ULONG_PTR)(p))
#define PtrToULong PtrToUlong
#define PtrToLong(p) ((LONG)(LONG_PTR)(p))
#define ULongToPtr(n) ((PVOID)(ULONG_PTR)(n))
#define UlongToPtr ULongToPtr
#define LongToPtr(n) ((PVOID)(LONG_PTR)(n))
#define ULongToHandle(n) ((HANDLE)(ULONG_PTR)(n))
#define UlongToHandle ULongToHandle
#define LongToHandle(n) ((HANDLE)(LONG_PTR)(n))
#define Add2Ptr(p, n) ((PVOID)((PUCHAR)(p) + (n)))
#define BooleanFlagOn(f, bits) ((BOOLEAN)(((f) & (bits)) != 0))
#define FlagOn(f, bits) ((f) & (bits))
#define SetFlag(f, bits) ((f) |= (bits))
#define ClearFlag(f, bits) ((f) &= ~(bits))

#endif
