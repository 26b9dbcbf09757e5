/* win32.h: plain names of Win32 that Wine's drivers use beside the driver interface, for `run --wine FOLDER`. Threads,
   locks and events of Win32 are the host's. */
#ifndef WDM_WIN32_H
#define WDM_WIN32_H

#ifndef WDM_FOR_WINE
#define WDM_FOR_WINE
#endif
#include "../wdm.h"
#include <ctype.h>

#define WINAPI
#define WINAPIV
#define APIENTRY
#define CALLBACK
#define WINBASEAPI
#define WINUSERAPI
#define WINADVAPI
#define FAR
#define DECLSPEC_HIDDEN
#define DECLSPEC_HOTPATCH
#define __C89_NAMELESS
#define __C89_NAMELESSUNIONNAME
#define __GNUC_STDC_INLINE
#define SHIM_UNUSED __attribute__((unused))
typedef int32_t BOOL, *PBOOL, *LPBOOL;
typedef uint32_t DWORD, *PDWORD, *LPDWORD, COLORREF;
typedef uint16_t WORD, *PWORD, *LPWORD, ATOM, LANGID;
typedef uint8_t BYTE, *PBYTE, *LPBYTE;
typedef uint64_t DWORD64, *PDWORD64, UINT_64;
typedef uintptr_t DWORD_PTR, WPARAM, *PDWORD_PTR;
typedef intptr_t LPARAM, LRESULT;
typedef void *LPVOID, *HWND, *HMODULE, *HINSTANCE, *HKEY, *HDC, *HWINSTA, *HDESK;
typedef const void *LPCVOID;
typedef char TCHAR;
typedef INT (*FARPROC)(void);
typedef struct tagPOINT { LONG x, y; } POINT, *LPPOINT;
typedef struct tagRECT { LONG left, top, right, bottom; } RECT, *LPRECT;
typedef struct _FILETIME { DWORD dwLowDateTime, dwHighDateTime; } FILETIME, *LPFILETIME;
typedef struct _SYSTEMTIME {
    WORD wYear, wMonth, wDayOfWeek, wDay, wHour, wMinute, wSecond, wMilliseconds;
} SYSTEMTIME;
typedef struct _OVERLAPPED { ULONG_PTR Internal, InternalHigh; ULONGLONG Offset; HANDLE hEvent; } OVERLAPPED, *LPOVERLAPPED;
typedef struct _SECURITY_ATTRIBUTES { DWORD nLength; LPVOID lpSecurityDescriptor; BOOL bInheritHandle; }
    SECURITY_ATTRIBUTES, *LPSECURITY_ATTRIBUTES;
typedef struct _PROCESS_INFORMATION { HANDLE hProcess, hThread; DWORD dwProcessId, dwThreadId; } PROCESS_INFORMATION;
typedef ULONG REGSAM;

#define MAX_PATH 260
#define INFINITE 0xffffffff
#define LOWORD(l) ((WORD)((DWORD_PTR)(l) & 0xffff))
#define HIWORD(l) ((WORD)((DWORD_PTR)(l) >> 16))
#define LOBYTE(w) ((BYTE)(w))
#define HIBYTE(w) ((BYTE)((WORD)(w) >> 8))
#define MAKEWORD(a, b) ((WORD)((BYTE)(a) | (WORD)(BYTE)(b) << 8))
#define MAKELONG(a, b) ((LONG)((WORD)(a) | (DWORD)(WORD)(b) << 16))
#define MAKELPARAM(a, b) ((LPARAM)(DWORD)MAKELONG(a, b))
#define ARRAY_SIZE(x) (sizeof(x) / sizeof((x)[0]))
#define LANG_NEUTRAL 0
#define SUBLANG_DEFAULT 1
#define MAKELANGID(p, s) ((WORD)((s) << 10 | (p)))
#define WAIT_OBJECT_0 0
#define WAIT_ABANDONED 0x80
#define WAIT_TIMEOUT 258
#define WAIT_FAILED 0xffffffff
#define HEAP_ZERO_MEMORY 8
#define CP_ACP 0
#define CP_UTF8 65001
#define CP_UNIXCP 65010
#define ERROR_SUCCESS 0
#define ERROR_FILE_NOT_FOUND 2
#define ERROR_NOT_ENOUGH_MEMORY 8
#define ERROR_MORE_DATA 234
#define MAX_DEVICE_ID_LEN 200
#define MAX_GUID_STRING_LEN 39
#define WT_EXECUTELONGFUNCTION 0x10
#define DLL_PROCESS_ATTACH 1
#define CSTR_EQUAL 2
#define FACILITY_USB_ERROR_CODE 0x10
#define FACILITY_HID_ERROR_CODE 0x11

/* Threads, events, waits: a HANDLE is the host's, as of ZwCreateEvent. */
typedef DWORD (*LPTHREAD_START_ROUTINE)(LPVOID);
typedef LPTHREAD_START_ROUTINE PRTL_WORK_ITEM_ROUTINE;
HANDLE WdmCreateThread(LPTHREAD_START_ROUTINE Start, LPVOID Context, WDM_SITE at);
#define CreateThread(security, stack, start, context, flags, id) \
    ((void)(security), (void)(flags), WdmCreateThread((LPTHREAD_START_ROUTINE)(start), (context), WDM_HERE))
#define RtlQueueWorkItem(start, context, flags) \
    ((void)(flags), WdmZwClose(WdmCreateThread((LPTHREAD_START_ROUTINE)(start), (context), WDM_HERE), WDM_HERE))
DWORD WdmWaitForObjects(DWORD Count, const HANDLE *Handles, BOOL All, DWORD Milliseconds, WDM_SITE at);
#define WaitForSingleObject(handle, ms) WdmWaitForObjects(1, &(HANDLE){ handle }, TRUE, (ms), WDM_HERE)
#define WaitForMultipleObjects(count, handles, all, ms) WdmWaitForObjects((count), (handles), (all), (ms), WDM_HERE)
HANDLE WdmCreateWin32Event(BOOL Manual, BOOL State);
#define CreateEventW(security, manual, state, name) ((void)(name), WdmCreateWin32Event((manual), (state)))
#define CreateEventA CreateEventW
#define SetEvent(handle) (WdmZwSetEvent((handle), NULL, WDM_HERE) == STATUS_SUCCESS)
#define ResetEvent(handle) (ZwResetEvent((handle), NULL) == STATUS_SUCCESS)
#define CloseHandle(handle) (WdmZwClose((handle), WDM_HERE) == STATUS_SUCCESS)
#define NtCreateEvent ZwCreateEvent
#define NtSetEvent ZwSetEvent
#define NtResetEvent ZwResetEvent
#define NtWaitForSingleObject ZwWaitForSingleObject
VOID WdmSleep(DWORD Milliseconds, WDM_SITE at);
#define Sleep(ms) WdmSleep((ms), WDM_HERE)
#define GetTickCount() ((DWORD)(KeQueryInterruptTime() / 10000))
#define GetCurrentThreadId() ((DWORD)(ULONG_PTR)PsGetCurrentThreadId())
#define GetCurrentProcessId() 4u
#define GetCurrentProcess() ((HANDLE)(LONG_PTR)-1)
#define GetLastError() 0u
#define SetLastError(e) ((void)(e))

/* Critical sections: a mutex of the host's each, found by the section's address. */
typedef struct _RTL_CRITICAL_SECTION_DEBUG {
    WORD Type, CreatorBackTraceIndex;
    struct _RTL_CRITICAL_SECTION *CriticalSection;
    LIST_ENTRY ProcessLocksList;
    DWORD EntryCount, ContentionCount;
    DWORD_PTR Spare[8];
} CRITICAL_SECTION_DEBUG, RTL_CRITICAL_SECTION_DEBUG, *PRTL_CRITICAL_SECTION_DEBUG;
typedef struct _RTL_CRITICAL_SECTION {
    PRTL_CRITICAL_SECTION_DEBUG DebugInfo;
    LONG LockCount, RecursionCount;
    HANDLE OwningThread, LockSemaphore;
    ULONG_PTR SpinCount;
} CRITICAL_SECTION, RTL_CRITICAL_SECTION, *LPCRITICAL_SECTION, *PRTL_CRITICAL_SECTION;
#define RTL_CRITICAL_SECTION_FLAG_FORCE_DEBUG_INFO 0
VOID WdmEnterCriticalSection(CRITICAL_SECTION *Section, WDM_SITE at);
VOID WdmLeaveCriticalSection(CRITICAL_SECTION *Section, WDM_SITE at);
NTSTATUS RtlInitializeCriticalSectionEx(CRITICAL_SECTION *Section, ULONG Spins, ULONG Flags);
NTSTATUS RtlDeleteCriticalSection(CRITICAL_SECTION *Section);
#define RtlInitializeCriticalSection(s) RtlInitializeCriticalSectionEx((s), 0, 0)
#define InitializeCriticalSection(s) ((void)RtlInitializeCriticalSectionEx((s), 0, 0))
#define InitializeCriticalSectionEx RtlInitializeCriticalSectionEx
#define DeleteCriticalSection RtlDeleteCriticalSection
#define EnterCriticalSection(s) WdmEnterCriticalSection((s), WDM_HERE)
#define LeaveCriticalSection(s) WdmLeaveCriticalSection((s), WDM_HERE)
#define RtlEnterCriticalSection EnterCriticalSection
#define RtlLeaveCriticalSection LeaveCriticalSection
typedef struct _RTL_SRWLOCK { PVOID Ptr; } SRWLOCK, RTL_SRWLOCK, *PSRWLOCK;
typedef struct _RTL_CONDITION_VARIABLE { PVOID Ptr; } CONDITION_VARIABLE, RTL_CONDITION_VARIABLE;

/* Heaps are the C library's memory. */
#define GetProcessHeap() ((HANDLE)1)
#define HeapAlloc(heap, flags, n) ((void)(heap), (void)(flags), calloc(1, (n)))
#define HeapFree(heap, flags, p) ((void)(heap), (void)(flags), free(p), TRUE)
#define RtlAllocateHeap HeapAlloc
#define RtlFreeHeap HeapFree
#define RtlReAllocateHeap(heap, flags, p, n) ((void)(heap), (void)(flags), realloc((p), (n)))
#define LocalFree(p) (free(p), NULL)
VOID WdmFreeHeapText(PUNICODE_STRING Text, WDM_SITE at); /* of a heap, or of the pool */
#undef RtlFreeUnicodeString
#define RtlFreeUnicodeString(text) WdmFreeHeapText((text), WDM_HERE)

/* Text, odds and ends. */
static inline LONG MulDiv(LONG a, LONG b, LONG c) { return c ? (LONG)((LONGLONG)a * b / c) : -1; }
int WdmToWide(const char *From, int Count, WCHAR *To, int Room);
int WdmToNarrow(const WCHAR *From, int Count, char *To, int Room);
#define MultiByteToWideChar(page, flags, from, n, to, room) ((void)(page), WdmToWide((from), (int)(n), (to), (int)(room)))
#define WideCharToMultiByte(page, flags, from, n, to, room, fallback, used) \
    ((void)(page), WdmToNarrow((from), (int)(n), (to), (int)(room)))
#define RtlUnicodeToUTF8N(to, room, written, from, bytes) RtlUnicodeToMultiByteN((to), (room), (written), (from), (bytes))
#define RtlUTF8ToUnicodeN(to, room, written, from, bytes) RtlMultiByteToUnicodeN((to), (room), (written), (from), (bytes))
#define RtlUnicodeToMultiByteSize(size, from, bytes) ((void)(*(size) = (bytes) / 2 * 3), (void)(from), STATUS_SUCCESS)
#define RtlMultiByteToUnicodeSize(size, from, bytes) ((void)(*(size) = (bytes) * 2), (void)(from), STATUS_SUCCESS)
#define RtlSetLastWin32ErrorAndNtStatusFromNtStatus(status) ((void)(status))
#define RtlNtStatusToDosError(status) ((DWORD)(status))
#define lstrlenW(s) ((int)wcslen(s))
#define lstrcpyW wcscpy
#define lstrcatW wcscat
static inline WCHAR *WdmWcsdup(const WCHAR *s)
{
    const size_t bytes = (wcslen(s) + 1) * sizeof *s;
    WCHAR *copy = malloc(bytes);
    return copy ? memcpy(copy, s, bytes) : NULL;
}
#define wcsdup WdmWcsdup
static inline char *WdmStrdup(const char *s) { return s ? strdup(s) : NULL; }
#define strdup WdmStrdup /* of no text it is none */
#define memicmp strncasecmp
#define _memicmp strncasecmp
#define GetSystemTime(t) memset((t), 0, sizeof *(t))
#define NtOpenKey ZwOpenKey
#define NtCreateKey ZwCreateKey
#define NtQueryValueKey ZwQueryValueKey
#define NtSetValueKey ZwSetValueKey
#define NtDeleteKey ZwDeleteKey
#define NtEnumerateKey ZwEnumerateKey
#define NtEnumerateValueKey ZwEnumerateValueKey
#define NtQueryKey ZwQueryKey
#define NtCreateFile ZwCreateFile
#define NtOpenFile ZwOpenFile
#define NtWriteFile ZwWriteFile
#define NtReadFile ZwReadFile
#define NtCreateDirectoryObject ZwCreateDirectoryObject
#define HKEY_CLASSES_ROOT ((HKEY)(ULONG_PTR)0x80000000)
#define HKEY_CURRENT_USER ((HKEY)(ULONG_PTR)0x80000001)
#define HKEY_LOCAL_MACHINE ((HKEY)(ULONG_PTR)0x80000002)

/* What user32 is told of input: it goes nowhere. */
typedef struct tagRAWINPUTHEADER { DWORD dwType, dwSize; HANDLE hDevice; WPARAM wParam; } RAWINPUTHEADER;
typedef struct tagRAWHID { DWORD dwSizeHid, dwCount; BYTE bRawData[1]; } RAWHID;
typedef struct tagRAWINPUT { RAWINPUTHEADER header; union { ULONG mouse[6]; RAWHID hid; } data; } RAWINPUT, *PRAWINPUT;
typedef struct tagHARDWAREINPUT { DWORD uMsg; WORD wParamL, wParamH; } HARDWAREINPUT;
typedef struct tagINPUT { DWORD type; union { HARDWAREINPUT hi; ULONG room[8]; }; } INPUT;
struct hid_packet { struct { UINT32 device, usage, count, length; } head; BYTE data[]; };
enum { INPUT_HARDWARE = 2, RIM_INPUT = 0, RIM_TYPEHID = 2, WM_INPUT = 0xff, WM_INPUT_DEVICE_CHANGE = 0xfe, GIDC_ARRIVAL = 1,
       GIDC_REMOVAL = 2, WM_POINTERUPDATE = 0x245, WM_POINTERDOWN = 0x246, WM_POINTERUP = 0x247,
       WM_NCDESTROY = 0x82 };
enum { POINTER_MESSAGE_FLAG_NEW = 1, POINTER_MESSAGE_FLAG_INRANGE = 2, POINTER_MESSAGE_FLAG_INCONTACT = 4,
       POINTER_MESSAGE_FLAG_CONFIDENCE = 0x4000 };
#define NtUserSendHardwareInput(a, flags, input, context) ((void)(a), (void)(input), (void)(context), 1)
#define NtUserGetProcessDpiAwarenessContext(process) 0
#define GetProcessWindowStation() ((HANDLE)1)

/* Wine's calls from its PE side to its Unix side: a test supplies WdmUnixCall. */
NTSTATUS WdmUnixCall(unsigned Code, void *Parameters);
#define WINE_UNIX_CALL(code, parameters) WdmUnixCall((code), (parameters))
#define __wine_init_unix_call() STATUS_SUCCESS
typedef NTSTATUS (*unixlib_entry_t)(void *);
typedef UINT64 unixlib_handle_t;

extern const DEVPROPKEY DEVPKEY_NAME;

#include "winreg.h"
#include "win32_files.h"

#endif
