/* win32.c: what win32/win32.h has: threads, waits and locks of Win32 over the host's own. */
#include "explore/explore.h"
#include "ke/ke.h"
#include "mm/mm.h"
#include "ob/ob.h"
#include "record/record.h"
#include "rtl/rtl.h"
#include "win32/win32.h"
#include "win32/wine/test.h"
#include <poll.h>

/* Threads: a Win32 thread returns a number, a system thread doesn't. */
typedef struct { LPTHREAD_START_ROUTINE start; LPVOID context; } Start;

static VOID run_start(PVOID context)
{
    const Start s = *(Start *)context;
    free_host_memory(context);
    s.start(s.context);
}

HANDLE WdmCreateThread(LPTHREAD_START_ROUTINE StartRoutine, LPVOID Context, WDM_SITE at)
{
    HANDLE handle = NULL;
    Start *s = host_memory(sizeof *s);
    if (!s)
        return NULL;
    *s = (Start){ StartRoutine, Context };
    return NT_SUCCESS(WdmPsCreateSystemThread(&handle, run_start, s, at)) ? handle : NULL;
}

typedef struct { PTP_SIMPLE_CALLBACK callback; PVOID context; } Submitted;

static DWORD run_submitted(LPVOID context)
{
    const Submitted s = *(Submitted *)context;
    free_host_memory(context);
    s.callback(NULL, s.context);
    return 0;
}

BOOL WdmSubmit(PTP_SIMPLE_CALLBACK Callback, PVOID Context, WDM_SITE at)
{
    Submitted *s = host_memory(sizeof *s);
    if (!s)
        return FALSE;
    *s = (Submitted){ Callback, Context };
    HANDLE thread = WdmCreateThread(run_submitted, s, at);
    return thread && NT_SUCCESS(WdmZwClose(thread, (WDM_SITE){ 0 }));
}

DWORD WdmWaitForObjects(DWORD Count, const HANDLE *Handles, BOOL All, DWORD Milliseconds, WDM_SITE at)
{
    PVOID objects[MAXIMUM_WAIT_OBJECTS];
    LARGE_INTEGER limit = { .QuadPart = -10000LL * Milliseconds };
    for (DWORD i = 0; i < Count && i < MAXIMUM_WAIT_OBJECTS; i++)
        if (!(objects[i] = handle_object(Handles[i], NULL)))
            return WAIT_FAILED;
    const NTSTATUS status = WdmKeWaitForMultipleObjects(Count, objects, All ? WaitAll : WaitAny,
                                                        Milliseconds == INFINITE ? NULL : &limit, at);
    return status == STATUS_TIMEOUT ? WAIT_TIMEOUT : (DWORD)status;
}

HANDLE WdmCreateWin32Event(BOOL Manual, BOOL State)
{
    HANDLE handle;
    return NT_SUCCESS(ZwCreateEvent(&handle, EVENT_ALL_ACCESS, NULL, Manual ? NotificationEvent : SynchronizationEvent,
                                    (BOOLEAN)State)) ? handle : NULL;
}

VOID WdmSleep(DWORD Milliseconds, WDM_SITE at)
{
    LARGE_INTEGER time = { .QuadPart = -10000LL * Milliseconds };
    WdmKeDelayExecutionThread(&time, at);
}

/* Critical sections: each has a mutex, made when it is first entered. */
static struct { CRITICAL_SECTION *section; KMUTEX *mutex; } sections[256];
static int n_sections;

static KMUTEX *mutex_of(CRITICAL_SECTION *section)
{
    KMUTEX *mutex = NULL;
    bool is_new = false;
    hold_host("a critical section", section, SYNCS);
    for (int i = 0; i < n_sections; i++)
        if (sections[i].section == section)
            mutex = sections[i].mutex;
    if (!mutex && n_sections < 256 && (mutex = host_memory(sizeof *mutex))) {
        is_new = true;
        sections[n_sections].section = section;
        sections[n_sections++].mutex = mutex;
    }
    if (!mutex)
        reach_limit("more than 256 critical sections");
    if (is_new)
        mutex->Header.SignalState = 0; /* taken until it is made */
    pthread_mutex_unlock(&host_lock);
    if (is_new)
        KeInitializeMutex(mutex, 0);
    return mutex;
}

VOID WdmEnterCriticalSection(CRITICAL_SECTION *Section, WDM_SITE at)
{
    WdmKeWaitForSingleObject(mutex_of(Section), NULL, at);
}

VOID WdmLeaveCriticalSection(CRITICAL_SECTION *Section, WDM_SITE at) { WdmKeReleaseMutex(mutex_of(Section), at); }

NTSTATUS RtlInitializeCriticalSectionEx(CRITICAL_SECTION *Section, ULONG Spins, ULONG Flags)
{
    (void)Spins, (void)Flags;
    memset(Section, 0, sizeof *Section);
    Section->DebugInfo = calloc(1, sizeof *Section->DebugInfo);
    mutex_of(Section);
    return STATUS_SUCCESS;
}

NTSTATUS RtlDeleteCriticalSection(CRITICAL_SECTION *Section)
{
    hold_host("RtlDeleteCriticalSection", Section, SYNCS);
    for (int i = 0; i < n_sections; i++)
        if (sections[i].section == Section)
            sections[i--] = sections[--n_sections];
    pthread_mutex_unlock(&host_lock);
    free(Section->DebugInfo);
    Section->DebugInfo = NULL;
    return STATUS_SUCCESS;
}

VOID WdmFreeHeapText(PUNICODE_STRING Text, WDM_SITE at)
{
    if (is_pool_block(Text->Buffer)) {
        WdmRtlFreeUnicodeString(Text, at);
        return;
    }
    free(Text->Buffer);
    *Text = (UNICODE_STRING){ 0 };
}

/* Text: a count of -1 is text with its end. */
int WdmToWide(const char *From, int Count, WCHAR *To, int Room)
{
    return (int)to_wide(To, (size_t)Room, From, Count < 0 ? strlen(From) + 1 : (size_t)Count);
}

int WdmToNarrow(const WCHAR *From, int Count, char *To, int Room)
{
    const ULONG bytes = (ULONG)((Count < 0 ? WdmWcslen(From) + 1 : (size_t)Count) * sizeof(WCHAR));
    ULONG written = 0;
    if (!Room)
        return (int)(bytes / sizeof(WCHAR) * 3);
    RtlUnicodeToMultiByteN(To, (ULONG)Room, &written, From, bytes);
    return (int)written;
}

/* A socket that can be read sets its event, now and again. */
typedef struct { int socket; HANDLE event; } Watched;

static VOID watch_socket(PVOID context)
{
    const Watched w = *(Watched *)context;
    struct pollfd p = { .fd = w.socket, .events = POLLIN };
    free_host_memory(context);
    while (poll(&p, 1, 1000) >= 0 && !(p.revents & (POLLNVAL | POLLERR))) {
        LARGE_INTEGER pause = { .QuadPart = -20000 };
        if (p.revents && WdmZwSetEvent(w.event, NULL, (WDM_SITE){ 0 }) != STATUS_SUCCESS)
            break;
        WdmKeDelayExecutionThread(&pause, (WDM_SITE){ 0 });
        p.revents = 0;
    }
}

int WdmSelect(long Socket, HANDLE Event)
{
    HANDLE thread;
    Watched *w = host_memory(sizeof *w);
    if (!w)
        return -1;
    *w = (Watched){ (int)Socket, Event };
    return NT_SUCCESS(WdmPsCreateSystemThread(&thread, watch_socket, w, (WDM_SITE){ 0 })) ? 0 : -1;
}

/* What drivers of Wine say. A check of its tests that fails is told always: it isn't the host's to judge. */
VOID WdmSay(const char *What, const char *Function, const char *Format, ...)
{
    va_list list;
    if (!options.says)
        return;
    DbgPrint("%s in %s: ", What, Function);
    va_start(list, Format);
    vDbgPrintEx(0, 0, Format, list);
    va_end(list);
}

VOID WdmCheck(int Holds, const char *File, int Line, const char *Format, ...)
{
    if (Holds || !options.says)
        return;
    va_list list;
    DbgPrint("check failed at %s:%d: ", File, Line);
    va_start(list, Format);
    vDbgPrintEx(0, 0, Format, list);
    va_end(list);
}

__attribute__((weak)) NTSTATUS WdmUnixCall(unsigned Code, void *Parameters)
{
    (void)Code, (void)Parameters;
    return STATUS_NOT_SUPPORTED;
}
