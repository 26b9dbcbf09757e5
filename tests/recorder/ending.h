/* ending.h: writes the transcript to standard output: at the end, at a crash, or after five seconds. */
#include <fcntl.h>
#include <signal.h>
#include <stdio.h>
#include <stdlib.h>
#ifdef _WIN32
#include <io.h>
#endif

enum { CRASHED = 3, HUNG = 4 };

static void write_transcript(void)
{
    const size_t n = IrpxTranscript(NULL, 0);
    IRPX_COUNTS counts;
    char *text = malloc(n);
    if (!text)
        exit(2);
    IrpxTranscript(text, n);
    fwrite(text, 1, n, stdout);
    fflush(stdout);
    IrpxCount(&counts);
    fprintf(stderr, "recorder: %d entries; pended %d, outside %d, adopted %d, lost %d\n", (int)counts.entries,
            counts.pended, counts.outside, counts.adopted, counts.lost);
    free(text);
}

static inline void end_early(const char *what, int status)
{
    IrpxAbandon();
    fprintf(stderr, "%s in the manager or in a driver\n", what);
    write_transcript();
    _Exit(status);
}

static inline void crashed(int number)
{
    signal(number, SIG_DFL);
    end_early("a crash", CRASHED);
}

#ifdef _WIN32
__declspec(dllimport) void __stdcall Sleep(unsigned long);
__declspec(dllimport) void *__stdcall CreateThread(void *, size_t, unsigned long(__stdcall *)(void *), void *,
                                                   unsigned long, void *);
static unsigned long __stdcall watch(void *nothing)
{
    (void)nothing;
    Sleep(5000);
    end_early("a hang", HUNG);
    return 0;
}
#endif

static inline void begin_to_watch(void)
{
    signal(SIGSEGV, crashed);
    signal(SIGABRT, crashed);
    signal(SIGILL, crashed);
#ifdef _WIN32
    _setmode(1, _O_BINARY);
    CreateThread(NULL, 0, watch, NULL, 0, NULL);
#endif
}
