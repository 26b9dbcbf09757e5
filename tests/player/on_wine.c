/* on_wine.c: `player.exe FEEDS FIRST THREADS` plays the scripts of a file on Wine's manager, which is loaded into the
   program, and writes their answers (answers.h). THREADS is `one`, `by_turns`, `at_once` or `within`. A crash or a hang ends the
   program; whoever started it goes on behind that script. */
#include "answers.h"
#include "loading.h"
#include <fcntl.h>
#include <io.h>

__declspec(dllimport) void __stdcall Sleep(unsigned long);
__declspec(dllimport) void *__stdcall CreateThread(void *, size_t, unsigned long(__stdcall *)(void *), void *,
                                                   unsigned long, void *);
enum { PATIENCE = 5000 }; /* milliseconds for a script, at least */

static unsigned long __stdcall watch(void *nothing)
{
    (void)nothing;
    for (long last = -1;; last = playing) {
        Sleep(PATIENCE);
        if (last == playing)
            end_early("hang");
    }
    return 0;
}

static void play_here(const uint64_t *words, size_t count, PLAY_THREADS threads)
{
    size_t made;
    const PLAY_END end = PlayScript(words, count, threads, load, replies, &made);
    write_answer(PlayEnds[end], made);
    PlayTakeDown();
    IrpxForget();
}

int main(int argc, char **argv)
{
    if (argc != 4)
        return 2;
    signal(SIGSEGV, crashed);
    signal(SIGABRT, crashed);
    signal(SIGILL, crashed);
    _setmode(1, _O_BINARY);
    irpx_options.looks = TRUE;
    CreateThread(NULL, 0, watch, NULL, 0, NULL);
    _Exit(play_file(argv[1], atol(argv[2]), threads_of(argv[3]), play_here));
}
