/* on_host.c: `player FEEDS FIRST THREADS` plays the scripts of a file on the host of drivers/, each in a process of its
   own, and writes their answers (answers.h). THREADS is `one`, `by_turns`, `at_once` or `within`. */
#include "answers.h"
#include "wdm_test.h"
#include <sys/wait.h>
#include <unistd.h>

enum { PATIENCE = 120 }; /* seconds for a script: a machine may be slow */

static void hung(int number)
{
    (void)number;
    end_early("hang");
}

static BOOLEAN load(unsigned i, PDRIVER_INITIALIZE Entry)
{
    static char names[PLAY_DRIVERS][16];
    snprintf(names[i], sizeof names[i], "player%u", i);
    return WdmLoadDriver(names[i], Entry) != NULL;
}

/* The host begins with its first driver, and a script may have none. */
static NTSTATUS begin(PDRIVER_OBJECT DriverObject, PUNICODE_STRING RegistryPath)
{
    UNREFERENCED_PARAMETER(DriverObject);
    UNREFERENCED_PARAMETER(RegistryPath);
    return STATUS_SUCCESS;
}

static void play_here(const uint64_t *words, size_t count, PLAY_THREADS threads)
{
    size_t made;
    signal(SIGABRT, crashed);
    signal(SIGALRM, hung);
    signal(SIGSEGV, crashed);
    alarm(PATIENCE);
    WdmLoadDriver("nobody", begin);
    const PLAY_END end = PlayScript(words, count, threads, load, replies, &made);
    write_answer(PlayEnds[end], made);
    PlayTakeDown();
    _Exit(WdmFinish());
}

static void play_apart(const uint64_t *words, size_t count, PLAY_THREADS threads)
{
    const pid_t child = fork();
    if (!child)
        play_here(words, count, threads);
    if (child > 0)
        waitpid(child, NULL, 0);
}

int main(int argc, char **argv)
{
    if (argc != 4)
        return 2;
    _Exit(play_file(argv[1], atol(argv[2]), threads_of(argv[3]), play_apart)); /* nobody called WdmFinish here */
}
