/*
 * leaving.c: ways out of a run that pass by the host: a longjmp over its frames, a fork, a signal's handler that a driver
 * changes. A jump within one routine is right. So it is kept where it was made, and told once the host sees that a routine
 * was left by it.
 */
#undef _FORTIFY_SOURCE /* else longjmp is another function's name */
#include "record/own.h"
#include <setjmp.h>
#include <stddef.h>
#include <unistd.h>

enum { MOST_PLACES = 8 };
__attribute__((noreturn)) void __longjmp_chk(jmp_buf env, int value);
static _Thread_local struct { const void *at[MOST_PLACES]; int n; char what[200]; const Frame *frame; } jump;
static bool is_watching, host_forks; /* host_forks: a fork is the host's own */

/* A routine of a driver runs on this thread, and a jump begins here. */
static void note_jump(void)
{
    const Frame *f = self.frames;
    jump.frame = f;
    if (!f)
        return;
    jump.n = where_is(false, jump.at, MOST_PLACES);
    snprintf(jump.what, sizeof jump.what, "%s is left by longjmp", what_runs(f));
}

/* The stack of what the thread is in is this one: it lies above this function's, unless it was left. */
static bool is_left(const Frame *f) { return (uintptr_t)f < (uintptr_t)__builtin_frame_address(0); }

/* At a call of the host, and at the end. */
void tell_jump(void)
{
    const Frame *f = jump.frame;
    if (!f)
        return;
    jump.frame = NULL;
    if (self.frames != f || !is_left(f))
        return;
    for (int i = 0; i < n_packets; i++)
        if (packets[i]->asking == f)
            packets[i]->asking = NULL;
    self.frames = NULL; /* what is there may be another's by now */
    self.calls = NULL;
    begin_last_words();
    stop_here(jump.what, jump.at, jump.n, NULL, "");
}

/* All are one function, of which the host itself takes this name. */
#define JUMP(name, buffer) \
    __attribute__((noreturn)) void name(buffer env, int value) \
    { \
        note_jump(); \
        _longjmp(env, value); \
    }

JUMP(longjmp, jmp_buf)
JUMP(siglongjmp, sigjmp_buf)
JUMP(__longjmp_chk, jmp_buf)

/* Two processes would go on with one run. */
static void before_fork(void)
{
    if (!host_forks && self.seat >= 0)
        end_at("a driver forks, and a second process would go on with the run");
}

/* A process for runs. */
int fork_run(void)
{
    host_forks = true;
    const pid_t pid = fork();
    host_forks = false;
    return pid;
}

void watch_for_jumps_and_forks(void)
{
    pthread_atfork(before_fork, NULL, NULL);
    is_watching = true;
}

#if !defined(__SANITIZE_THREAD__) && !defined(__SANITIZE_ADDRESS__)
static bool is_hosts(int number)
{
    return is_watching && (number == SIGSEGV || number == SIGBUS || number == SIGFPE || number == SIGILL || number == SIGABRT ||
                           number == SIGTERM);
}

/* A crash ends with words whatever a driver sets: the host's handler stays. A program that is linked statically has no next
   function of a name, and the C library has this one under two. */
extern int __sigaction(int number, const struct sigaction *action, struct sigaction *before);

int sigaction(int number, const struct sigaction *action, struct sigaction *before)
{
    return __sigaction(number, is_hosts(number) ? NULL : action, before);
}

void (*signal(int number, void (*handler)(int)))(int)
{
    struct sigaction before, now = { .sa_handler = handler, .sa_flags = SA_RESTART };
    return sigaction(number, &now, &before) ? SIG_ERR : before.sa_handler;
}
#endif
