/* forking.c: the processes of an exploration: one for each choice, or some that go back to snapshots. */
#include "explore/snapshots.h"
#include "record/record.h"
#include <errno.h>
#include <sys/mman.h>
#include <sys/prctl.h>
#include <sys/time.h>
#include <sys/wait.h>
#include <unistd.h>

enum { MOST_CHILDREN = 64, MOST_SECONDS = 10 };
static bool has_turn; /* it counts among those that run; else the one that forked it does, and waits */

/* Processes that this one forked and that run beside it. */
static struct { pid_t pid; Deviation last; int cost; } children[MOST_CHILDREN];
static int n_children;
static struct { pid_t pids[MOST_CHILDREN]; int n; } *helpers; /* of a process that goes back: kept apart */

/* A run that takes more time of the processor is ended by SIGVTALRM. */
static void limit_time(void)
{
    const struct itimerval limit = { .it_value = { .tv_sec = MOST_SECONDS } };
    setitimer(ITIMER_VIRTUAL, &limit, NULL);
}

static bool take_turn(void)
{
    int busy = shared->busy;
    while (busy < shared->processes)
        if (atomic_compare_exchange_weak(&shared->busy, &busy, busy + 1))
            return true;
    return false;
}

static void judge_child(int status, const Deviation *last, int cost)
{
    char why[120];
    if (!WIFSIGNALED(status) || shared->order != GOES_ON)
        return;
    Schedule s = followed;
    if (s.n < MAX_DEVIATIONS)
        s.at[s.n++] = *last;
    snprintf(why, sizeof why, WTERMSIG(status) == SIGVTALRM ? "it runs for more than %d seconds" :
             "it crashes (signal %d)", WTERMSIG(status) == SIGVTALRM ? MOST_SECONDS : WTERMSIG(status));
    note_failure(&s, cost, why);
}

static void wait_for_process(pid_t pid, Deviation last, int cost)
{
    int status = 0;
    while (waitpid(pid, &status, 0) < 0 && errno == EINTR)
        ;
    judge_child(status, &last, cost);
}

/* At the end of a process. Another one may run meanwhile. */
static void wait_for_processes(void)
{
    if (n_children || has_turn)
        shared->busy--;
    for (int i = 0; i < n_children; i++)
        wait_for_process(children[i].pid, children[i].last, children[i].cost);
    if (n_children && !has_turn)
        shared->busy++;
}

/* A run has ended. Processes that this one forked end before it. */
void end_exploring_run(void)
{
    is_exploring = false;
    if (!by_snapshots)
        wait_for_processes();
}

static void begin_process(bool beside, int cost)
{
    prctl(PR_SET_PDEATHSIG, SIGKILL);
    if (!by_snapshots)
        limit_time();
    n_children = 0;
    has_turn = beside;
    begin_at_cost(cost);
}

/* Returns true in the new process. */
static bool fork_for(Deviation last, int cost)
{
    const bool beside = n_children < MOST_CHILDREN && take_turn();
    const pid_t pid = fork_run();
    if (!pid) {
        begin_process(beside, cost);
        return true;
    }
    if (pid < 0) {
        shared->order = TO_STOP;
        end_run(3);
    }
    if (beside) {
        children[n_children].pid = pid;
        children[n_children].last = last;
        children[n_children++].cost = cost;
    } else
        wait_for_process(pid, last, cost);
    return false;
}

/* All but the usual one in processes of their own. Returns which of them this process goes on with, or a new one. */
int fork_for_each(const ToMake *all, int n, int usual, uint32_t step)
{
    for (int i = 0; i < n; i++)
        if (all[i].choice == usual || fork_for((Deviation){ step, all[i].choice }, all[i].cost))
            return i;
    end_exploring_run();
    end_process(0);
}

void forget_helpers(void)
{
    if (!helpers)
        helpers = kept_apart(sizeof *helpers);
    helpers->n = 0;
}

/* Waits for those that have ended, or for all. */
static void wait_for_helpers(bool all)
{
    int kept = 0, status;
    for (int i = 0; i < helpers->n; i++) {
        pid_t ended;
        while ((ended = waitpid(helpers->pids[i], &status, all ? 0 : WNOHANG)) < 0 && errno == EINTR)
            ;
        if (!ended)
            helpers->pids[kept++] = helpers->pids[i];
    }
    helpers->n = kept;
}

/* Where a processor is idle, another process makes what is left at the eldest snapshot: that is the most. */
void share_out(void)
{
    if (shared->processes < 2 || !may_share_out())
        return;
    if (helpers->n == MOST_CHILDREN)
        wait_for_helpers(false);
    if (helpers->n == MOST_CHILDREN || !take_turn())
        return;
    shared->n_begun++;
    const pid_t pid = fork_run();
    if (!pid)
        take_eldest();
    if (pid < 0) { /* then this one makes it */
        shared->n_begun--;
        shared->busy--;
        return;
    }
    leave_eldest();
    helpers->pids[helpers->n++] = pid;
}

/* A process that goes back has a turn all the time. */
void end_process_of_snapshots(void)
{
    shared->busy--;
    wait_for_helpers(true);
    shared->n_ended += is_clean_end();
}

/* A write to the program's and the libraries' own pages, each the same byte again: only what has such a page has its
   mappings copied by fork, and needn't be mapped anew by each process. */
static void own_mappings(void)
{
    unsigned long from, to;
    char how[5], line[600];
    FILE *maps = fopen("/proc/self/maps", "r");
    while (maps && fgets(line, sizeof line, maps))
        if (sscanf(line, "%lx-%lx %4s", &from, &to, how) == 3 && strchr(line, '/') && how[1] == '-' && how[3] == 'p' &&
            how[0] == 'r') {
            const int is_code = how[2] == 'x' ? PROT_EXEC : 0;
            if (mprotect((void *)from, to - from, PROT_READ | PROT_WRITE | is_code))
                continue;
            *(volatile char *)from = *(volatile char *)from;
            mprotect((void *)from, to - from, PROT_READ | is_code);
        }
    if (maps)
        fclose(maps);
}

/* In the first process of a round. */
void begin_exploring(void)
{
    own_mappings();
    if (!shared->forks && !shared->only_first) {
        shared->n_begun++;
        begin_snapshots();
    }
    is_exploring = true;
    begin_process(true, 0);
}
