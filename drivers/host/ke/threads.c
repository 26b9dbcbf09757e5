/* threads.c: the host's lock, seats, whose code a thread runs, and threads that drivers make. */
#include "ke/ke.h"
#include "explore/explore.h"
#include "io/io.h"
#include "mm/mm.h"
#include "ob/ob.h"
#include "record/record.h"
#include "rules/rules.h"
#include "test/test.h"

pthread_mutex_t host_lock = PTHREAD_MUTEX_INITIALIZER;
Condition host_settled = { &host_lock, PTHREAD_COND_INITIALIZER };
unsigned long host_activity;
_Atomic int packets_lost;
int n_seats;
_Thread_local Self self = { .seat = -1, .driver = NOBODY, .device = NOBODY };

struct _KTHREAD {
    KEVENT ended;
    PKSTART_ROUTINE start;
    PVOID context;
    int driver;
    WDM_SITE made;
    struct _KTHREAD *next;
};

/* A thread has a seat from its first call until it ends; then another thread may get it. */
static bool seat_taken[MAX_SEATS];
static pthread_key_t seat_key;
static pthread_once_t seat_once = PTHREAD_ONCE_INIT;

static void leave_seat(void *number)
{
    pthread_mutex_lock(&host_lock);
    thread_is_gone((int)(intptr_t)number - 1);
    seat_taken[(intptr_t)number - 1] = false;
    pthread_mutex_unlock(&host_lock);
}

static void make_seats(void) { pthread_key_create(&seat_key, leave_seat); }

static void take_seat(void)
{
    int seat = by_schedule ? current_thread() : 0;
    pthread_once(&seat_once, make_seats);
    while (seat < MAX_SEATS && seat_taken[seat])
        seat++;
    if (seat == MAX_SEATS)
        reach_limit("more than 64 threads at once");
    seat_taken[seat] = true;
    self.seat = seat;
    if (!by_schedule)
        pthread_setspecific(seat_key, (void *)(intptr_t)(seat + 1));
    if (seat >= n_seats)
        n_seats = seat + 1;
    watch_thread();
}

/* A thread ends under a schedule. */
void give_seat_back(void)
{
    if (self.seat >= 0)
        seat_taken[self.seat] = false;
}

/* Whether another thread may go on before this call does. Calls that only prepare something have nothing to meet. */
static bool is_point(const char *name)
{
    static const char *const plain[] = { "IoGetNext", "KeInitialize", "IoAllocateIrp", "IoCreateDevice", "IoAttach",
                                         "IoInitialize", "WdmLoad", "WdmBuild", "IoBuild", "IoSetCompletionRoutine",
                                         "IoCopyCurrent", "IoSkipCurrent", "PsCreate", "KeReleaseSpin",
                                         "IoReleaseCancel", "a work item", "the clock" };
    for (size_t i = 0; i < sizeof plain / sizeof *plain; i++)
        if (!strncmp(name, plain[i], strlen(plain[i])))
            return false;
    return true;
}

/* Begins a call of the host on this thread. The call's frame of the driver remembers where it was made. */
void enter_host(Call *c, const char *name, WDM_SITE at)
{
    if (!by_schedule || is_point(name))
        point(name, at);
    cancel_at(name, at);
    enter_quietly(c, name, at);
}

/* The same where the thread was at a point already. */
void enter_quietly(Call *c, const char *name, WDM_SITE at)
{
    pthread_mutex_lock(&host_lock);
    __atomic_add_fetch(&host_activity, 1, __ATOMIC_SEQ_CST);
    if (self.seat < 0)
        take_seat();
    tell_jump();
    *c = (Call){ .up = self.calls, .name = name, .at = at, .is_entered = true };
    self.calls = c;
    self.has_host = true;
    self.last = at;
    self.last_call = name;
    check_devices();
    remember_act(name);
    if (self.frames && at.file) {
        self.frames->last = at;
        self.frames->last_call = name;
    }
    tell_block_touches();
    if (self.opened)
        watch_again();
    check_call(c);
}

void leave_host(void)
{
    self.calls = self.calls->up;
    self.has_host = false;
    pthread_mutex_unlock(&host_lock);
}

/* Takes G for a call that meets others in one object of the host's, and whose place isn't kept. */
void hold_host(const char *call, const void *object, Touch how)
{
    point(call, (WDM_SITE){ 0 });
    pthread_mutex_lock(&host_lock);
    remember_act(call);
    touch(object, how);
}

void let_driver_run(void)
{
    self.has_host = false;
    pthread_mutex_unlock(&host_lock);
}

void driver_came_back(void)
{
    tell_jump();
    const Frame *f = self.frames;
    point("the return to the host", self.calls ? self.calls->at : (WDM_SITE){ 0 });
    pthread_mutex_lock(&host_lock);
    self.has_host = true;
    if (f && f->p) /* what the routine leaves undecided is decided now; else somebody has by now */
        touch(f->p->irp, f->settled ? READS : WRITES);
    __atomic_add_fetch(&host_activity, 1, __ATOMIC_SEQ_CST);
}

void enter_frame(Frame *f)
{
    static uint64_t n_frames;
    f->number = __atomic_add_fetch(&n_frames, 1, __ATOMIC_SEQ_CST);
    f->up = self.frames;
    f->thread = this_thread();
    self.frames = f;
    f->driver = self.driver;
    enter_level(f);
    if (f->device >= 0) {
        touch(&devices[f->device].running, MEETS);
        devices[f->device].running++;
    }
}

void leave_frame(void)
{
    check_blocks(self.frames);
    keep_lock_ways(self.frames);
    leave_level(self.frames);
    if (self.frames->device >= 0) {
        touch(&devices[self.frames->device].running, MEETS);
        devices[self.frames->device].running--;
    }
    self.frames = self.frames->up;
}

/* Which driver a source file is of: the one whose devices it creates. One that creates several drivers' is nobody's. */
static struct { const char *file; int driver; } files[128];
static int n_files;

void learn_file(const char *file, int driver)
{
    if (!file)
        return;
    for (int i = 0; i < n_files; i++)
        if (!strcmp(files[i].file, file)) {
            if (files[i].driver != driver)
                files[i].driver = NOBODY;
            return;
        }
    if (n_files < 128) {
        files[n_files].file = file;
        files[n_files++].driver = driver;
    }
}

/* Which source files have a test in them: those that call what wdm_test.h has. One may be a driver's as well. */
static const char *test_files[128];
static int n_test_files;

bool has_test(const char *file)
{
    for (int i = 0; file && i < n_test_files; i++)
        if (!strcmp(test_files[i], file))
            return true;
    return false;
}

void learn_test(const char *file)
{
    pthread_mutex_lock(&host_lock);
    if (file && n_test_files < 128 && !has_test(file))
        test_files[n_test_files++] = file;
    pthread_mutex_unlock(&host_lock);
}

int driver_of_file(const char *file)
{
    for (int i = 0; file && i < n_files; i++)
        if (!strcmp(files[i].file, file))
            return files[i].driver;
    return NOBODY;
}

/* Whose code makes this call: by its file; else by the innermost routine that runs; else by who made the thread. */
int calling_driver(void)
{
    const int by_file = driver_of_file(self.calls ? self.calls->at.file : NULL);
    return by_file != NOBODY ? by_file : running_driver();
}

/* The same without the file: it differs where a driver calls a function that another one exports. */
int running_driver(void)
{
    const Frame *f = self.frames;
    if (f && f->device >= 0)
        return devices[f->device].raw->DriverObject->HostNumber;
    return f && f->kind == ROUTINE ? f->p->allocator : self.driver;
}

pthread_t this_thread(void) { return by_schedule ? (pthread_t)current_thread() + 1 : pthread_self(); }

void end_thread(void *result)
{
    if (by_schedule)
        end_by_schedule(result);
    pthread_exit(result);
}

int start_thread(void *(*run)(void *), void *context, const char *kind, void *fn, const Wait *first)
{
    pthread_t thread;
    if (by_schedule) {
        let_thread_go(start_by_schedule(run, context, kind, fn, first));
        return 0;
    }
    pthread_attr_t attributes;
    pthread_attr_init(&attributes);
    pthread_attr_setdetachstate(&attributes, PTHREAD_CREATE_DETACHED);
    const int failed = pthread_create(&thread, &attributes, run, context);
    pthread_attr_destroy(&attributes);
    return failed;
}

static struct _KTHREAD *threads; /* of drivers: their objects stay until the end of the run */
enum { THREAD_OBJECT = 6 };      /* as Windows numbers it */

static void begin_thread_object(struct _KTHREAD *t)
{
    WdmKeInitializeEvent(&t->ended, NotificationEvent, FALSE);
    t->ended.Header.Type = THREAD_OBJECT;
}

static bool are_over(const void *driver)
{
    for (struct _KTHREAD *t = threads; t; t = t->next)
        if (t->driver == (int)(intptr_t)driver && !KeReadStateEvent(&t->ended))
            return false;
    return true;
}

/* A thread that only returns is given a moment. */
void tell_threads_left(int driver)
{
    const Wait w = { .ready = are_over, .context = (void *)(intptr_t)driver, .on = &host_settled, .seconds = 1,
                     .patience = GIVES_IN, .what = "DriverUnload" };
    if (wait_for(&w) == READY)
        return;
    for (struct _KTHREAD *t = threads; t; t = t->next)
        if (t->driver == driver && !KeReadStateEvent(&t->ended))
            left_behind("the thread", "PsCreateSystemThread", t->made);
}

static void *run_thread(void *context)
{
    struct _KTHREAD *t = context;
    Call c;
    enter_host(&c, "a thread of a driver", (WDM_SITE){ 0 });
    leave_host();
    self.driver = t->driver;
    self.is_driver = true;
    self.thread = t;
    t->start(t->context);
    check_thread_end();
    set_event(&t->ended);
    return NULL;
}

NTSTATUS WdmPsCreateSystemThread(PHANDLE Handle, PKSTART_ROUTINE Start, PVOID Context, WDM_SITE at)
{
    Call c;
    enter_host(&c, "PsCreateSystemThread", at);
    struct _KTHREAD *t = host_memory(sizeof *t);
    if (!t)
        give_up("out of memory");
    begin_thread_object(t);
    t->start = Start;
    t->context = Context;
    t->driver = calling_driver();
    t->made = at;
    t->next = threads;
    threads = t;
    const bool is_refused = memory_is_refused(c.name, at);
    leave_host();
    *Handle = is_refused ? NULL : new_handle(*PsThreadType, t);
    const bool failed = !*Handle || start_thread(run_thread, t, "system thread", (void *)Start, NULL);
    if (failed)
        set_event(&t->ended);
    return failed ? STATUS_INSUFFICIENT_RESOURCES : STATUS_SUCCESS;
}

NTSTATUS PsTerminateSystemThread(NTSTATUS Status)
{
    if (!self.thread || !self.is_driver)
        return STATUS_INVALID_PARAMETER;
    check_thread_end();
    set_event(&self.thread->ended);
    end_thread((void *)(intptr_t)Status);
}

PKTHREAD KeGetCurrentThread(VOID)
{
    if (!self.thread) {
        self.thread = host_memory(sizeof *self.thread);
        if (self.thread)
            begin_thread_object(self.thread);
    }
    return self.thread;
}

KPRIORITY KeSetPriorityThread(PKTHREAD Thread, KPRIORITY Priority)
{
    (void)Thread, (void)Priority;
    return 8;
}

bool is_thread_of_driver(const void *object)
{
    for (const struct _KTHREAD *t = threads; t; t = t->next)
        if (t == object)
            return true;
    return false;
}

/* A thread that a driver made, until it ends, or the one that asks. */
NTSTATUS WdmPsLookupThread(HANDLE Number, PETHREAD *Thread, WDM_SITE at)
{
    Call c;
    enter_host(&c, "PsLookupThreadByThreadId", at);
    PETHREAD found = (PETHREAD)Number;
    const bool is_there = found && (found == self.thread || (is_thread_of_driver(found) && !found->ended.Header.SignalState));
    leave_host();
    if (!is_there)
        return STATUS_INVALID_CID;
    *Thread = found;
    WdmObReferenceObject(found, at);
    return STATUS_SUCCESS;
}

/* One that a driver made, or that runs routines of drivers: not one of a program. */
BOOLEAN PsIsSystemThread(PETHREAD Thread) { return Thread->start || (Thread == self.thread && self.is_driver); }
