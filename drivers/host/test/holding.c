/* holding.c: requests of the host's own test that are on their way, or held by drivers, while something happens to their
   file or their device: a close, a sleep, a stop, a removal. */
#include "test/bottom_answers.h"
#include "test/requests.h"
#include <pthread.h>

enum { MOST_FOR_TIMERS = 300, MAX_CHILDREN = 16, MAX_ASKED = 256 + 64, CROWD = 20 };
static const char held_none[] = "each request was completed at once";
static const char no_second[] = "the second IRP_MJ_CREATE fails", no_file[] = "IRP_MJ_CREATE fails";
static const char needs_file[] = "a driver keeps a context in files, so each request needs one";

/* What is asked for and not cancelled: what each request asks for, and whether it was held when it was sent. */
typedef struct { Request request[MAX_ASKED]; What what[MAX_ASKED]; BOOLEAN was_held[MAX_ASKED]; How how; int n; } Asked;

Opened open_it(PDEVICE_OBJECT top)
{
    PFILE_OBJECT file = WdmOpenFile(top);
    made_if(SITUATION_OPENED, file != NULL, no_file);
    files_have_context = file && (file->FsContext || file->FsContext2);
    return (Opened){ top, file, files_have_context, FALSE };
}

/* The last handle is closed; requests of the file may be there still. Where IRP_MJ_CREATE fails, as where no driver has a
   dispatch for it, what was sent had a file all the same. */
static void clean_up(Opened *o)
{
    if (o->is_cleaned)
        return;
    WdmUseFile(o->file);
    WdmSend(o->top, IRP_MJ_CLEANUP, 0, 0);
    WdmUseFile(NULL);
    o->is_cleaned = TRUE;
}

void close_it(Opened o)
{
    clean_up(&o);
    if (o.file)
        WdmCloseFile(o.file);
    else
        WdmSend(o.top, IRP_MJ_CLOSE, 0, 0);
}

/* What was passed down comes back. What is left is held by the drivers. */
void let_bottom_finish(void)
{
    LARGE_INTEGER moment = { .QuadPart = -10000 };
    for (int i = 0; i < PATIENT && bottom && bottom_holds(bottom); i++)
        KeDelayExecutionThread(KernelMode, FALSE, &moment);
}

static void ask(Asked *a, PDEVICE_OBJECT top, What what)
{
    Request *const r = &a->request[a->n];
    if (a->n == MAX_ASKED || !start_request(r, top, what, a->how))
        return;
    let_bottom_finish();
    a->was_held[a->n] = is_held(r);
    a->what[a->n++] = what;
}

static BOOLEAN is_last_read_held(Asked *a)
{
    return a->n && a->what[a->n - 1].major == IRP_MJ_READ && is_held(&a->request[a->n - 1]);
}

/* Until what was written is read, and a read waits for more. */
static void read_until_held(Asked *a, PDEVICE_OBJECT top)
{
    for (int i = 0; i < MOST_READS && !is_last_read_held(a); i++)
        ask(a, top, transfer(IRP_MJ_READ, i ? 4096 : 16));
}

/* A driver may end one request when another one comes: what it held is asked for again, so that it holds one at the end. */
static void ask_all(Asked *a, PDEVICE_OBJECT top, How how)
{
    a->n = 0;
    a->how = how;
    ask(a, top, transfer(IRP_MJ_WRITE, 16));
    for (int i = 0; i < n_controls; i++)
        ask(a, top, control(i, 16));
    read_until_held(a, top);
    const int n = a->n;
    for (int i = 0; i < n; i++)
        if (a->was_held[i] && !is_held(&a->request[i]))
            ask(a, top, a->what[i]);
}

static void end_asked(Asked *a, int milliseconds)
{
    for (int i = 0; i < a->n; i++)
        end_request(&a->request[i], milliseconds);
    a->n = 0;
}

static BOOLEAN is_any_held(Asked *a)
{
    for (int i = 0; i < a->n; i++)
        if (is_held(&a->request[i]))
            return TRUE;
    return FALSE;
}

static BOOLEAN is_control_held(Asked *a)
{
    for (int i = 0; i < a->n; i++)
        if (is_control(a->what[i].major) && is_held(&a->request[i]))
            return TRUE;
    return FALSE;
}

/* A read and each control of a program, of which some may end others: which of them are held. */
static void find_holding(Asked *a, PDEVICE_OBJECT top)
{
    read_until_held(a, top);
    for (int i = 0; i < n_controls; i++)
        if (controls[i].major == IRP_MJ_DEVICE_CONTROL)
            ask(a, top, control(i, 16));
    for (int i = 0; i < a->n; i++)
        end_request(&a->request[i], 0);
}

static void hold_again(Asked *a, PDEVICE_OBJECT top, const Asked *known)
{
    for (int i = 0; i < known->n; i++)
        if (known->was_held[i])
            ask(a, top, known->what[i]);
}

/* Two programs have it open, each with a read and each control on its way. The second one closes its handle, and so its own end;
   the other one's are there until they are cancelled. */
void use_two_files(PDEVICE_OBJECT top, Opened first)
{
    Asked known = { .n = 0, .how = PLAIN }, mine = { .n = 0, .how = PLAIN }, other = { .n = 0, .how = PLAIN };
    Opened second = open_it(top);
    made_if(SITUATION_TWO_FILES, first.file && second.file, no_second);
    if (!first.file || !second.file) {
        const Situation needing[] = { SITUATION_CLEANUP_HELD, SITUATION_CLEANUP_OTHER, SITUATION_CONTROL_CLEANUP };
        for (size_t i = 0; i < ARRAYSIZE(needing); i++)
            not_made(needing[i], first.file ? no_second : no_file);
        return;
    }
    WdmUseFile(first.file);
    find_holding(&known, top);
    hold_again(&mine, top, &known);
    WdmUseFile(second.file);
    hold_again(&other, top, &known);
    made_if(SITUATION_CLEANUP_HELD, is_any_held(&other), held_none);
    made_if(SITUATION_CLEANUP_OTHER, is_any_held(&mine), held_none);
    made_if(SITUATION_CONTROL_CLEANUP, is_control_held(&other), "each control was completed at once");
    clean_up(&second);
    end_asked(&other, SHORTLY);
    close_it(second);
    end_asked(&mine, SHORTLY);
}

/* One request comes again and again while a driver holds it, until the driver refuses one. */
static void crowd(PDEVICE_OBJECT top, What what)
{
    Asked asked = { .n = 0, .how = PLAIN };
    ask(&asked, top, what);
    const BOOLEAN holds = asked.n && is_held(&asked.request[0]);
    for (int n = 1; holds && n < CROWD && asked.n == n && is_held(&asked.request[n - 1]); n++)
        ask(&asked, top, what);
    made_if(SITUATION_CROWD, holds, held_none);
    end_asked(&asked, 0);
}

void use_crowd(PDEVICE_OBJECT top)
{
    crowd(top, transfer(IRP_MJ_READ, 16));
    crowd(top, transfer(IRP_MJ_WRITE, 16));
    for (int i = 0; i < n_controls; i++)
        crowd(top, control(i, 16));
}

/* The system falls asleep and wakes while a read is under way: children sleep first, and wake last. */
void sleep_and_wake(PDEVICE_OBJECT top)
{
    PDEVICE_OBJECT order[MAX_CHILDREN + 1];
    Request read;
    const BOOLEAN reads = start_request(&read, top, transfer(IRP_MJ_READ, 16), PLAIN);
    ULONG n = WdmGetChildren(bottom, order, MAX_CHILDREN), asked = 0;
    made_with(top, IRP_MJ_READ, SITUATION_READ_SLEEPS, reads && is_held(&read) ? NULL : held_none);
    for (ULONG i = 0; i < n; i++)
        order[i] = IoGetAttachedDevice(order[i]);
    order[n++] = top;
    while (asked < n && NT_SUCCESS(set_system_power(order[asked], IRP_MN_QUERY_POWER, PowerSystemSleeping3)))
        asked++;
    made_if(SITUATION_SLEPT, asked == n, "IRP_MN_QUERY_POWER fails");
    for (ULONG i = 0; asked == n && i < n; i++)
        set_system_power(order[i], IRP_MN_SET_POWER, PowerSystemSleeping3);
    while (n)
        set_system_power(order[--n], IRP_MN_SET_POWER, PowerSystemWorking);
    if (reads)
        end_request(&read, PATIENT);
}

/* Timers that are armed then go off. */
static void let_timers_go_off(void)
{
    LARGE_INTEGER moment = { .QuadPart = -10000 };
    const unsigned long rung = timers_rung_asleep();
    const ULONG left = next_timer_asleep();
    for (ULONG i = 0; left && left <= MOST_FOR_TIMERS && i < 10 * MOST_FOR_TIMERS && timers_rung_asleep() == rung; i++)
        KeDelayExecutionThread(KernelMode, FALSE, &moment);
    made_if(SITUATION_TIME_IN_D3, left <= MOST_FOR_TIMERS, "each timer that is armed then is due later");
}

/* Requests come while the device has no power. */
void use_in_d3(PDEVICE_OBJECT top)
{
    keep_answers(top);
    if (!NT_SUCCESS(set_power(top, IRP_MN_SET_POWER, PowerDeviceD3)))
        return;
    ask_meanwhile(top);
    made_with(top, IRP_MJ_READ, SITUATION_READ_IN_D3, NULL);
    let_timers_go_off();
    set_power(top, IRP_MN_SET_POWER, PowerDeviceD0);
    compare_answers(top, "IRP_MN_SET_POWER to PowerDeviceD0");
}

/* A device is asked whether it may stop or go, requests come, and it goes on. */
static void ask_and_call_off(PDEVICE_OBJECT top, UCHAR query, UCHAR cancel, Situation asked, Situation meanwhile)
{
    keep_answers(top);
    const BOOLEAN agrees = NT_SUCCESS(WdmSend(top, IRP_MJ_PNP, query, 0));
    ask_meanwhile(top);
    made(asked);
    made_with(top, IRP_MJ_READ, meanwhile, agrees ? NULL : "a driver doesn't agree");
    WdmSend(top, IRP_MJ_PNP, cancel, 0);
    compare_answers(top, cancel == IRP_MN_CANCEL_STOP_DEVICE ? "IRP_MN_CANCEL_STOP_DEVICE" : "IRP_MN_CANCEL_REMOVE_DEVICE");
}

/* It stops and starts, with its children, while requests are on their way. */
void stop_in_use(PDEVICE_OBJECT top)
{
    Asked asked = { .n = 0, .how = PLAIN };
    ask_and_call_off(top, IRP_MN_QUERY_STOP_DEVICE, IRP_MN_CANCEL_STOP_DEVICE, SITUATION_STOP_ASKED,
                     SITUATION_READ_STOPPING);
    read_until_held(&asked, top);
    made_if(SITUATION_HELD_STOP, is_any_held(&asked), held_none);
    WdmStopAndStart(bottom);
    made(SITUATION_STOPPED_AGAIN);
    end_asked(&asked, PATIENT);
    compare_answers(top, "IRP_MN_START_DEVICE");
    ask_and_call_off(top, IRP_MN_QUERY_REMOVE_DEVICE, IRP_MN_CANCEL_REMOVE_DEVICE, SITUATION_REMOVE_ASKED,
                     SITUATION_READ_REMOVING);
}

/* What the drivers hold by now is told. */
static void tell_kept(Asked *a)
{
    let_bottom_finish();
    for (int i = 0; i < a->n; i++)
        if (is_held(&a->request[i]))
            WdmTellKept(a->request[i].irp);
}

/* The device is gone while requests are under way; who has it open closes it, and only then it is removed. A driver may end
   what it holds in the CLEANUP. What drivers elsewhere have asked for, without a file, is there until the removal; where
   drivers keep a context in files, what programs have asked for is there until that is closed. Where a driver holds that, no write comes that may end it. */
void remove_by_surprise(PDEVICE_OBJECT top, Opened o)
{
    Asked asked;
    Request read, write;
    ask_all(&asked, top, o.has_context ? PLAIN : WITHOUT_FILE);
    const BOOLEAN holds = is_any_held(&asked);
    const BOOLEAN writes = !holds && start_request(&write, top, transfer(IRP_MJ_WRITE, 16), KEPT);
    const BOOLEAN reads = start_request(&read, top, transfer(IRP_MJ_READ, 16), PLAIN);
    made_if(SITUATION_HELD_SURPRISE, holds, held_none);
    WdmSurprise(bottom);
    made(SITUATION_SURPRISED);
    if (reads)
        end_request(&read, PATIENT);
    if (writes)
        end_request(&write, PATIENT);
    make_request(top, transfer(IRP_MJ_READ, 16), PLAIN, SHORTLY);
    made_with(top, IRP_MJ_READ, SITUATION_READ_GONE, NULL);
    clean_up(&o);
    tell_kept(&asked);
    if (o.has_context)
        end_asked(&asked, PATIENT);
    close_it(o);
    WdmRemove(bottom);
    end_asked(&asked, PATIENT);
}

/* A read that a driver elsewhere sends while IRP_MN_REMOVE_DEVICE is at the bottom. It has a reference to the device until
   its call returns. */
static struct { PDEVICE_OBJECT top; pthread_t thread; KEVENT has_returned; BOOLEAN is_begun, is_sent; Request read; } during;

static void *read_during(void *unused)
{
    during.is_sent = start_request(&during.read, during.top, transfer(IRP_MJ_READ, 16), WITHOUT_FILE);
    ObDereferenceObject(during.top);
    KeSetEvent(&during.has_returned, IO_NO_INCREMENT, FALSE);
    return unused;
}

static void removal_is_below(void)
{
    LARGE_INTEGER limit = { .QuadPart = -10000LL * PATIENT };
    at_removal = NULL;
    made_with(during.top, IRP_MJ_READ, SITUATION_READ_MEETS_REMOVE, NULL);
    ObReferenceObject(during.top);
    during.is_begun = !pthread_create(&during.thread, NULL, read_during, NULL);
    if (during.is_begun)
        KeWaitForSingleObject(&during.has_returned, Executive, KernelMode, FALSE, &limit);
}

/* Where each driver has a remove lock, a read comes meanwhile: it is what such locks are for. */
static void unplug_while_read(PDEVICE_OBJECT top)
{
    during.top = top;
    during.is_begun = during.is_sent = FALSE;
    KeInitializeEvent(&during.has_returned, NotificationEvent, FALSE);
    at_removal = removal_is_below;
    WdmUnplug(bottom, FALSE);
    at_removal = NULL;
    if (during.is_begun)
        pthread_join(during.thread, NULL);
    if (during.is_sent)
        end_request(&during.read, PATIENT);
}

/* Where a device of the host's pends what drivers send, a packet of their own is on its way when the device goes: a timer may
   have to go off first. */
static void await_own_packet(void)
{
    LARGE_INTEGER moment = { .QuadPart = -10000 };
    const BOOLEAN is_pended = options.pend != NULL;
    keep_own_packets(is_pended);
    for (int i = 0; is_pended && i < MOST_FOR_TIMERS && own_packets() == OWN_ENDED; i++)
        KeDelayExecutionThread(KernelMode, FALSE, &moment);
    const OwnPackets own = own_packets();
    if (own == OWN_IN_FLIGHT)
        made(SITUATION_OWN_REMOVED);
    else
        not_there(SITUATION_OWN_REMOVED, own == NO_OWN ? "no driver sends a packet of its own" :
                  "each of them was completed before: run --force-pending");
}

/* Nobody has the device open. What drivers elsewhere have asked for, and is held, is ended by its removal. */
void remove_in_order(PDEVICE_OBJECT top, Opened o, BOOLEAN is_read)
{
    Asked asked = { .n = 0 };
    close_it(o);
    if (!o.has_context)
        ask_all(&asked, top, WITHOUT_FILE);
    set_power(top, IRP_MN_QUERY_POWER, PowerDeviceD3);
    set_power(top, IRP_MN_SET_POWER, PowerDeviceD3);
    const BOOLEAN has_locks = WdmHaveRemoveLocks(top, bottom);
    made_if(SITUATION_HELD_REMOVE, is_any_held(&asked), o.has_context ? needs_file : held_none);
    await_own_packet();
    if (is_read)
        made_with(top, IRP_MJ_READ, SITUATION_READ_MEETS_REMOVE, o.has_context ? needs_file :
                  has_locks ? "IRP_MN_REMOVE_DEVICE isn't passed down" : "not each driver has a remove lock");
    if (is_read && !o.has_context && has_locks)
        unplug_while_read(top);
    else
        WdmUnplug(bottom, FALSE);
    keep_own_packets(FALSE);
    made(SITUATION_REMOVED);
    end_asked(&asked, PATIENT);
}
