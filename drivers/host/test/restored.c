/* restored.c: whether a device that had no power, or was asked to stop or to go, is as before once that is over: it answers a
   write, a read and each control as it did, and ends those that came meanwhile. */
#include "test/requests.h"
#include "ke/ke.h"
#include "mm/mm.h"
#include "record/record.h"
#include "rules/rules.h"

enum { MOST_ASKED = 18, LENGTH = 16, MOMENT = 10, TIMES = 3 }; /* milliseconds */

/* What is asked for, what it was answered before, and where; and whether it ended by itself each time. `meanwhile`: the same
   request, which comes while the device may not be used. */
typedef struct { What what; BOOLEAN ends, is_sent; NTSTATUS status; WDM_SITE at; Callers by; Request meanwhile; } Compared;
static Compared all[MOST_ASKED];
static int n_all;

static void keep_place(Compared *c, PIRP irp)
{
    Call call;
    enter_quietly(&call, "the answer is kept", (WDM_SITE){ 0 });
    const Packet *p = find(irp);
    c->at = p->sites.completed;
    c->by = p->completers;
    leave_host();
}

/* Asks for it, and gives it a moment. Returns whether it ends by itself. */
static BOOLEAN ask_for(PDEVICE_OBJECT top, Compared *c)
{
    LARGE_INTEGER limit = { .QuadPart = -10000LL * MOMENT };
    Request r;
    c->status = STATUS_PENDING;
    if (!start_request(&r, top, c->what, KEPT))
        return FALSE;
    KeWaitForSingleObject(&r.done, Executive, KernelMode, FALSE, &limit);
    const BOOLEAN ends = !is_held(&r);
    if (ends) {
        c->status = r.result.Status;
        keep_place(c, r.irp);
    }
    end_request(&r, 0);
    return ends;
}

/* One that didn't end by itself once may wait for what doesn't come again: it isn't compared any more. */
static void add(What what)
{
    Compared *c = &all[n_all++];
    const BOOLEAN is_known = c->what.major == what.major && c->what.code == what.code && c->what.length == what.length;
    *c = (Compared){ .what = what, .ends = !is_known || c->ends };
}

void keep_answers(PDEVICE_OBJECT top)
{
    n_all = 0;
    add(transfer(IRP_MJ_WRITE, LENGTH));
    add(transfer(IRP_MJ_READ, LENGTH));
    for (int i = 0; i < n_controls && n_all < MOST_ASKED; i++)
        add(control(i, LENGTH));
    for (int i = 0; i < 2 * n_all; i++)
        if (all[i % n_all].ends)
            all[i % n_all].ends = ask_for(top, &all[i % n_all]);
}

void ask_meanwhile(PDEVICE_OBJECT top)
{
    for (int i = 0; i < n_all; i++)
        all[i].is_sent = start_request(&all[i].meanwhile, top, all[i].what, PLAIN);
}

/* An answer of a device that isn't started, or goes. */
static bool is_away(NTSTATUS status)
{
    return status == STATUS_DELETE_PENDING || status == STATUS_DEVICE_NOT_READY || status == STATUS_NO_SUCH_DEVICE ||
        status == STATUS_DEVICE_DOES_NOT_EXIST || status == STATUS_INVALID_DEVICE_STATE || status == STATUS_DEVICE_REMOVED ||
        status == STATUS_DEVICE_NOT_CONNECTED || status == STATUS_DEVICE_OFF_LINE;
}

static void name_of(What what, char *text, size_t size)
{
    char code[24] = "";
    if (is_control(what.major))
        snprintf(code, sizeof code, " %#x", what.code);
    snprintf(text, size, "%s%s", major_name(what.major), code);
}

static void tell_away(const Compared *was, const Compared *is, const char *over)
{
    Call c;
    char name[80];
    name_of(was->what, name, sizeof name);
    enter_quietly(&c, over, (WDM_SITE){ 0 });
    broken_at("NotRestored", "IoCompleteRequest", is->at, "%s is answered with %#x after %s, at %s, and was with %#x before",
              name, (unsigned)is->status, over, place_with_callers(is->at, &is->by), (unsigned)was->status);
    leave_host();
}

/* What ended by itself before, came meanwhile, and is held by a driver of the stack once nothing else goes on. The device may
   need other requests first, as where a read waits for what is written. */
static void check_held(PDEVICE_OBJECT top, const char *over)
{
    BOOLEAN is_any = FALSE;
    let_bottom_finish();
    for (int i = 0; i < n_all; i++)
        is_any |= all[i].is_sent && all[i].ends && is_held(&all[i].meanwhile) && WdmIsKept(all[i].meanwhile.irp);
    for (int i = 0; is_any && i < TIMES * n_all; i++)
        make_request(top, all[i % n_all].what, PLAIN, MOMENT);
    for (int i = 0; is_any && i < n_all; i++)
        if (all[i].is_sent && all[i].ends && is_held(&all[i].meanwhile))
            WdmTellHeld(all[i].meanwhile.irp, over);
}

/* A device may need a moment: it is asked again. What is held where it was answered is told, too. */
static void ask_again(PDEVICE_OBJECT top, const Compared *before, const char *over)
{
    LARGE_INTEGER moment = { .QuadPart = -10000LL * MOMENT };
    Compared now = *before;
    Request r;
    if (!before->ends || (ask_for(top, &now) && !is_away(now.status)))
        return;
    KeDelayExecutionThread(KernelMode, FALSE, &moment);
    if (!ask_for(top, &now) && start_request(&r, top, before->what, PLAIN)) {
        if (is_held(&r))
            WdmTellHeld(r.irp, over);
        end_request(&r, 0);
    } else if (NT_SUCCESS(before->status) && is_away(now.status))
        tell_away(before, &now, over);
}

void compare_answers(PDEVICE_OBJECT top, const char *over)
{
    check_held(top, over);
    for (int i = 0, wait = PATIENT; i < n_all; i++)
        if (all[i].is_sent) {
            if (is_held(&all[i].meanwhile) && all[i].what.major != IRP_MJ_READ)
                wait = 0;
            end_request(&all[i].meanwhile, all[i].what.major == IRP_MJ_READ ? PATIENT : wait);
            all[i].is_sent = FALSE;
        }
    for (int i = 0; i < n_all; i++)
        ask_again(top, &all[i], over);
}
