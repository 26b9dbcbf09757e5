/* requests.c: one request of the host's own test, and which control codes a stack knows. */
#include "test/bottom_answers.h"
#include "test/requests.h"
#include "explore/explore.h"
#include "ke/ke.h"

enum { MOST_FOR_TIMERS = 300 }; /* milliseconds */
enum { ANSWER_IS_LONGER = 4095 }; /* a control of this length has less input */
enum { MOST_CONTROLS = 256, NOT_KNOWN = CTL_CODE(FILE_DEVICE_UNKNOWN, 0x7ff, METHOD_BUFFERED, FILE_ANY_ACCESS) };
enum { ROOM_INSIDE = 4096 }; /* bytes of an internal control */
Control controls[MOST_CONTROLS];
int n_controls;
BOOLEAN files_have_context;
int number_at = EACH_FOUR;
PDEVICE_OBJECT bottom;

What control(int i, ULONG length)
{
    const Control *c = &controls[i];
    return (What){ c->major, c->major == IRP_MJ_INTERNAL_DEVICE_CONTROL ? ROOM_INSIDE : length, c->code, 0 };
}

BOOLEAN is_control(UCHAR major) { return major == IRP_MJ_DEVICE_CONTROL || major == IRP_MJ_INTERNAL_DEVICE_CONTROL; }
What transfer(UCHAR major, ULONG length) { return (What){ major, length, 0, 0 }; }
BOOLEAN is_held(Request *r) { return KeReadStateEvent(&r->done) == 0; }
static BOOLEAN is_held_by_driver(Request *r) { return is_held(r) && !(bottom && bottom_holds(bottom)); }

void made_with(PDEVICE_OBJECT top, UCHAR major, Situation s, const char *why_not)
{
    if (top->DriverObject->MajorFunction[major])
        made_if(s, !why_not, why_not);
    else
        not_there(s, "the uppermost driver has no dispatch for it");
}

static NTSTATUS keep(PDEVICE_OBJECT device, PIRP irp, PVOID context)
{
    Request *r = context;
    (void)device;
    r->result = irp->IoStatus;
    KeSetEvent(&r->done, IO_NO_INCREMENT, FALSE);
    return STATUS_MORE_PROCESSING_REQUIRED;
}

static void fill_input(PUCHAR input, What what)
{
    const ULONG64 handle = what.number;
    if (number_at >= 0 && number_at + sizeof handle <= what.length)
        memcpy(input + number_at, &handle, sizeof handle);
    for (ULONG i = 0; number_at < 0 && what.number && i < what.length / sizeof(ULONG); i++)
        ((PULONG)input)[i] = number_at == EACH_EIGHT && i % 2 ? 0 : what.number;
}

BOOLEAN start_request(Request *r, PDEVICE_OBJECT top, What what, How how)
{
    const BOOLEAN kept = (how & (KEPT | CANCELLED_AFTER)) != 0;
    r->how = how;
    r->major = what.major;
    r->result = (IO_STATUS_BLOCK){ .Status = STATUS_PENDING };
    KeInitializeEvent(&r->done, NotificationEvent, FALSE);
    r->irp = WdmBuildIrp(top, what.major, 0, what.length, kept ? NULL : &r->result, kept ? NULL : &r->done);
    if (!r->irp)
        return FALSE;
    if (is_control(what.major))
        IoGetNextIrpStackLocation(r->irp)->Parameters.DeviceIoControl.IoControlCode = what.code;
    if (what.number)
        fill_input(r->irp->UserBuffer, what);
    if (what.major == IRP_MJ_DEVICE_CONTROL && what.length == ANSWER_IS_LONGER)
        IoGetNextIrpStackLocation(r->irp)->Parameters.DeviceIoControl.InputBufferLength = 16;
    const BOOLEAN is_internal = what.major == IRP_MJ_INTERNAL_DEVICE_CONTROL;
    if ((how & WITHOUT_FILE) || (is_internal && !files_have_context)) { /* another driver's */
        IoGetNextIrpStackLocation(r->irp)->FileObject = r->irp->Tail.Overlay.OriginalFileObject = NULL;
        r->irp->RequestorMode = KernelMode;
    }
    if (kept)
        IoSetCompletionRoutine(r->irp, keep, r, TRUE, TRUE, TRUE);
    if (how & CANCELLED_BEFORE) {
        IoCancelIrp(r->irp);
        made(SITUATION_CANCELLED_EARLY);
    }
    IoCallDriver(top, r->irp);
    return TRUE;
}

static BOOLEAN is_done_within(Request *r, LONGLONG milliseconds)
{
    LARGE_INTEGER limit = { .QuadPart = -10000LL * milliseconds };
    return KeWaitForSingleObject(&r->done, Executive, KernelMode, FALSE, &limit) != STATUS_TIMEOUT;
}

/* A timer's routine may end the request: the test waits for each such routine once. */
static BOOLEAN is_done_by_timer(Request *r)
{
    const ULONG left = r->how == PLAIN && !by_schedule ? next_new_timer(MOST_FOR_TIMERS) : 0;
    return left && is_done_within(r, left + MOST_FOR_TIMERS);
}

/* The request is on its way, and is cancelled. */
static void tell_cancel(Request *r)
{
    if (r->major == IRP_MJ_READ || r->major == IRP_MJ_WRITE)
        made(r->major == IRP_MJ_READ ? SITUATION_READ_CANCELLED : SITUATION_WRITE_CANCELLED);
    else if (is_control(r->major))
        made(SITUATION_CONTROL_CANCELLED);
    if (is_held_by_driver(r))
        made(SITUATION_HELD_CANCELLED);
}

NTSTATUS end_request(Request *r, int milliseconds)
{
    const BOOLEAN kept = (r->how & (KEPT | CANCELLED_AFTER)) != 0;
    if (!is_done_within(r, r->how & CANCELLED_AT_ONCE ? 0 : milliseconds) && !is_done_by_timer(r)) {
        tell_cancel(r);
        WdmCancelRequest(r->irp);
        KeWaitForSingleObject(&r->done, Executive, KernelMode, FALSE, NULL);
    }
    if (r->how & CANCELLED_AFTER) {
        IoCancelIrp(r->irp);
        made(SITUATION_CANCELLED_LATE);
    }
    if (kept)
        IoFreeIrp(r->irp);
    return r->result.Status;
}

NTSTATUS make_request(PDEVICE_OBJECT top, What what, How how, int milliseconds)
{
    Request r;
    return start_request(&r, top, what, how) ? end_request(&r, milliseconds) : STATUS_INSUFFICIENT_RESOURCES;
}

static NTSTATUS send_power(PDEVICE_OBJECT top, UCHAR minor, POWER_STATE_TYPE type, POWER_STATE state)
{
    IO_STATUS_BLOCK iosb;
    KEVENT ended;
    KeInitializeEvent(&ended, NotificationEvent, FALSE);
    PIRP irp = WdmBuildIrp(top, IRP_MJ_POWER, minor, 0, &iosb, &ended);
    PIO_STACK_LOCATION next = IoGetNextIrpStackLocation(irp);
    next->Parameters.Power.Type = type;
    next->Parameters.Power.State = state;
    if (type == SystemPowerState && state.SystemState != PowerSystemWorking)
        next->Parameters.Power.ShutdownType = PowerActionSleep;
    PoCallDriver(top, irp);
    KeWaitForSingleObject(&ended, Executive, KernelMode, FALSE, NULL);
    return iosb.Status;
}

NTSTATUS set_power(PDEVICE_OBJECT top, UCHAR minor, DEVICE_POWER_STATE state)
{
    return send_power(top, minor, DevicePowerState, (POWER_STATE){ .DeviceState = state });
}

NTSTATUS set_system_power(PDEVICE_OBJECT top, UCHAR minor, SYSTEM_POWER_STATE state)
{
    return send_power(top, minor, SystemPowerState, (POWER_STATE){ .SystemState = state });
}

static void add_control(ULONG code, UCHAR major)
{
    for (int i = 0; i < n_controls; i++)
        if (controls[i].code == code && controls[i].major == major)
            return;
    if (n_controls < MOST_CONTROLS)
        controls[n_controls++] = (Control){ code, major };
}

static const char *next_code(const char *text, ULONG *code)
{
    char *end;
    *code = (ULONG)strtoul(text, &end, 0);
    return *end ? end + 1 : end;
}

void read_controls(void)
{
    ULONG code;
    for (const char *at = options.controls; at && *at;) {
        at = next_code(at, &code);
        add_control(code, IRP_MJ_DEVICE_CONTROL);
    }
}

static NTSTATUS answer_to(PDEVICE_OBJECT top, ULONG code)
{
    return make_request(top, (What){ IRP_MJ_DEVICE_CONTROL, 0, code, 0 }, PLAIN, 20);
}

static BOOLEAN is_refused(NTSTATUS status)
{
    return status == STATUS_INVALID_DEVICE_REQUEST || status == STATUS_NOT_SUPPORTED;
}

/* Whether the drivers have any control to send. */
static void tell_controls(PDEVICE_OBJECT top)
{
    static const Situation needing[] = { SITUATION_CONTROLS, SITUATION_CONTROL_MEETS, SITUATION_CONTROL_ITSELF,
                                         SITUATION_CONTROL_CANCELLED, SITUATION_CONTROL_CLEANUP };
    const BOOLEAN knows = top->DriverObject->MajorFunction[IRP_MJ_DEVICE_CONTROL] != NULL;
    for (size_t i = 0; i < ARRAYSIZE(needing); i++)
        if (!knows || (!n_controls && !options.candidates && !options.reads_codes))
            not_there(needing[i], knows ? "the source names no control code" : "no driver takes IRP_MJ_DEVICE_CONTROL");
        else
            not_made(needing[i], n_controls ? "each control was completed at once" :
                     "no driver took a control code: give --controls");
    if (n_controls)
        made(SITUATION_CONTROLS);
    if (!options.sends_handles)
        not_there(SITUATION_HANDLES, "the source takes no object by a handle that it is sent");
    else if (!n_controls)
        not_made(SITUATION_HANDLES, "no driver took a control code: give --controls");
    if (!n_controls || controls[0].major != IRP_MJ_DEVICE_CONTROL)
        not_there(SITUATION_NUMBERS, "no driver takes a control from programs");
}

/* A code that drivers refuse to programs may be one that they take from each other: an internal control. One with which a
   structure of the sender's comes can't be sent. Returns whether it could. */
static BOOLEAN try_inside(PDEVICE_OBJECT top, ULONG code)
{
    if (options.internals < 0)
        return TRUE;
    if (options.internals && METHOD_FROM_CTL_CODE(code) != METHOD_NEITHER) {
        make_request(top, (What){ IRP_MJ_INTERNAL_DEVICE_CONTROL, ROOM_INSIDE, code, 0 }, PLAIN, 20);
        if (control_is_taken(code))
            add_control(code, IRP_MJ_INTERNAL_DEVICE_CONTROL);
        return TRUE;
    }
    return control_is_taken(code);
}

static void tell_inside(BOOLEAN are_sent)
{
    BOOLEAN is_any = FALSE;
    for (int i = 0; i < n_controls; i++)
        is_any |= controls[i].major == IRP_MJ_INTERNAL_DEVICE_CONTROL;
    if (is_any)
        made(SITUATION_INTERNALS);
    else if (!are_sent)
        not_made(SITUATION_INTERNALS, "a structure of the sender's comes with it: send it in a test of your own");
    else
        not_there(SITUATION_INTERNALS, options.internals >= 0 ? "no driver takes a code of its source that way" :
                  "no driver has a dispatch of its own for them");
}

static BOOLEAN find_candidates(PDEVICE_OBJECT top)
{
    BOOLEAN are_sent = TRUE;
    ULONG code;
    for (const char *at = options.candidates; at && *at;) {
        at = next_code(at, &code);
        const BOOLEAN is_taken = !is_refused(answer_to(top, code));
        control_sent(code, is_taken);
        if (is_taken)
            add_control(code, IRP_MJ_DEVICE_CONTROL);
        else
            are_sent &= try_inside(top, code);
    }
    return are_sent;
}

void find_controls(PDEVICE_OBJECT top)
{
    const NTSTATUS usual = answer_to(top, NOT_KNOWN);
    ULONG code;
    tell_inside(find_candidates(top));
    for (ULONG i = 0; i < 16; i++) {
        code = CTL_CODE(FILE_DEVICE_UNKNOWN, 0x800 + i / 4, i % 4, FILE_ANY_ACCESS);
        const NTSTATUS status = answer_to(top, code);
        if (!is_refused(status) && status != usual)
            add_control(code, IRP_MJ_DEVICE_CONTROL);
    }
    tell_controls(top);
}
