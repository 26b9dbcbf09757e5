/*
 * overlaps.c: the test that `run --every-order` takes where none is given: small pieces in which a driver's routines meet.
 *
 * WDM_SCENARIO names the piece. Each puts the drivers, in their order, on a bottom device that completes reads and writes
 * later, and starts them. A driver that creates a device in DriverEntry gets them there, where these need no stack.
 *
 * Besides those that have a name, a piece is `A`, or `A+B`: A is read, write, long (a read that a driver may split) or the
 * code of a control, which a thread sends, behind an i where it is an internal one, of another driver; B is one of these
 * too, or what happens to the device or the file meanwhile: cancel, cleanup, power, stop or surprise.
 *
 * The I/O manager frees the requests at their end, as nearly all on Windows, so that a dispatch that touches its packet after
 * another thread could end it is told. Only that of a driver elsewhere is freed by its sender.
 */
#include "options.h"
#include "test/situations.h"
#include "wdm_test.h"
#include <pthread.h>
#include <stdio.h>

extern const struct { const char *name; PDRIVER_INITIALIZE entry; } wdm_drivers[];
extern const int wdm_n_drivers;

typedef struct { PIRP irp; KEVENT done; IO_STATUS_BLOCK result; BOOLEAN is_kept; } Request;
static PDEVICE_OBJECT top;
VOID WdmTellKept(PIRP Irp); /* of the host */
static Request pended;
static BOOLEAN has_context; /* drivers keep one in each file (FsContext): they needn't expect a request without a file */

static NTSTATUS keep(PDEVICE_OBJECT device, PIRP irp, PVOID context)
{
    Request *r = context;
    (void)device;
    r->result = irp->IoStatus;
    KeSetEvent(&r->done, IO_NO_INCREMENT, FALSE);
    return STATUS_MORE_PROCESSING_REQUIRED;
}

static void build_of(Request *r, UCHAR major, ULONG length)
{
    KeInitializeEvent(&r->done, NotificationEvent, FALSE);
    r->is_kept = FALSE;
    r->irp = WdmBuildIrp(top, major, 0, length, &r->result, &r->done);
}

static void build(Request *r, UCHAR major) { build_of(r, major, 16); }

static void start(Request *r, UCHAR major)
{
    build(r, major);
    IoCallDriver(top, r->irp);
}

static void take_file(Request *r)
{
    IoGetNextIrpStackLocation(r->irp)->FileObject = r->irp->Tail.Overlay.OriginalFileObject = NULL;
}

static PFILE_OBJECT opened;

static PFILE_OBJECT open_it(void)
{
    PFILE_OBJECT file = opened = WdmOpenFile(top);
    has_context = file && (file->FsContext || file->FsContext2);
    return file;
}

static void close_it(PFILE_OBJECT file)
{
    if (file)
        WdmCloseFile(file);
}

/* A driver elsewhere sends it and frees it: without a file, unless drivers keep a context in files. */
static void start_elsewhere(Request *r, UCHAR major)
{
    KeInitializeEvent(&r->done, NotificationEvent, FALSE);
    r->is_kept = TRUE;
    r->irp = WdmBuildIrp(top, major, 0, 16, NULL, NULL);
    if (!has_context)
        take_file(r);
    IoSetCompletionRoutine(r->irp, keep, r, TRUE, TRUE, TRUE);
    IoCallDriver(top, r->irp);
}

/* Waits for a request, and cancels it where it isn't done after some time. */
static void finish(Request *r)
{
    LARGE_INTEGER limit = { .QuadPart = -10000LL * 50 };
    if (KeWaitForSingleObject(&r->done, Executive, KernelMode, FALSE, &limit) == STATUS_TIMEOUT) {
        WdmCancelRequest(r->irp);
        KeWaitForSingleObject(&r->done, Executive, KernelMode, FALSE, NULL);
    }
    if (r->is_kept)
        IoFreeIrp(r->irp);
}

static void *read_once(void *context)
{
    Request r;
    start(&r, IRP_MJ_READ);
    finish(&r);
    return context;
}

static void *read_elsewhere(void *context)
{
    start_elsewhere(context, IRP_MJ_READ);
    return context;
}

static void *finish_pended(void *context)
{
    finish(&pended);
    return context;
}

static void *cancel_pended(void *context)
{
    WdmCancelRequest(pended.irp);
    return context;
}

static void set_power(DEVICE_POWER_STATE state)
{
    IO_STATUS_BLOCK iosb;
    KEVENT ended;
    KeInitializeEvent(&ended, NotificationEvent, FALSE);
    PIRP irp = WdmBuildIrp(top, IRP_MJ_POWER, IRP_MN_SET_POWER, 0, &iosb, &ended);
    PIO_STACK_LOCATION next = IoGetNextIrpStackLocation(irp);
    next->Parameters.Power.Type = DevicePowerState;
    next->Parameters.Power.State.DeviceState = state;
    PoCallDriver(top, irp);
    KeWaitForSingleObject(&ended, Executive, KernelMode, FALSE, NULL);
}

static void pnp(UCHAR minor) { WdmSend(top, IRP_MJ_PNP, minor, 0); }

/* A read of another thread meets a write of this one. */
static void overlap(void)
{
    pthread_t t;
    Request r;
    pthread_create(&t, NULL, read_once, NULL);
    start(&r, IRP_MJ_WRITE);
    finish(&r);
    pthread_join(t, NULL);
}

/* The request is cancelled by another thread while it is sent, held or completed. */
static void send_and_cancel(void)
{
    pthread_t t;
    pthread_create(&t, NULL, cancel_pended, NULL);
    IoCallDriver(top, pended.irp);
    pthread_join(t, NULL);
    finish(&pended);
}

/* Power goes and comes while another thread reads. */
static void power(void)
{
    pthread_t t;
    pthread_create(&t, NULL, read_once, NULL);
    set_power(PowerDeviceD3);
    set_power(PowerDeviceD0);
    pthread_join(t, NULL);
}

/* The device is gone, while a read is held and another one comes: the driver fails both. */
static void take_by_surprise(Request *held)
{
    pthread_t t;
    Request late;
    pthread_create(&t, NULL, read_elsewhere, &late);
    pnp(IRP_MN_SURPRISE_REMOVAL);
    pthread_join(t, NULL);
    WdmTellKept(held->irp);
    WdmTellKept(late.irp);
    finish(&late);
}

/* The device goes while two reads are held in it: one that its sender cancels at some time, and one that the removal ends.
   Where drivers keep a context in files both have a file, and who has that closes it before the removal. So only a surprise
   removal meets them there. */
static void remove_with_reads(UCHAR before, PFILE_OBJECT file)
{
    pthread_t t;
    Request held;
    const BOOLEAN surprises = before == IRP_MN_SURPRISE_REMOVAL, holds = surprises || !has_context;
    if (!has_context)
        close_it(file);
    build(&pended, IRP_MJ_READ);
    if (!has_context)
        take_file(&pended);
    IoCallDriver(top, pended.irp);
    if (holds)
        start_elsewhere(&held, IRP_MJ_READ);
    pthread_create(&t, NULL, finish_pended, NULL);
    if (surprises)
        take_by_surprise(&held);
    else
        pnp(before);
    if (has_context) {
        pthread_join(t, NULL);
        if (holds)
            finish(&held);
        close_it(file);
    }
    pnp(IRP_MN_REMOVE_DEVICE);
    if (!has_context) {
        pthread_join(t, NULL);
        finish(&held);
    }
}

/* What a thread of a pair sends, and on which file: NULL for the one that was opened last. */
typedef struct { UCHAR major; ULONG length, code; PFILE_OBJECT file; } Act;

static Act act_of(const char *what, PFILE_OBJECT file)
{
    const BOOLEAN is_internal = *what == 'i';
    const ULONG code = (ULONG)strtoul(what + is_internal, NULL, 0);
    if (code)
        return is_internal ? (Act){ IRP_MJ_INTERNAL_DEVICE_CONTROL, 4096, code, file } :
            (Act){ IRP_MJ_DEVICE_CONTROL, 16, code, file };
    return (Act){ strcmp(what, "write") ? IRP_MJ_READ : IRP_MJ_WRITE, strcmp(what, "long") ? 16 : 64, 0, file };
}

static void build_act(Request *r, const Act *a)
{
    WdmUseFile(a->file);
    build_of(r, a->major, a->length);
    if (a->code)
        IoGetNextIrpStackLocation(r->irp)->Parameters.DeviceIoControl.IoControlCode = a->code;
    if (a->major == IRP_MJ_INTERNAL_DEVICE_CONTROL && !has_context)
        take_file(r);
    WdmUseFile(NULL);
}

/* Whether a driver takes it, where it is a control: an internal one that is passed down isn't taken. */
static void tell_taken(const Act *a, NTSTATUS status)
{
    if (a->code)
        control_sent(a->code, a->major == IRP_MJ_DEVICE_CONTROL && status != STATUS_INVALID_DEVICE_REQUEST &&
                     status != STATUS_NOT_SUPPORTED);
}

static void *act(void *context)
{
    Request r;
    build_act(&r, context);
    IoCallDriver(top, r.irp);
    finish(&r);
    tell_taken(context, r.result.Status);
    return NULL;
}

static void stop_and_go(void)
{
    if (!NT_SUCCESS(WdmSend(top, IRP_MJ_PNP, IRP_MN_QUERY_STOP_DEVICE, 0))) {
        pnp(IRP_MN_CANCEL_STOP_DEVICE);
        return;
    }
    pnp(IRP_MN_STOP_DEVICE);
    pnp(IRP_MN_START_DEVICE);
}

static void clean_up(PFILE_OBJECT file)
{
    WdmUseFile(file);
    WdmSend(top, IRP_MJ_CLEANUP, 0, 0);
    WdmUseFile(NULL);
}

/* What happens while another thread sends. */
static void meanwhile(const char *what, PFILE_OBJECT second)
{
    Act own = act_of(what, NULL);
    if (!strcmp(what, "cleanup"))
        clean_up(second);
    else if (!strcmp(what, "stop"))
        stop_and_go();
    else if (!strcmp(what, "power")) {
        set_power(PowerDeviceD3);
        set_power(PowerDeviceD0);
    } else if (!strcmp(what, "surprise"))
        pnp(IRP_MN_SURPRISE_REMOVAL);
    else
        act(&own);
}

/* Another program, which has opened the device first, reads too. */
static void read_beside(Request *r)
{
    const Act a = act_of("read", opened);
    build_act(r, &a);
    IoCallDriver(top, r->irp);
}

static void play_pair(const char *scenario)
{
    static char text[80];
    static Act first;
    pthread_t t;
    Request other;
    snprintf(text, sizeof text, "%s", scenario);
    char *second = strchr(text, '+');
    if (second)
        *second++ = 0;
    const BOOLEAN cleans = second && !strcmp(second, "cleanup");
    PFILE_OBJECT file = cleans ? WdmOpenFile(top) : NULL;
    first = act_of(text, file);
    if (cleans && !file) {
        piece_not_there("the second IRP_MJ_CREATE fails");
        return;
    }
    if (second && !strcmp(second, "cancel")) {
        build_act(&pended, &first);
        send_and_cancel();
        return;
    }
    if (cleans)
        read_beside(&other);
    pthread_create(&t, NULL, act, &first);
    if (second)
        meanwhile(second, file);
    pthread_join(t, NULL);
    if (cleans) {
        finish(&other);
        WdmCloseFile(file);
    }
}

static void play(const char *scenario)
{
    if (!strcmp(scenario, "overlap"))
        overlap();
    else if (!strcmp(scenario, "cancel")) {
        build(&pended, IRP_MJ_READ);
        send_and_cancel();
    } else if (!strcmp(scenario, "power"))
        power();
    else if (strcmp(scenario, "remove") && strcmp(scenario, "surprise"))
        play_pair(scenario);
}

/* Whether it needs a stack: to remove, to stop, to take power from. */
static BOOLEAN needs_stack(const char *scenario)
{
    const char *plus = strchr(scenario, '+'), *what = plus ? plus + 1 : scenario;
    return !strcmp(what, "remove") || !strcmp(what, "surprise") || !strcmp(what, "power") || !strcmp(what, "stop");
}

static void play_on_stack(PDRIVER_OBJECT *loaded, const char *scenario)
{
    PDEVICE_OBJECT bottom = WdmCreateBottom(TRUE);
    for (int i = 0; i < wdm_n_drivers; i++)
        if (loaded[i] && loaded[i]->DriverExtension->AddDevice)
            WdmAddDevice(loaded[i], bottom);
    top = IoGetAttachedDevice(bottom);
    if (top == bottom && needs_stack(scenario))
        piece_not_there("no driver has AddDevice");
    if (top != bottom) {
        pnp(IRP_MN_START_DEVICE);
        PFILE_OBJECT file = open_it();
        play(scenario);
        if (!strcmp(scenario, "remove"))
            remove_with_reads(IRP_MN_QUERY_REMOVE_DEVICE, file);
        else if (!strcmp(scenario, "surprise"))
            remove_with_reads(IRP_MN_SURPRISE_REMOVAL, file);
        else {
            close_it(file);
            pnp(IRP_MN_REMOVE_DEVICE);
        }
    }
    IoDeleteDevice(bottom);
}

int main(void)
{
    PDRIVER_OBJECT loaded[64] = { NULL };
    const char *scenario = options.scenario;
    for (int i = 0; i < wdm_n_drivers && i < 64; i++)
        loaded[i] = WdmLoadDriver(wdm_drivers[i].name, wdm_drivers[i].entry);
    play_on_stack(loaded, scenario);
    for (int i = 0; i < wdm_n_drivers && i < 64; i++)
        if (loaded[i] && loaded[i]->DeviceObject && !loaded[i]->DriverExtension->AddDevice && !needs_stack(scenario)) {
            top = loaded[i]->DeviceObject;
            PFILE_OBJECT file = open_it();
            play(scenario);
            close_it(file);
        }
    if (!strcmp(scenario, "overlap"))
        WdmExpectEntries(6); /* no driver got a request where there are fewer */
    return WdmFinish();
}
