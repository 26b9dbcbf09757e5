/* completion_checks.c: what a packet is completed or passed down with: its length of data, its status of Plug and Play. */
#include "rules/own.h"
#include "io/io.h"
#include "record/record.h"
#include "test/test.h"

enum { FIRST_UNKNOWN = 0x1a, RESERVED = 0x0e };

static bool is_unknown(UCHAR minor) { return minor >= FIRST_UNKNOWN || minor == RESERVED; }

/* The bytes that a control may say: of METHOD_IN_DIRECT both buffers go to the device, and nothing comes back. */
static uint64_t room_of_control(const IO_STACK_LOCATION *l)
{
    const ULONG in = l->Parameters.DeviceIoControl.InputBufferLength;
    const ULONG out = l->Parameters.DeviceIoControl.OutputBufferLength;
    switch (METHOD_FROM_CTL_CODE(l->Parameters.DeviceIoControl.IoControlCode)) {
    case METHOD_NEITHER: return UINT64_MAX;
    case METHOD_IN_DIRECT: return in > out ? in : out;
    default: return out;
    }
}

/* The bytes that may come back, by the location of whoever completes; or all of them where that isn't known. */
static uint64_t room_of(const IO_STACK_LOCATION *l)
{
    switch (l->MajorFunction) {
    case IRP_MJ_READ:
    case IRP_MJ_WRITE: return l->Parameters.Read.Length;
    case IRP_MJ_DEVICE_CONTROL: return room_of_control(l);
    default: return UINT64_MAX;
    }
}

static bool is_buffered_control(const IO_STACK_LOCATION *l)
{
    return l->MajorFunction == IRP_MJ_DEVICE_CONTROL &&
        METHOD_FROM_CTL_CODE(l->Parameters.DeviceIoControl.IoControlCode) == METHOD_BUFFERED;
}

static void check_information(const Packet *p, const IO_STACK_LOCATION *l, int by, ULONG status, uint64_t information)
{
    const uint64_t room = room_of(l);
    if (!NT_ERROR(status) && information <= room && is_buffered_control(l))
        check_written(p, by, l->Parameters.DeviceIoControl.InputBufferLength, information);
    if (!NT_ERROR(status) && information > room)
        broken("InformationTooLong", p, "completed with Information %lu, and %s has room for %lu",
               (unsigned long)information, major_name(l->MajorFunction), (unsigned long)room);
}

/* What a driver says of a request that it doesn't handle. Of Plug and Play it leaves the status as it came. */
static bool is_unhandled(ULONG status)
{
    return status == (ULONG)STATUS_NOT_SUPPORTED || status == (ULONG)STATUS_NOT_IMPLEMENTED ||
        status == (ULONG)STATUS_INVALID_DEVICE_REQUEST;
}

/* Whether a device that stands on another one has to pass the request on, whatever it does itself. */
static bool has_to_go_down(UCHAR minor)
{
    return minor <= IRP_MN_CANCEL_STOP_DEVICE || minor == IRP_MN_SURPRISE_REMOVAL || minor == IRP_MN_QUERY_CAPABILITIES ||
        is_unknown(minor);
}

static void check_pnp(const Packet *p, const IO_STACK_LOCATION *l, int by, ULONG status)
{
    const Frame *f = on_top(p);
    const ULONG came = p->at[p->current].came;
    const bool good = NT_SUCCESS(status) || is_unhandled(status);
    const bool is_first = f && f->kind == DISPATCH && !f->sent, is_last = devices[by].lower < 0;
    if (l->MinorFunction == IRP_MN_REMOVE_DEVICE && !NT_SUCCESS(status))
        broken("RemoveFailed", p, "IRP_MN_REMOVE_DEVICE is completed with %#x", status);
    else if (is_unknown(l->MinorFunction) && status != came)
        broken("PnpStatusChanged", p, "a request that the driver can't know (minor %#x) came with %#x, and is completed "
               "with %#x", l->MinorFunction, came, status);
    else if (is_unhandled(status) && status != came && (is_first || is_last))
        broken("PnpStatusChanged", p, "minor %#x isn't handled, came with %#x, and is completed with %#x", l->MinorFunction,
               came, status);
    else if (is_first && !is_last && good && (has_to_go_down(l->MinorFunction) || is_unhandled(status)))
        broken("NotPassedDown", p, "%s completes minor %#x, and the drivers below haven't seen it", who(by),
               l->MinorFunction);
}

/* A power request that is set is seen by each driver of the stack. */
static void check_power(const Packet *p, const IO_STACK_LOCATION *l, int by, ULONG status)
{
    const Frame *f = on_top(p);
    const bool is_first = f && f->kind == DISPATCH && !f->sent, is_last = devices[by].lower < 0;
    if (l->MinorFunction == IRP_MN_SET_POWER && is_first && !is_last && (NT_SUCCESS(status) || is_unhandled(status)))
        broken("NotPassedDown", p, "%s completes IRP_MN_SET_POWER, and the drivers below haven't seen it", who(by));
}

static void tell_no_dispatch(const Packet *p, int d, UCHAR major)
{
    /* not the call that sends it, which is another's; each major is told by itself */
    Call then = { .name = "IoCreateDevice", .at = devices[d].created, .by = major_name(major) };
    Call *const calls = self.calls;
    Frame *const frames = self.frames;
    self.calls = &then;
    self.frames = NULL;
    broken("NotPassedDown", p, "%s has no dispatch for IRP_MJ_%s, and the request never reaches %s: set "
           "MajorFunction[IRP_MJ_%s]", who(d), major_name(major), who(devices[d].lower), major_name(major));
    self.calls = calls;
    self.frames = frames;
}

/* Without a dispatch the I/O manager fails the request. A driver that stands on another one passes on what it doesn't handle
   of these. With the first one that is missing the others are told, which may never be sent because of it. */
void check_dispatch_there(const Packet *p, int d, UCHAR major)
{
    static const UCHAR passed_on[] = { IRP_MJ_PNP, IRP_MJ_POWER, IRP_MJ_SYSTEM_CONTROL };
    static bool was_told[MAX_DEVICES];
    if (devices[d].lower < 0 || (major != IRP_MJ_PNP && major != IRP_MJ_POWER && major != IRP_MJ_SYSTEM_CONTROL))
        return;
    tell_no_dispatch(p, d, major);
    for (size_t i = 0; i < sizeof passed_on && !was_told[d]; i++)
        if (passed_on[i] != major && !devices[d].driver->MajorFunction[passed_on[i]])
            tell_no_dispatch(NULL, d, passed_on[i]);
    was_told[d] = true;
}

/* A device that has the packet completes it. */
void check_completion(const Packet *p, int by, ULONG status, uint64_t information)
{
    if (by < 0 || p->next.skipped || p->current > p->size || p->at[p->current].device != by || is_between(devices[by].raw))
        return;
    const IO_STACK_LOCATION *l = raw_at((Packet *)p, p->current);
    const bool is_control = l->MajorFunction == IRP_MJ_DEVICE_CONTROL || l->MajorFunction == IRP_MJ_INTERNAL_DEVICE_CONTROL;
    check_information(p, l, by, status, information);
    if (is_control && !is_bottom(devices[by].raw))
        control_ended(devices[by].driver->HostNumber, l->MajorFunction, l->Parameters.DeviceIoControl.IoControlCode, status);
    if (l->MajorFunction == IRP_MJ_PNP)
        check_pnp(p, l, by, status);
    else if (l->MajorFunction == IRP_MJ_POWER)
        check_power(p, l, by, status);
}

/* The dispatch that runs makes a call that takes back what its device uses: it handles its request. Under G. */
void remember_act(const char *call)
{
    static const char *const acts[] = { "KeCancelTimer", "KeFlushQueuedDpcs", "KeRemoveQueueDpc", "IoCompleteRequest", "IoCancelIrp",
                                        "IoSetDeviceInterfaceState", "IoDisconnectInterrupt", "IoFreeIrp", "IoFreeWorkItem",
                                        "IoUnregisterPlugPlayNotification", "IoDeleteSymbolicLink" };
    Frame *f = self.frames;
    if (!f || f->kind != DISPATCH || f->major != IRP_MJ_PNP || f->sent)
        return;
    for (size_t i = 0; i < ARRAYSIZE(acts); i++)
        if (!strcmp(acts[i], call))
            f->acted = acts[i];
}

/* A device that is gone: a driver that handles that has set its success when the request goes down, and no routine is there to
   do so. A removal without it is passed down by drivers that are right otherwise. */
static void check_handled(const Packet *p, const Frame *f, UCHAR minor, ULONG status)
{
    if (minor == IRP_MN_SURPRISE_REMOVAL && f->acted && p->asking == f && status == (ULONG)STATUS_NOT_SUPPORTED &&
        (p->next.skipped || !p->next.set))
        broken("StatusNotSet", p, "%s calls %s for IRP_MN_SURPRISE_REMOVAL, and passes that down with STATUS_NOT_SUPPORTED, with "
               "which it came", function_name(f->fn), f->acted);
}

/* A dispatch passes the packet down. */
void check_sending(const Packet *p, int by)
{
    Frame *f = self.frames;
    while (f && (f->kind != DISPATCH || f->device != by))
        f = f->up;
    if (f)
        f->sent = true;
    if (f && f->major == IRP_MJ_POWER && on_top(p) == f)
        power_goes(raw_at((Packet *)p, p->current), by);
    if (!f || f->major != IRP_MJ_PNP || on_top(p) != f)
        return;
    const UCHAR minor = raw_at((Packet *)p, p->current)->MinorFunction;
    const ULONG status = (ULONG)p->irp->IoStatus.Status, came = p->at[p->current].came;
    check_handled(p, f, minor, status);
    if (!is_unknown(minor) && p->asking == f && status != came && !NT_SUCCESS(status) &&
        status != (ULONG)STATUS_NOT_SUPPORTED)
        broken("PnpStatusChanged", p, "minor %#x came with %#x, and is passed down with the failure %#x", minor, came,
               status);
    if (is_unknown(minor) && p->asking == f && status != came)
        broken("PnpStatusChanged", p, "a request that the driver can't know (minor %#x) came with %#x, and is passed "
               "down with %#x", minor, came, status);
}
