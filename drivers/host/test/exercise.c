/*
 * exercise.c: the test that `run` takes where none is given. It puts the drivers, in their order, on a bottom device
 * of the host, starts them, sends what the I/O manager sends, cancels some of it, and removes the device. It does so
 * over several bottoms: one that completes at once, one that completes later, from another thread, one that pends PnP
 * and power too, one that fails, and one that doesn't start. A driver that creates a device in DriverEntry gets the
 * requests there. WDM_SHORT leaves out all but the first two, and most lengths.
 *
 * A driver may keep a context in each file that is opened (FsContext), and then a request without a file is none that it has
 * to expect. So no request is sent without one there.
 */
#include "test/requests.h"
#include <pthread.h>

extern const struct { const char *name; PDRIVER_INITIALIZE entry; } wdm_drivers[];
extern const int wdm_n_drivers;

enum { UNKNOWN_MINOR = 0x7f, MAX_CHILDREN = 16, LARGE = 65537 };
static const char held_none[] = "each request was completed at once";
static PDEVICE_OBJECT top_of_threads;
static PDRIVER_OBJECT loaded[64];
static BOOLEAN is_on_children[64];
static int rounds = 16;
static BOOLEAN is_short;

/* A control is on its way while itself comes again, and then others. */
static void use_overlapped_controls(PDEVICE_OBJECT top)
{
    Request first;
    for (int i = 0; i < n_controls; i++) {
        if (!start_request(&first, top, control(i, 16), PLAIN))
            continue;
        for (int k = 0; k < n_controls; k++) {
            const int j = (i + k) % n_controls;
            if (is_held(&first))
                made(i == j ? SITUATION_CONTROL_ITSELF : SITUATION_CONTROL_MEETS);
            if (j != i || is_held(&first))
                make_request(top, control(j, 16), PLAIN, 5);
        }
        end_request(&first, 5);
    }
}

/* Requests that meet: a read and each control are on their way while others come; the write that comes is longer. */
static void use_overlapped(PDEVICE_OBJECT top)
{
    Request first;
    BOOLEAN is_kept = FALSE;
    for (int i = 0; i < MOST_READS && !is_kept; i++) { /* what was written may have to be read first */
        if (!start_request(&first, top, transfer(IRP_MJ_READ, i ? 4096 : 16), KEPT))
            break;
        is_kept = is_held(&first);
        if (is_kept || i + 1 == MOST_READS)
            make_request(top, transfer(IRP_MJ_WRITE, 40), PLAIN, PATIENT);
        end_request(&first, PATIENT);
    }
    made_with(top, IRP_MJ_READ, SITUATION_READ_MEETS, is_kept ? NULL : held_none);
    use_overlapped_controls(top);
}

/* Buffers that are short, odd and large. */
static void use_lengths(PDEVICE_OBJECT top)
{
    static const ULONG lengths[] = { 1, 17, 4095, 65536 };
    for (size_t n = 0; n < ARRAYSIZE(lengths); n++) {
        make_request(top, transfer(IRP_MJ_READ, lengths[n]), PLAIN, SHORTLY);
        make_request(top, transfer(IRP_MJ_WRITE, lengths[n]), PLAIN, SHORTLY);
        for (int i = 0; i < n_controls; i++)
            make_request(top, control(i, lengths[n]), PLAIN, SHORTLY);
    }
    made_with(top, IRP_MJ_READ, SITUATION_LENGTHS, NULL);
    made_with(top, IRP_MJ_WRITE, SITUATION_LENGTHS, NULL);
    if (n_controls)
        made(SITUATION_LENGTHS);
}

/* Cancels before a request is sent, while it is on its way, and after it was completed. */
static void use_cancels(PDEVICE_OBJECT top)
{
    static const How hows[] = { CANCELLED_BEFORE, CANCELLED_AT_ONCE, CANCELLED_AFTER };
    for (size_t n = 0; n < ARRAYSIZE(hows); n++) {
        make_request(top, transfer(IRP_MJ_READ, 32), hows[n], SHORTLY);
        make_request(top, transfer(IRP_MJ_WRITE, 32), hows[n], SHORTLY);
        for (int i = 0; i < n_controls; i++)
            make_request(top, control(i, 32), hows[n], SHORTLY);
    }
    made_with(top, IRP_MJ_READ, SITUATION_READ_CANCELLED, "each read was completed at once");
    made_with(top, IRP_MJ_WRITE, SITUATION_WRITE_CANCELLED, "each write was completed at once");
    not_made(SITUATION_HELD_CANCELLED, held_none);
}

/* A program may send any number: a length, a count or an index that is beyond all buffers. */
static void use_numbers(PDEVICE_OBJECT top)
{
    static const ULONG lengths[] = { 4, 8, 12, 16, 24, 40, 4096 };
    for (int i = 0; i < n_controls; i++)
        for (size_t n = 0; controls[i].major == IRP_MJ_DEVICE_CONTROL && n < ARRAYSIZE(lengths); n++) {
            What what = control(i, lengths[n]);
            what.number = LARGE;
            make_request(top, what, PLAIN, SHORTLY);
            made(SITUATION_NUMBERS);
        }
}

/* Each control has this handle in its input. */
static void send_handle(PDEVICE_OBJECT top, HANDLE handle)
{
    static const ULONG lengths[] = { 8, 16, 24, 32, 40 };
    number_at = EACH_EIGHT;
    for (int i = 0; handle && i < n_controls; i++)
        for (size_t n = 0; controls[i].major == IRP_MJ_DEVICE_CONTROL && n < ARRAYSIZE(lengths); n++) {
            What what = control(i, lengths[n]);
            what.number = (ULONG)(ULONG_PTR)handle;
            make_request(top, what, PLAIN, SHORTLY);
            made(SITUATION_HANDLES);
        }
    number_at = EACH_FOUR;
}

/* Each control of this length has it at one place, and zeros elsewhere. */
static void place_handle(PDEVICE_OBJECT top, HANDLE handle, ULONG length, int place)
{
    number_at = place;
    for (int i = 0; i < n_controls; i++) {
        What what = control(i, length);
        what.number = (ULONG)(ULONG_PTR)handle;
        if (controls[i].major == IRP_MJ_DEVICE_CONTROL)
            make_request(top, what, PLAIN, SHORTLY);
    }
    number_at = EACH_FOUR;
}

/* Each structure of the source's own that has a handle comes in WDM_HANDLES, by its length and the handle's place. */
static void send_in_structures(PDEVICE_OBJECT top, HANDLE handle)
{
    const char *rest = getenv("WDM_HANDLES");
    unsigned length, place;
    for (int read; handle && sscanf(rest, "%u:%u,%n", &length, &place, &read) == 2; rest += read)
        place_handle(top, handle, length, (int)place);
}

/* Where a driver takes objects by handles that it is sent: an event's, a file's, and one that is closed. */
static void use_handles(PDEVICE_OBJECT top, PFILE_OBJECT file)
{
    HANDLE handles[2];
    if (!options.sends_handles || !make_sent_handles(file, handles))
        return;
    for (int i = 0; i < 2; i++) {
        send_handle(top, handles[i]);
        send_in_structures(top, handles[i]);
    }
    close_sent_handles(handles);
    send_handle(top, handles[0]);
    send_in_structures(top, handles[0]);
}

static void send_one(PDEVICE_OBJECT top, What what, Situation s)
{
    make_request(top, what, PLAIN, PATIENT);
    made_with(top, what.major, s, NULL);
}

/* What a driver does with a name behind the device's is its own: it may refuse it. */
static void open_behind(PDEVICE_OBJECT top)
{
    PFILE_OBJECT file = WdmOpenBehind(top, L"\\behind", WDM_HERE);
    made_with(top, IRP_MJ_CREATE, SITUATION_NAMED, NULL);
    if (file)
        WdmCloseFile(file);
}

/* Opens the device and uses it. */
static Opened use(PDEVICE_OBJECT top, BOOLEAN finds)
{
    Opened o = open_it(top);
    send_one(top, transfer(IRP_MJ_READ, 16), SITUATION_READ);
    send_one(top, transfer(IRP_MJ_WRITE, 16), SITUATION_WRITTEN);
    send_one(top, transfer(IRP_MJ_READ, 0), SITUATION_EMPTY);
    if (finds)
        find_controls(top);
    for (int i = 0; i < n_controls; i++)
        make_request(top, control(i, 16), PLAIN, PATIENT);
    use_overlapped(top);
    if (!is_short)
        use_lengths(top);
    use_cancels(top);
    use_two_files(top, o);
    open_behind(top);
    if (finds && !is_short)
        use_crowd(top);
    send_one(top, (What){ IRP_MJ_INTERNAL_DEVICE_CONTROL, 16, 0x7ff << 2, 0 }, SITUATION_INTERNAL);
    for (int i = 0; i < 2; i++) /* a bottom that fails does so at once, and later */
        send_one(top, transfer(IRP_MJ_FLUSH_BUFFERS, 0), SITUATION_FLUSHED);
    send_one(top, transfer(IRP_MJ_SHUTDOWN, 0), SITUATION_SHUT_DOWN);
    return o;
}

static void *use_often(void *number)
{
    static const UCHAR majors[] = { IRP_MJ_READ, IRP_MJ_WRITE, IRP_MJ_DEVICE_CONTROL, IRP_MJ_DEVICE_CONTROL };
    static const How hows[] = { PLAIN, PLAIN, PLAIN, KEPT, CANCELLED_AT_ONCE, CANCELLED_BEFORE };
    unsigned chance = (unsigned)(intptr_t)number + 1;
    for (int i = 0; i < rounds; i++) {
        const UCHAR major = majors[rand_r(&chance) % 4];
        const int which = n_controls ? (int)(rand_r(&chance) % (unsigned)n_controls) : 0;
        const What what = n_controls && is_control(major) ? control(which, 8 + (ULONG)i) : transfer(major, 8 + (ULONG)i);
        const How how = hows[rand_r(&chance) % ARRAYSIZE(hows)];
        make_request(top_of_threads, what, how, 1 + rand_r(&chance) % 5);
    }
    return NULL;
}

static void use_by_threads(PDEVICE_OBJECT top, int threads)
{
    pthread_t t[16];
    top_of_threads = top;
    for (int i = 0; i < threads && i < 16; i++)
        pthread_create(&t[i], NULL, use_often, (void *)(intptr_t)i);
    for (int i = 0; i < threads && i < 16; i++)
        pthread_join(t[i], NULL);
}

/* The children that a bus has reported are used as it is, one behind the other. */
static void use_children(void)
{
    PDEVICE_OBJECT children[MAX_CHILDREN];
    const ULONG n = WdmGetChildren(bottom, children, MAX_CHILDREN);
    for (ULONG i = 0; i < n; i++)
        close_it(use(IoGetAttachedDevice(children[i]), FALSE));
    if (n)
        made(SITUATION_CHILDREN);
    else
        not_there(SITUATION_CHILDREN, "no driver reports children");
}

static void use_started(ULONG style, int threads)
{
    PDEVICE_OBJECT top = IoGetAttachedDevice(bottom);
    WdmSend(top, IRP_MJ_PNP, UNKNOWN_MINOR, 0); /* a request that no driver knows */
    made(SITUATION_UNKNOWN_PNP);
    WdmSend(top, IRP_MJ_SYSTEM_CONTROL, IRP_MN_REGINFO, 0);
    made(SITUATION_WMI);
    if (!style && !is_short)
        use_for_paging(top);
    set_power(top, IRP_MN_SET_POWER, PowerDeviceD0);
    Opened o = use(top, !style);
    use_children();
    if (threads > 1)
        use_by_threads(top, threads);
    if (style & WDM_BOTTOM_PENDS_ALL)
        use_numbers(top);
    if (!style && !is_short)
        use_handles(top, o.file);
    sleep_and_wake(top);
    if (!style && !is_short) {
        use_in_d3(top);
        stop_in_use(top);
    }
    if (style == WDM_BOTTOM_LATE)
        remove_by_surprise(top, o);
    else
        remove_in_order(top, o, !style);
}

static void use_stack(ULONG style, Situation its, int threads)
{
    static ULONG most; /* devices that a stack takes */
    const ULONG left = devices_left();
    if (left < most) {
        not_made(its, "the stacks before it have had most of the 64 devices of a history");
        return;
    }
    bottom = WdmCreateBottomOf(style);
    if (!bottom)
        return;
    for (int i = 0; i < wdm_n_drivers; i++)
        if (loaded[i] && loaded[i]->DriverExtension->AddDevice && !is_on_children[i])
            WdmAddDevice(loaded[i], bottom);
    const BOOLEAN is_stack = IoGetAttachedDevice(bottom) != bottom;
    const BOOLEAN starts = is_stack && NT_SUCCESS(WdmPlugIn(bottom));
    if (is_stack)
        made_if(its, starts || style == WDM_BOTTOM_NO_START, "IRP_MN_START_DEVICE fails");
    if (starts)
        use_started(style, threads);
    else if (is_stack)
        WdmRemove(bottom);
    PDEVICE_OBJECT its_own = bottom;
    bottom = NULL;
    IoDeleteDevice(its_own);
    most = max(most, left - devices_left());
}

/* A driver that made its device in DriverEntry. */
static void use_device(PDEVICE_OBJECT device, int threads)
{
    Opened o = use(device, TRUE);
    if (threads > 1)
        use_by_threads(device, threads);
    if (!is_short) {
        use_numbers(device);
        use_handles(device, o.file);
    }
    close_it(o);
}

/* The drivers are loaded. */
static void load_all(void)
{
    BOOLEAN has_stack = FALSE;
    for (int i = 0; i < wdm_n_drivers && i < 64; i++) {
        loaded[i] = WdmLoadDriver(wdm_drivers[i].name, wdm_drivers[i].entry);
        is_on_children[i] = loaded[i] && WdmGoesOnChildren(wdm_drivers[i].name, loaded[i]);
        has_stack |= loaded[i] && loaded[i]->DriverExtension->AddDevice && !is_on_children[i];
    }
    begin_situations(has_stack, !options.holds_none);
}

int main(void)
{
    static const struct { ULONG style; Situation its; } bottoms[] = {
        { 0, SITUATION_AT_ONCE }, { WDM_BOTTOM_LATE, SITUATION_LATER },
        { WDM_BOTTOM_LATE | WDM_BOTTOM_PENDS_ALL, SITUATION_PENDS_ALL }, { WDM_BOTTOM_FAILS, SITUATION_FAILS },
        { WDM_BOTTOM_NO_START, SITUATION_NO_START } };
    const int threads = options.threads;
    is_short = options.is_short;
    read_controls();
    load_all();
    for (size_t i = 0; i < ARRAYSIZE(bottoms); i++)
        if (!is_short || i < 2)
            use_stack(bottoms[i].style, bottoms[i].its, threads);
    for (int i = 0; i < wdm_n_drivers && i < 64; i++) {
        if (loaded[i] && loaded[i]->DeviceObject && !loaded[i]->DriverExtension->AddDevice)
            use_device(loaded[i]->DeviceObject, threads);
        if (loaded[i])
            WdmUnloadDriver(loaded[i]);
    }
    WdmExpectEntries(20);
    return WdmFinish();
}
