/* devices.c: device objects and their stacks. */
#include "io/own.h"
#include "explore/explore.h"
#include "ke/ke.h"
#include "mm/mm.h"
#include "ob/ob.h"
#include "pnp/pnp.h"
#include "record/record.h"
#include "rules/rules.h"
#include "test/test.h"

Device devices[MAX_DEVICES];
int n_devices;

NTSTATUS WdmIoCreateDevice(PDRIVER_OBJECT Driver, ULONG Extension, DEVICE_TYPE Type, ULONG Characteristics,
                           PDEVICE_OBJECT *Out, WDM_SITE at)
{
    Call c;
    enter_host(&c, "IoCreateDevice", at);
    touch(&devices, WRITES);
    if (n_devices == MAX_DEVICES)
        reach_limit("64 devices in one run, as many as a history may have: let its test make fewer");
    PDEVICE_OBJECT o = !memory_is_refused(c.name, at) ? host_memory(sizeof *o) : NULL;
    PVOID extension = o ? host_memory(Extension ? Extension : 1) : NULL;
    if (!extension) {
        free_host_memory(o);
        leave_host();
        return STATUS_INSUFFICIENT_RESOURCES;
    }
    learn_file(at.file, Driver->HostNumber);
    *o = (DEVICE_OBJECT){ .Type = IO_TYPE_DEVICE, .Size = sizeof *o, .DriverObject = Driver, .NextDevice = Driver->DeviceObject, .DeviceExtension = extension,
                          .DeviceType = Type, .Characteristics = Characteristics, .StackSize = 1,
                          .HostNumber = n_devices, .HostExtensionSize = Extension, .Flags = DO_DEVICE_INITIALIZING };
    InitializeListHead(&o->DeviceQueue.DeviceListHead);
    Driver->DeviceObject = o;
    devices[n_devices] = (Device){ .raw = o, .lower = NOBODY, .upper = NOBODY, .live = true,
                                   .driver = Driver, .extension = extension, .extension_size = Extension,
                                   .created = at };
    Entry *e = begin(CREATE, NULL, ORIGINATOR);
    e->device = Driver->HostNumber;
    answered(e, DEVICE, (uint64_t)n_devices++);
    *Out = o;
    leave_host();
    return STATUS_SUCCESS;
}

PDEVICE_OBJECT WdmIoAttachDevice(PDEVICE_OBJECT Device, PDEVICE_OBJECT Target, WDM_SITE at)
{
    Call c;
    put_between(Target, at);
    enter_host(&c, "IoAttachDeviceToDeviceStack", at);
    touch(&devices, WRITES);
    const int d = device_number(Device);
    int top = device_number(Target);
    Entry *e = begin(ATTACH, NULL, d);
    e->device = d;
    e->other = top;
    while (devices[top].upper >= 0)
        top = devices[top].upper;
    const char *no = rules_refusal(e);
    const bool is_early = !no && devices[top].raw->Flags & DO_DEVICE_INITIALIZING && !options.is_wines;
    if (no)
        refuse(e, no);
    else if (is_early) {
        note("attach", "%s isn't attached to %s, which has DO_DEVICE_INITIALIZING set", who(d), who(top));
        free(e);
    } else {
        devices[d].lower = top;
        devices[top].upper = d;
        devices[top].raw->AttachedDevice = Device;
        touch_memory(&devices[top].raw->AttachedDevice, sizeof Device, WRITES);
        Device->StackSize = (CCHAR)(devices[top].raw->StackSize + 1);
        Device->AlignmentRequirement = devices[top].raw->AlignmentRequirement;
        Device->SectorSize = devices[top].raw->SectorSize;
        answered(e, DEVICE, (uint64_t)top);
    }
    leave_host();
    return no || is_early ? NULL : devices[top].raw;
}

NTSTATUS WdmIoAttachDeviceSafe(PDEVICE_OBJECT Device, PDEVICE_OBJECT Target, PDEVICE_OBJECT *Lower, WDM_SITE at)
{
    *Lower = WdmIoAttachDevice(Device, Target, at);
    return *Lower ? STATUS_SUCCESS : STATUS_NO_SUCH_DEVICE;
}

PDEVICE_OBJECT IoGetAttachedDevice(PDEVICE_OBJECT Device)
{
    pthread_mutex_lock(&host_lock);
    while (Device->AttachedDevice)
        Device = Device->AttachedDevice;
    pthread_mutex_unlock(&host_lock);
    return Device;
}

/* What of the device's is on its way: a packet that another thread has in an entry which isn't settled. */
static bool is_in_open_entry(int d)
{
    for (int i = 0; i < n_packets; i++) {
        const Packet *p = packets[i];
        if (!lives(p) || !p->open || p->open->sealed)
            continue;
        for (int j = p->current; j <= p->size; j++)
            if (p->at[j].device == d)
                return true;
    }
    return false;
}

/* How many of these frames run code of the device. */
static int frames_of(int d, const Frame *frames)
{
    int n = 0;
    for (const Frame *f = frames; f; f = f->up)
        n += f->device == d;
    return n;
}

/* Code of the device that runs on other threads has nothing in flight any more: it only returns. */
static void tell_running(int d, const Frame *mine)
{
    if (devices[d].running > frames_of(d, mine))
        note("still returning", "%s is deleted while a routine of it is returning on another thread", who(d));
}

static const char *gone_text(int d)
{
    static _Thread_local char text[120];
    snprintf(text, sizeof text, "extension of %s, which is deleted", who(d));
    return text;
}

/* As in Windows, a deleted device is there until its work items have returned, and no reference to it is left. */
static bool is_kept(int d)
{
    touch(&devices[d].items, SYNCS);
    touch(devices[d].raw, READS);
    return devices[d].items || is_referenced(devices[d].raw) || is_opened(devices[d].raw);
}

static void let_extension_go(int d, WDM_SITE at)
{
    devices[d].goes = is_kept(d);
    devices[d].deleted = at;
    if (!devices[d].goes)
        let_go_of(devices[d].extension, devices[d].extension_size, "the extension of a device", at);
}


static void take_off_list(PDEVICE_OBJECT device)
{
    PDEVICE_OBJECT *at = &device->DriverObject->DeviceObject;
    while (*at && *at != device)
        at = &(*at)->NextDevice;
    if (*at)
        *at = device->NextDevice;
}

static void tell_gone(int d)
{
    if (!devices[d].goes)
        check_gone(devices[d].raw->DeviceExtension, devices[d].raw->HostExtensionSize, gone_text(d));
}

/* A reference keeps the device: as in Windows it goes with the last one, and until then a request may come. The record has
   the delete then. */
static bool stays_for_now(int d)
{
    const Entry e = { .op = REMOVE, .device = d, .drained = true };
    const char *no = rules_refusal(&e);
    if (!(is_referenced(devices[d].raw) || is_opened(devices[d].raw)) || (no && strcmp(no, "InFlight")))
        return false;
    touch(&devices[d].items, SYNCS);
    devices[d].stays = true;
    devices[d].drained = lock_knows_drained(d);
    devices[d].deleted = self.calls->at;
    take_off_list(devices[d].raw);
    forget_names(devices[d].raw);
    return true;
}

static void delete_now(int d, const Frame *mine)
{
    if (stays_for_now(d))
        return;
    Entry *e = begin(REMOVE, NULL, d);
    e->device = d;
    e->drained = !devices[d].bound || devices[d].drained || lock_knows_drained(d);
    const char *no = rules_refusal(e);
    if (no && !strcmp(no, "InFlight") && is_in_open_entry(d)) {
        /* the history doesn't have that packet's descent yet, so this call isn't recorded */
        fault("InFlight", NULL, "%s is deleted while its code runs for a packet; not recorded", who(d));
        free(e);
        return;
    }
    if (no)
        refuse(e, no);
    else {
        tell_running(d, mine);
        tell_work_queued(d);
        devices[d].live = false;
        take_off_list(devices[d].raw);
        let_extension_go(d, self.calls->at);
        forget_names(devices[d].raw);
        answered(e, DONE, 0);
        tell_gone(d);
    }
}

/* The delete that was put off: what is told of it names the call that wanted it. */
static void delete_late(int d)
{
    Call c = { .up = self.calls, .name = "IoDeleteDevice", .at = devices[d].deleted };
    Frame *const mine = self.frames;
    self.calls = &c;
    self.frames = NULL;
    devices[d].leaving = devices[d].stays = false;
    delete_now(d, mine);
    self.calls = c.up;
    self.frames = mine;
}

/* What may have kept a device keeps it no more. */
void may_go(int d)
{
    Call c = { .up = self.calls, .name = "IoDeleteDevice", .at = devices[d].deleted };
    touch(&devices[d].items, SYNCS);
    if (devices[d].stays && !is_referenced(devices[d].raw) && !is_opened(devices[d].raw))
        delete_late(d);
    else if (devices[d].goes) {
        let_extension_go(d, devices[d].deleted);
        self.calls = &c;
        tell_gone(d);
        self.calls = c.up;
    }
}

void item_is_queued(int d)
{
    touch(&devices[d].items, SYNCS);
    devices[d].items++;
}

void item_has_returned(int d)
{
    touch(&devices[d].items, SYNCS);
    devices[d].items--;
    may_go(d);
}

VOID WdmIoDetachDevice(PDEVICE_OBJECT Lower, WDM_SITE at)
{
    Call c;
    enter_host(&c, "IoDetachDevice", at);
    touch(&devices, WRITES);
    const int d = device_number(Lower), up = devices[d].upper;
    Entry *e = begin(DETACH, NULL, d);
    e->device = d;
    const char *no = rules_refusal(e);
    if (no)
        refuse(e, no);
    else {
        number_sends_through(up);
        devices[d].upper = devices[up].lower = NOBODY;
        Lower->AttachedDevice = NULL;
        touch_memory(&Lower->AttachedDevice, sizeof Lower->AttachedDevice, WRITES);
        answered(e, DEVICE, (uint64_t)up);
        if (devices[d].leaving)
            delete_late(d);
    }
    leave_host();
    take_from_between(Lower);
}

/* The dispatch of a REMOVE of the device that runs on this thread, or NULL. */
static const Frame *removing(int d)
{
    const Frame *f = self.frames;
    return f && f->kind == DISPATCH && f->device == d && f->major == IRP_MJ_PNP && lives(f->p) && f->p->use == f->use &&
        raw_at(f->p, f->location)->MinorFunction == IRP_MN_REMOVE_DEVICE ? f : NULL;
}

/* A dispatch returns: where its device was deleted in it, that is done now. */
void delete_after(int d)
{
    if (d >= 0 && devices[d].leaving && devices[d].upper < 0)
        delete_late(d);
}

/* The host's own devices go when their work items are done, as a driver waits for its own. The dispatch that removes one
   isn't waited for. */
static bool is_at_rest(const void *device)
{
    const int d = (int)((const Device *)device - devices);
    return devices[d].running <= frames_of(d, self.frames) && !has_work(d);
}

static bool is_on_this_thread(const Packet *p)
{
    const Frame *f = self.frames;
    while (f && f->p != p)
        f = f->up;
    return f;
}

/* Whether another thread has the packet on its way up, and has called the device's completion routine there. */
static bool comes_up(const Packet *p, int d)
{
    if (!lives(p) || !p->open || p->open->sealed || is_on_this_thread(p))
        return false;
    for (int i = 0; i < p->open->n; i++)
        if (p->open->asked[i].kind == ROUTINE && p->open->asked[i].device == d)
            return true;
    return false;
}

static bool is_on_way(const Packet *p, int d)
{
    for (int j = p->current; j <= p->size; j++)
        if (p->at[j].device == d)
            return true;
    return p->owner == d;
}

/* Whether nothing holds the device but packets whose routines were called. */
static bool is_only_left_by_packets(int d)
{
    bool any = false;
    for (int i = 0; i < n_packets; i++)
        if (lives(packets[i]) && is_on_way(packets[i], d)) {
            if (!comes_up(packets[i], d))
                return false;
            any = true;
        }
    return any && (!devices[d].bound || lock_knows_drained(d));
}

static bool has_left(const void *device)
{
    for (int i = 0; i < n_packets; i++)
        if (comes_up(packets[i], (int)((const Device *)device - devices)))
            return false;
    return true;
}

/* Whether one is in flight there. */
static void touch_packets(void)
{
    for (int i = 0; i < n_packets; i++)
        if (lives(packets[i]))
            touch(packets[i]->irp, READS);
}

/* A routine that has released the remove lock, or has told in another way that it is done, only returns: so a driver may
   delete the device before that. The history has the deletion behind the packet's way up. But the extension is let go
   here, so that a routine which uses it now is told. */
static void wait_for_routines(int d)
{
    tell_running(d, self.frames);
    let_extension_go(d, self.calls->at);
    wait_for_host(has_left, &devices[d]);
    touch(&devices[d].running, SYNCS);
    touch_packets();
}

/* As in Windows, a device with another one above it goes once that one is gone; and one that is deleted in its own
   REMOVE before the packet is completed goes when the dispatch returns. */
VOID WdmIoDeleteDevice(PDEVICE_OBJECT Device, WDM_SITE at)
{
    Call c;
    enter_host(&c, "IoDeleteDevice", at);
    touch(&devices, WRITES);
    touch_packets();
    const int d = device_number(Device);
    if (is_bottom(Device) || is_between(Device)) {
        wait_for_host(is_at_rest, &devices[d]);
        touch(&devices[d].running, SYNCS);
    }
    if (devices[d].live && devices[d].lower < 0 && (devices[d].upper >= 0 || removing(d))) {
        devices[d].leaving = true;
        devices[d].deleted = at;
    } else if (devices[d].stays)
        fault("DeviceGone", NULL, "%s was deleted before, at %s", who(d), place(devices[d].deleted));
    else if (!devices[d].live || !stays_for_now(d)) {
        if (devices[d].live && is_only_left_by_packets(d))
            wait_for_routines(d);
        delete_now(d, self.frames);
    }
    leave_host();
}
