/* devices.c: devices, drivers' tables, and whose call it is. */
#include "recording.h"

/* The dispatches of a driver are replaced by the recorder's one. What isn't the driver's own is left alone. */
void irpx_wrap(PDRIVER_OBJECT driver)
{
    int k = 0;
    while (k < irpx.n_drivers && irpx.drivers[k].raw != driver)
        k++;
    if (k == IRPX_DRIVERS) {
        irpx_lose();
        return;
    }
    if (k == irpx.n_drivers)
        irpx.drivers[irpx.n_drivers++].raw = driver;
    for (int m = 0; m < IRPX_MAJORS; m++) {
        PDRIVER_DISPATCH fn = driver->MajorFunction[m];
        if (!fn || fn == irpx_dispatch || fn == irpx.unhandled)
            continue;
        irpx.drivers[k].fn[m] = fn;
        irpx.drivers[k].id[m] = irpx_id(irpx.dispatches, &irpx.n_dispatches, (void *)(uintptr_t)fn);
        driver->MajorFunction[m] = irpx_dispatch;
    }
}

VOID IrpxWrapDriver(PDRIVER_OBJECT Driver)
{
    int same = 1;
    irpx_enter();
    while (same < IRPX_MAJORS && Driver->MajorFunction[same] == Driver->MajorFunction[0])
        same++;
    if (same == IRPX_MAJORS)
        irpx.unhandled = Driver->MajorFunction[0];
    irpx_wrap(Driver);
    irpx_leave();
}

static int driver_number(PDRIVER_OBJECT raw)
{
    for (int k = 0; k < irpx.n_drivers; k++)
        if (irpx.drivers[k].raw == raw)
            return k;
    return 0;
}

static BOOLEAN is_same_file(const char *a, const char *b)
{
    while (*a && *a == *b) {
        a++;
        b++;
    }
    return *a == *b;
}

/* Which driver a source file is of: the one whose devices it creates. One that creates several drivers' is nobody's. */
static void learn_file(const char *file, int driver)
{
    for (int i = 0; i < irpx.n_files; i++)
        if (is_same_file(irpx.files[i].file, file)) {
            if (irpx.files[i].driver != driver)
                irpx.files[i].driver = IRPX_NOBODY;
            return;
        }
    if (irpx.n_files < IRPX_FILES) {
        irpx.files[irpx.n_files].file = file;
        irpx.files[irpx.n_files++].driver = driver;
    }
}

static int driver_of(int device) { return device < 0 ? IRPX_NOBODY : irpx.devices[device].driver; }

/* Whose code makes this call: by its file; else by the innermost routine that runs. */
int irpx_calling_driver(const char *file)
{
    for (int i = 0; file && i < irpx.n_files; i++)
        if (irpx.files[i].driver != IRPX_NOBODY && is_same_file(irpx.files[i].file, file))
            return irpx.files[i].driver;
    const IrpxFrame *f = irpx_top();
    if (f && f->asked->device >= 0)
        return driver_of(f->asked->device);
    return f ? f->p->allocator : IRPX_NOBODY;
}

/* A device of the driver that calls, to be named where it calls on a packet that isn't its own. */
static int calling_device(int driver)
{
    for (const IrpxFrame *f = irpx_top(); f; f = f->up)
        if (f->asked->device >= 0 && driver_of(f->asked->device) == driver)
            return f->asked->device;
    for (int d = 0; d < irpx.n_devices; d++)
        if (irpx.devices[d].driver == driver)
            return d;
    return IRPX_ORIGINATOR;
}

/* In whose name the call is: that of the packet's routine that runs on this thread; else of whoever is asked about the
   packet or has it, where the calling code may be theirs; else of the caller's own device. */
int irpx_party(const IrpxPacket *p, const char *file)
{
    const IrpxFrame *f = irpx_top();
    if (f && f->p == p && f->use == p->use)
        return f->asked->device;
    const int holder = p->asking ? p->asking->asked->device : p->owner == IRPX_ENDED ? p->last : p->owner;
    const int caller = irpx_calling_driver(file);
    if (caller == IRPX_NOBODY || driver_of(holder) == caller)
        return holder;
    if (holder == IRPX_ORIGINATOR && p->allocator == caller)
        return holder;
    return calling_device(caller);
}

/* The number of a device. One that is seen first now is taken as created; its number is that of its remove lock too. */
int irpx_device(PDEVICE_OBJECT raw)
{
    for (int d = irpx.n_devices; raw && d > 0; d--)
        if (irpx.devices[d - 1].raw == raw)
            return d - 1;
    if (!raw)
        return IRPX_ORIGINATOR;
    if (irpx.n_devices == IRPX_DEVICES) {
        irpx_lose();
        return IRPX_ORIGINATOR;
    }
    irpx_wrap(raw->DriverObject);
    IrpxEntry *e = irpx_begin(IRPX_CREATE, NULL, IRPX_ORIGINATOR);
    e->other = driver_number(raw->DriverObject);
    e->device = irpx.n_devices;
    irpx.devices[irpx.n_devices].raw = raw;
    irpx.devices[irpx.n_devices].driver = e->other;
    irpx.devices[irpx.n_devices].live = TRUE;
    irpx_answer(e, IRPX_DEVICE, (uint64_t)irpx.n_devices);
    return irpx.n_devices++;
}

NTSTATUS IrpxCreateDevice(PDRIVER_OBJECT Driver, ULONG Extension, PUNICODE_STRING Name, DEVICE_TYPE Type,
                          ULONG Characteristics, BOOLEAN Exclusive, PDEVICE_OBJECT *Device, const char *File)
{
    const NTSTATUS status = IoCreateDevice(Driver, Extension, Name, Type, Characteristics, Exclusive, Device);
    if (!NT_SUCCESS(status))
        return status;
    irpx_enter();
    for (int d = 0; d < irpx.n_devices; d++) /* a deleted one's address may come again */
        if (irpx.devices[d].raw == *Device)
            irpx.devices[d].raw = NULL;
    const int d = irpx_device(*Device);
    if (d >= 0) {
        irpx.devices[d].seen = TRUE; /* its driver is compiled with the recorder */
        learn_file(File, irpx.devices[d].driver);
    }
    irpx_leave();
    return status;
}

PDEVICE_OBJECT IrpxAttachDevice(PDEVICE_OBJECT Device, PDEVICE_OBJECT Target)
{
    irpx_enter();
    const int d = irpx_device(Device), to = irpx_device(Target);
    irpx_leave();
    PDEVICE_OBJECT below = IoAttachDeviceToDeviceStack(Device, Target);
    if (!below)
        return NULL;
    irpx_enter();
    IrpxEntry *e = irpx_begin(IRPX_ATTACH, NULL, d);
    e->device = d;
    e->other = to;
    irpx_answer(e, IRPX_DEVICE, (uint64_t)irpx_device(below));
    irpx_leave();
    return below;
}

VOID IrpxDetachDevice(PDEVICE_OBJECT Lower)
{
    irpx_enter();
    IrpxEntry *e = irpx_begin(IRPX_DETACH, NULL, IRPX_ORIGINATOR), *put_off = NULL;
    e->device = irpx_device(Lower);
    if (e->device >= 0) {
        put_off = irpx.devices[e->device].put_off;
        irpx.devices[e->device].put_off = NULL;
    }
    irpx_answer(e, IRPX_DEVICE, (uint64_t)(put_off ? put_off->other : irpx_device(Lower->AttachedDevice)));
    if (put_off) {
        irpx.devices[e->device].live = FALSE;
        irpx_seal(put_off);
    }
    irpx_leave();
    IoDetachDevice(Lower);
}

/* Whether another thread is completing a packet, and hasn't come back from it: its entry has no place yet. With
   `is_recorded`, only one whose completion went through the recorder, which is told when that returns. */
static BOOLEAN is_one_rising(BOOLEAN is_recorded)
{
    for (unsigned i = 0; i < irpx.n_packets; i++) {
        const IrpxPacket *p = irpx.packets[i];
        const BOOLEAN rises = is_recorded ? p->completing > 0 : p->rising || !p->asking;
        if (p->irp && p->open && p->open->seat != irpx.me && rises)
            return TRUE;
    }
    return FALSE;
}

/* What code without the recorder completes has no call that returns. */
static void end_what_rises(void)
{
    for (unsigned i = 0; i < irpx.n_packets; i++) {
        IrpxPacket *p = irpx.packets[i];
        if (p->irp && p->open && p->rising && !p->asking && !p->completing)
            irpx_ended(p, p->use, p->open);
    }
}

/* With a device above it, a delete is put off until that one is detached, as in Windows. */
VOID IrpxDeleteDevice(PDEVICE_OBJECT Device)
{
    irpx_enter();
    for (int i = 0; i < 1000 && is_one_rising(FALSE); i++)
        irpx_pause();
    for (int i = 0; i < 1000000 && is_one_rising(TRUE); i++) /* that one comes back, however late */
        irpx_pause();
    end_what_rises();
    IrpxEntry *e = irpx_begin(IRPX_DELETE, NULL, IRPX_ORIGINATOR);
    e->device = irpx_device(Device);
    e->reply = IRPX_DONE;
    e->other = irpx_device(Device->AttachedDevice);
    if (e->device >= 0 && e->other >= 0)
        irpx.devices[e->device].put_off = e;
    else {
        if (e->device >= 0)
            irpx.devices[e->device].live = FALSE;
        irpx_seal(e);
    }
    irpx_leave();
    IoDeleteDevice(Device);
}
