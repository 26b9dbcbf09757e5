/*
 * own_memory.c: what only the host writes. A packet's words and the locations above its owner's, and a device's words,
 * are compared with what the host wrote, at each call: the first call that finds a change tells it, in the name of the
 * driver whose code ran last on this thread, and the change is undone.
 */
#include "io/io.h"
#include "record/record.h"

/* Whose code ran on this thread since the host's last call. */
static const char *who_ran(void)
{
    return self.frames ? what_runs(self.frames) : who_calls();
}

__attribute__((format(printf, 2, 3))) static void overwritten(const Packet *p, const char *how, ...)
{
    char text[200];
    va_list list;
    va_start(list, how);
    vsnprintf(text, sizeof text, how, list);
    va_end(list);
    fault("Overwritten", p, "%s; found at this call, after code of %s", text, who_ran());
}

int device_number(const DEVICE_OBJECT *device)
{
    for (int i = 0; i < n_devices; i++)
        if (devices[i].raw == device)
            return i;
    give_up("a pointer that is no device of IoCreateDevice is handed to a call");
}

void check_devices(void)
{
    for (int i = 0; i < n_devices; i++) {
        Device *d = &devices[i];
        DEVICE_OBJECT *raw = d->raw;
        const PDEVICE_OBJECT upper = d->upper >= 0 ? devices[d->upper].raw : NULL;
        if (raw->DriverObject == d->driver && raw->DeviceExtension == d->extension && raw->HostNumber == i &&
            raw->AttachedDevice == upper && raw->HostExtensionSize == d->extension_size)
            continue;
        const char *what = raw->DriverObject != d->driver ? "DriverObject" :
            raw->DeviceExtension != d->extension ? "DeviceExtension" :
            raw->AttachedDevice != upper ? "AttachedDevice" : "what the host keeps there";
        raw->DriverObject = d->driver;
        raw->DeviceExtension = d->extension;
        raw->AttachedDevice = upper;
        raw->HostNumber = i;
        raw->HostExtensionSize = d->extension_size;
        overwritten(NULL, "%s of the device object of %s was written to", what, who(i));
    }
}

/* The location above the one that a device gets with the packet, as its owner leaves it. */
void leave_location(Packet *p, int j)
{
    if (j > p->size)
        return;
    if (!p->kept.above)
        p->kept.above = calloc((size_t)p->size + 1, sizeof *p->kept.above);
    if (!p->kept.above)
        give_up("out of memory");
    p->kept.above[j] = *raw_at(p, j);
    p->kept.left |= 1ull << j;
}

static void check_words(Packet *p, int here)
{
    const PIRP irp = p->irp;
    if (irp->StackCount != p->kept.stack_count) {
        const int was = irp->StackCount;
        irp->StackCount = p->kept.stack_count;
        overwritten(p, "Irp->StackCount was %d, and %d was written", p->kept.stack_count, was);
    }
    if (!is_skipped_by_hand(p) && !is_moved_by_hand(p) &&
        (irp->CurrentLocation != here || irp->Tail.Overlay.CurrentStackLocation != raw_at(p, here))) {
        const int was = irp->CurrentLocation;
        irp->CurrentLocation = (CHAR)here;
        irp->Tail.Overlay.CurrentStackLocation = raw_at(p, here);
        overwritten(p, "the current location was %d of %d, and %d was written", here, p->size, was);
    }
}

/* At a call on the packet. */
void check_packet(Packet *p)
{
    if (!lives(p) || p->touch.is_trapped)
        return;
    take_own_location(p);
    const bool one_up = (p->asking && p->asking->kind == ROUTINE) || (p->asking && p->next.skipped);
    const int here = p->current + one_up;
    check_words(p, here);
    for (int j = here + 1; j <= p->size; j++) {
        IO_STACK_LOCATION *raw = raw_at(p, j);
        if (!(p->kept.left >> j & 1))
            continue;
        p->kept.above[j].Control = raw->Control; /* the pending bit is the host's */
        if (!memcmp(raw, &p->kept.above[j], sizeof *raw))
            continue;
        *raw = p->kept.above[j];
        overwritten(p, "the location of %s was written to, while the packet is below it", who(p->at[j].device));
    }
}
