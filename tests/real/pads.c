/* pads.c: winebus: game pads that come, send reports and go; the library behind its Unix side is simulated. */
#include "common.h"
#include "hidusage.h"
#include "ddk/hidclass.h"
#include "ddk/hidport.h"
#include "unixlib.h"

static const BYTE report[] = { 0x05, 0x01, 0x09, 0x05, 0xa1, 0x01, 0x15, 0x00, 0x25, 0x7f, 0x75, 0x08, 0x95, 0x02, 0x09,
                               0x30, 0x09, 0x31, 0x81, 0x02, 0x95, 0x01, 0x09, 0x32, 0xb1, 0x02, 0x09, 0x33, 0x91, 0x02,
                               0xc0 };
static struct bus_event queue[64];
static unsigned head, tail;
static BOOLEAN over;
static KEVENT some;
static KSPIN_LOCK lock;

static void push(struct bus_event event)
{
    KIRQL irql;
    event.device = 7;
    KeAcquireSpinLock(&lock, &irql);
    queue[tail++ % 64] = event;
    KeReleaseSpinLock(&lock, irql);
    KeSetEvent(&some, 0, FALSE);
}

static void input(BYTE x)
{
    struct bus_event event = { .type = BUS_EVENT_TYPE_INPUT_REPORT };
    event.input_report.length = 2;
    event.input_report.buffer[0] = x;
    push(event);
}

static NTSTATUS next_event(struct bus_event *event)
{
    for (;;) {
        KIRQL irql;
        KeAcquireSpinLock(&lock, &irql);
        const BOOLEAN is_there = head != tail;
        if (is_there)
            *event = queue[head++ % 64];
        KeReleaseSpinLock(&lock, irql);
        if (is_there)
            return STATUS_PENDING;
        if (over)
            return STATUS_SUCCESS;
        KeWaitForSingleObject(&some, Executive, KernelMode, FALSE, NULL);
    }
}

static NTSTATUS describe(struct device_descriptor_params *p)
{
    *p->out_length = sizeof report;
    if (p->length < sizeof report)
        return STATUS_BUFFER_TOO_SMALL;
    memcpy(p->buffer, report, sizeof report);
    return STATUS_SUCCESS;
}

NTSTATUS WdmUnixCall(unsigned code, void *parameters)
{
    struct device_report_params *p = parameters;
    switch (code) {
    case udev_init: case device_start: case device_remove: return STATUS_SUCCESS;
    case udev_stop: over = TRUE, KeSetEvent(&some, 0, FALSE); return STATUS_SUCCESS;
    case udev_wait: return next_event(parameters);
    case device_get_report_descriptor: return describe(parameters);
    case device_set_output_report: case device_get_feature_report: case device_set_feature_report:
        p->io->Status = STATUS_SUCCESS;
        p->io->Information = p->packet->reportBufferLen;
        return STATUS_SUCCESS;
    default: return STATUS_NOT_SUPPORTED;
    }
}

/* Requests of a program. */
static void use(PDEVICE_OBJECT collection)
{
    const BYTE bytes[2] = { 0, 7 };
    PFILE_OBJECT file = WdmOpenFile(collection);
    for (BYTE i = 0; i < 5; i++) {
        Request *read = Prepare(collection, IRP_MJ_READ, 0, NULL, 0, 3);
        IoCallDriver(collection, read->irp);
        input(i);
        Wait(read, 500);
    }
    Send(collection, IRP_MJ_WRITE, 0, bytes, sizeof bytes, 0);
    Control(collection, IOCTL_HID_SET_OUTPUT_REPORT, bytes, sizeof bytes, 0);
    if (file)
        WdmCloseFile(file);
}

int main(void)
{
    struct bus_event created = { .type = BUS_EVENT_TYPE_DEVICE_CREATED };
    LARGE_INTEGER moment = { .QuadPart = -1000000 };
    created.device_created.desc = (struct device_desc){ .vid = 0x1209, .pid = 1, .is_gamepad = TRUE, .input = (UINT)-1 };
    KeInitializeEvent(&some, SynchronizationEvent, FALSE);
    KeInitializeSpinLock(&lock);
    PDEVICE_OBJECT host = Add(WdmLoadByName("winebus"), WdmCreateBottom(FALSE));
    push(created);
    KeDelayExecutionThread(KernelMode, FALSE, &moment);
    PDEVICE_OBJECT pad = Child(host, 0), hid = pad ? Add(WdmLoadByName("winehid"), pad) : NULL;
    PDEVICE_OBJECT collection = hid ? Child(hid, 0) : NULL;
    if (!collection || Pnp(collection, IRP_MN_START_DEVICE))
        return WdmFinish();
    use(collection);
    /* the order of a pad that has vanished, without the surprise of hidclass's function device, which it loses */
    push((struct bus_event){ .type = BUS_EVENT_TYPE_DEVICE_REMOVED });
    Pnp(collection, IRP_MN_SURPRISE_REMOVAL);
    Pnp(pad, IRP_MN_SURPRISE_REMOVAL);
    Pnp(collection, IRP_MN_REMOVE_DEVICE);
    Pnp(hid, IRP_MN_REMOVE_DEVICE);
    Pnp(host, IRP_MN_REMOVE_DEVICE);
    return WdmFinish();
}
