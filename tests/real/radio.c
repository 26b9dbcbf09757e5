/* radio.c: winebth: radios that come and go, found by the Plug and Play manager; the library behind its Unix side is
   simulated. */
#include "common.h"
#include "ddk/hidclass.h"
#include "bthsdpdef.h"
#include "bluetoothapis.h"
#include "bthdef.h"
#include "winioctl.h"
#include "bthioctl.h"
#include "unixlib.h"

static struct winebluetooth_event queue[64];
static unsigned head, tail;
static BOOLEAN over;
static KEVENT some;
static KSPIN_LOCK lock;

static void push(enum winebluetooth_watcher_event_type type, UINT_PTR radio)
{
    struct winebluetooth_event event = { .status = WINEBLUETOOTH_EVENT_WATCHER_EVENT };
    struct winebluetooth_watcher_event *its = &event.data.watcher_event;
    const struct winebluetooth_radio_properties properties = { .name = "radio", .version = 9, .manufacturer = 2 };
    KIRQL irql;
    its->event_type = type;
    switch (type) {
    case BLUETOOTH_WATCHER_EVENT_TYPE_RADIO_ADDED:
        its->event_data.radio_added.radio.handle = radio;
        its->event_data.radio_added.props = properties;
        its->event_data.radio_added.props_mask = WINEBLUETOOTH_RADIO_ALL_PROPERTIES;
        break;
    case BLUETOOTH_WATCHER_EVENT_TYPE_RADIO_REMOVED: its->event_data.radio_removed.handle = radio; break;
    default:
        its->event_data.radio_props_changed.radio.handle = radio;
        its->event_data.radio_props_changed.props = properties;
        its->event_data.radio_props_changed.changed_props_mask = WINEBLUETOOTH_RADIO_ALL_PROPERTIES;
    }
    KeAcquireSpinLock(&lock, &irql);
    queue[tail++ % 64] = event;
    KeReleaseSpinLock(&lock, irql);
    KeSetEvent(&some, 0, FALSE);
}

static NTSTATUS next_event(struct bluetooth_get_event_params *p)
{
    for (;;) {
        KIRQL irql;
        KeAcquireSpinLock(&lock, &irql);
        const BOOLEAN is_there = head != tail;
        if (is_there)
            p->result = queue[head++ % 64];
        KeReleaseSpinLock(&lock, irql);
        if (is_there)
            return STATUS_PENDING;
        if (over)
            return STATUS_SUCCESS;
        KeWaitForSingleObject(&some, Executive, KernelMode, FALSE, NULL);
    }
}

NTSTATUS WdmUnixCall(unsigned code, void *parameters)
{
    struct bluetooth_adapter_get_unique_name_params *p = parameters;
    switch (code) {
    case unix_bluetooth_get_event: return next_event(parameters);
    case unix_bluetooth_shutdown: over = TRUE, KeSetEvent(&some, 0, FALSE); return STATUS_SUCCESS;
    case unix_bluetooth_adapter_get_unique_name:
        snprintf(p->buf, p->buf_size, "hci%u", (unsigned)p->adapter);
        return STATUS_SUCCESS;
    default: return STATUS_SUCCESS;
    }
}

static void settle(void)
{
    LARGE_INTEGER moment = { .QuadPart = -1000000 };
    KeDelayExecutionThread(KernelMode, FALSE, &moment);
    WdmSettlePlugAndPlay();
}

int main(int argc, char **argv)
{
    PDEVICE_OBJECT bottom = WdmCreateBottom(FALSE), radios[2] = { NULL };
    KeInitializeEvent(&some, SynchronizationEvent, FALSE);
    KeInitializeSpinLock(&lock);
    WdmAddDevice(WdmLoadByName("winebth"), bottom);
    WdmPlugIn(bottom);
    push(BLUETOOTH_WATCHER_EVENT_TYPE_RADIO_ADDED, 0);
    push(BLUETOOTH_WATCHER_EVENT_TYPE_RADIO_ADDED, 1);
    settle();
    const ULONG n = WdmGetChildren(bottom, radios, 2);
    for (ULONG i = 0; i < n; i++) {
        Control(radios[i], IOCTL_BTH_GET_LOCAL_INFO, NULL, 0, sizeof(BTH_LOCAL_RADIO_INFO));
        Control(radios[i], IOCTL_BTH_GET_LOCAL_INFO, NULL, 0, 4);
        Control(radios[i], IOCTL_HID_GET_FEATURE, NULL, 0, 4); /* which a radio doesn't know */
    }
    push(BLUETOOTH_WATCHER_EVENT_TYPE_RADIO_PROPERTIES_CHANGED, 1);
    if (Does(argc, argv, "removed"))
        push(BLUETOOTH_WATCHER_EVENT_TYPE_RADIO_REMOVED, 1);
    settle();
    WdmUnplug(bottom, Does(argc, argv, "surprise"));
    return WdmFinish();
}
