/* The system sleeps and wakes: the device has its own state by the time at which the system's packet ends. */
#include "../lesson_test.h"

static REQUEST r;

static int n_device_packets, last_device_state;

/* The device takes its time. */
static NTSTATUS power_below(PDEVICE_OBJECT device, PIRP irp)
{
    PIO_STACK_LOCATION stack = IoGetCurrentIrpStackLocation(irp);
    UNREFERENCED_PARAMETER(device);
    if (stack->Parameters.Power.Type != DevicePowerState)
        return end_below(irp, STATUS_SUCCESS, 0);
    n_device_packets++;
    last_device_state = stack->Parameters.Power.State.DeviceState;
    return hold_below(irp);
}

/* The system's packet waits for the device's, which the device below holds for a while. */
static void set_system(PDEVICE_OBJECT top, SYSTEM_POWER_STATE state)
{
    LARGE_INTEGER a_moment = { .QuadPart = -10000 };
    build(&r, top, IRP_MJ_POWER, 0);
    PIO_STACK_LOCATION next = IoGetNextIrpStackLocation(r.Irp);
    next->MinorFunction = IRP_MN_SET_POWER;
    next->Parameters.Power.Type = SystemPowerState;
    next->Parameters.Power.State.SystemState = state;
    PoCallDriver(top, r.Irp);
    for (int i = 0; i < 1000 && !below.NHeld && !is_done(&r); i++)
        KeDelayExecutionThread(KernelMode, FALSE, &a_moment);
    WDM_CHECK(!is_done(&r));
    answer(STATUS_SUCCESS, 0);
    wait_for(&r);
    WDM_CHECK(r.Iosb.Status == STATUS_SUCCESS);
}

WDM_TEST(the_device_follows_the_system)
{
    PDEVICE_OBJECT bottom, top = stack(&bottom);
    PDRIVER_OBJECT driver = top->DriverObject;
    bottom->DriverObject->MajorFunction[IRP_MJ_POWER] = power_below;
    pnp(top, IRP_MN_START_DEVICE);
    set_system(top, PowerSystemSleeping3);
    WDM_CHECK(n_device_packets == 1 && last_device_state == PowerDeviceD3);
    set_system(top, PowerSystemWorking);
    WDM_CHECK(n_device_packets == 2 && last_device_state == PowerDeviceD0);
    take_away(top, bottom);
    unload(driver);
}
