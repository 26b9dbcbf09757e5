/* Each control answers what fits and no more, whatever lengths the caller gives for input and output. */
#include "../lesson_test.h"

enum { GET = 0x222000, FILL = 0x222006, PEEK = 0x22200b };
static UCHAR input[32], output[32];
static IO_STATUS_BLOCK iosb;

/* Sends a control with these lengths. Returns its status. */
static NTSTATUS control(PDEVICE_OBJECT device, ULONG code, ULONG n_input, ULONG n_output)
{
    static KEVENT done;
    KeInitializeEvent(&done, NotificationEvent, FALSE);
    memset(output, 0xee, sizeof output);
    iosb.Information = 0;
    PIRP irp = IoBuildDeviceIoControlRequest(code, device, n_input ? input : NULL, n_input, n_output ? output : NULL, n_output,
                                             FALSE, &done, &iosb);
    if (!irp)
        return STATUS_INSUFFICIENT_RESOURCES;
    const NTSTATUS status = IoCallDriver(device, irp);
    if (status == STATUS_PENDING)
        KeWaitForSingleObject(&done, Executive, KernelMode, FALSE, NULL);
    return status == STATUS_PENDING ? iosb.Status : status;
}

/* How many bytes of the output were written. */
static ULONG written(void)
{
    ULONG n = 0;
    while (n < sizeof output && output[n] != 0xee)
        n++;
    return n;
}

static BOOLEAN is_the_version(void)
{
    const ULONG version = 0x01020304;
    return !memcmp(output, &version, sizeof version);
}

WDM_TEST(a_buffered_answer_is_as_long_as_it_fits)
{
    PDRIVER_OBJECT driver = WdmLoadByName(DRIVER);
    const PDEVICE_OBJECT device = driver->DeviceObject;
    WDM_CHECK(control(device, GET, 0, 4) == STATUS_SUCCESS && iosb.Information == 4 && written() == 4);
    WDM_CHECK(is_the_version());
    WDM_CHECK(control(device, GET, 0, 16) == STATUS_SUCCESS && iosb.Information == 4 && written() == 4);
    WDM_CHECK(!NT_SUCCESS(control(device, GET, 0, 3)) && written() == 0);
    WDM_CHECK(!NT_SUCCESS(control(device, GET, 16, 0)) && iosb.Information == 0);
    WDM_CHECK(!NT_SUCCESS(control(device, GET, 0, 0)));
    unload(driver);
}

WDM_TEST(a_direct_answer_fills_the_buffer)
{
    PDRIVER_OBJECT driver = WdmLoadByName(DRIVER);
    const PDEVICE_OBJECT device = driver->DeviceObject;
    WDM_CHECK(control(device, FILL, 0, 12) == STATUS_SUCCESS && iosb.Information == 12 && written() == 12);
    WDM_CHECK(control(device, FILL, 16, 5) == STATUS_SUCCESS && iosb.Information == 5 && written() == 5);
    control(device, FILL, 16, 0);
    unload(driver);
}

WDM_TEST(a_program_gives_a_pointer_of_its_own)
{
    PDRIVER_OBJECT driver = WdmLoadByName(DRIVER);
    WDM_CHECK(WdmControl(driver->DeviceObject, PEEK, 4) == STATUS_SUCCESS);
    WDM_CHECK(!NT_SUCCESS(WdmControl(driver->DeviceObject, PEEK, 3)));
    WDM_CHECK(!NT_SUCCESS(WdmControl(driver->DeviceObject, PEEK, 0)));
    unload(driver);
}
