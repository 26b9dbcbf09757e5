/* returns.c: the table of returned statuses of Wine's ntoskrnl.c, as requests from within the kernel: eight statuses, at
   once or pended, buffered or direct. What Windows does with each is compared, under that file's lines: where the status
   is an error and comes at once, the status block and the event stay as they are; the output of an error isn't copied
   back. */
#include "common.h"
#include "driver.h"

enum { RETURNED = 693, QUIET_STATUS = 696, QUIET_BYTES = 697, STATUS = 701, BYTES = 702, BUFFER = 704 };
enum { UNTOUCHED = 0x0eadf00d };

static void count(int line, int held)
{
    FILE *f = getenv("WINE_OKS") ? fopen(getenv("WINE_OKS"), "a") : NULL;
    if (f) {
        fprintf(f, "ntoskrnl.c %d %d\n", line, held != 0);
        fclose(f);
    }
}

static void ask(PDEVICE_OBJECT top, NTSTATUS status, BOOLEAN pends, BOOLEAN direct)
{
    struct return_status_params wanted = { pends ? STATUS_PENDING : status, status, pends };
    char buffer[7] = "abcdef";
    KEVENT done;
    IO_STATUS_BLOCK io = { .Status = UNTOUCHED, .Information = UNTOUCHED };
    LARGE_INTEGER moment = { .QuadPart = -20000 };
    const BOOLEAN is_error = (ULONG)status >> 30 == 3;
    KeInitializeEvent(&done, NotificationEvent, FALSE);
    PIRP irp = IoBuildDeviceIoControlRequest(direct ? IOCTL_WINETEST_RETURN_STATUS_DIRECT :
                                             IOCTL_WINETEST_RETURN_STATUS_BUFFERED, top, &wanted, sizeof wanted,
                                             buffer, sizeof buffer, FALSE, &done, &io);
    const NTSTATUS returned = IoCallDriver(top, irp);
    KeWaitForSingleObject(&done, Executive, KernelMode, FALSE, &moment);
    count(RETURNED, returned == wanted.ret_status);
    if (is_error && !pends) {
        count(QUIET_STATUS, io.Status == UNTOUCHED);
        count(QUIET_BYTES, io.Information == UNTOUCHED);
    } else {
        count(STATUS, io.Status == status);
        count(BYTES, io.Information == 3);
    }
    count(BUFFER, !strcmp(buffer, direct ? "ghijkl" : is_error ? "abcdef" : "ghidef"));
}

int main(void)
{
    static const NTSTATUS statuses[] = { STATUS_SUCCESS, STATUS_TIMEOUT, 0x0eadbeef, 0x4eadbeef, STATUS_BUFFER_OVERFLOW,
                                         (NTSTATUS)0x8eadbeef, STATUS_NOT_IMPLEMENTED, (NTSTATUS)0xceadbeef };
    WdmMakeSection(L"\\BaseNamedObjects\\winetest_ntoskrnl_section", 4096);
    WdmMakeFile(L"\\??\\C:\\windows\\winetest_ntoskrnl_okfile");
    PDEVICE_OBJECT lower = WdmLoadByName("WineTestDriver")->DeviceObject;
    while (lower->NextDevice)
        lower = lower->NextDevice;
    PDEVICE_OBJECT top = IoGetAttachedDevice(lower);
    for (size_t i = 0; i < sizeof statuses / sizeof *statuses; i++)
        for (int way = 0; way < 4; way++)
            ask(top, statuses[i], way & 1, way >> 1);
    return WdmFinish();
}
