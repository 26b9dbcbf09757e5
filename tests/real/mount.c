/* mount.c: mountmgr: drives that come and go, and what programs ask of them. `dhcp` and `symbol` ask what a thread
   answers; `many` counts more than there are, `late` has room for less than it sends, `short` has none. Its Unix side is
   simulated. */
#include "common.h"
#include "unixlib.h"


/* The address of a name server, as its Unix side writes it: four bytes, where there is room for them. */
static NTSTATUS answer_dhcp(const struct dhcp_request_params *p)
{
    if (p->size >= 4) {
        memcpy(p->buffer + p->offset, "\177\0\0\1", 4);
        p->req->offset = p->offset;
        p->req->size = 4;
    }
    *p->ret_size = 4;
    return STATUS_SUCCESS;
}

NTSTATUS WdmUnixCall(unsigned code, void *parameters)
{
    switch (code) {
    case unix_get_dosdev_symlink:
    case unix_read_volume_file:
    case unix_check_device_access:
    case unix_get_volume_dos_devices: return STATUS_NO_SUCH_FILE;
    case unix_detect_serial_ports: memcpy(((struct detect_ports_params *)parameters)->names, "/dev/one\0", 10); return 0;
    case unix_detect_parallel_ports: *((struct detect_ports_params *)parameters)->names = 0; return 0;
    case unix_dhcp_request: return answer_dhcp(parameters);
    case unix_query_symbol_file: return STATUS_NOT_FOUND;
    default: return STATUS_SUCCESS;
    }
}

static PDEVICE_OBJECT top;

static NTSTATUS define(WCHAR letter, ULONG type)
{
    static struct { struct mountmgr_unix_drive drive; char mount[8]; } in = { .mount = "/tmp" };
    in.drive.letter = letter;
    in.drive.type = type;
    in.drive.mount_point_offset = sizeof in.drive;
    return Control(top, IOCTL_MOUNTMGR_DEFINE_UNIX_DRIVE, &in, sizeof in, 0);
}

static NTSTATUS ask_drive(WCHAR letter, ULONG room)
{
    const struct mountmgr_unix_drive in = { .letter = letter };
    return Control(top, IOCTL_MOUNTMGR_QUERY_UNIX_DRIVE, &in, sizeof in, room);
}

static PDEVICE_OBJECT device_of(PCWSTR text)
{
    UNICODE_STRING name;
    PFILE_OBJECT file;
    PDEVICE_OBJECT device = NULL;
    RtlInitUnicodeString(&name, text);
    IoGetDeviceObjectPointer(&name, FILE_READ_DATA, &file, &device);
    return device;
}

static NTSTATUS ask_volume(PDEVICE_OBJECT disk, FS_INFORMATION_CLASS class, ULONG room)
{
    Request *r = Prepare(disk, IRP_MJ_QUERY_VOLUME_INFORMATION, 0, NULL, room, room);
    PIO_STACK_LOCATION next = IoGetNextIrpStackLocation(r->irp);
    next->Parameters.QueryVolume.Length = room;
    next->Parameters.QueryVolume.FsInformationClass = class;
    IoCallDriver(disk, r->irp);
    return Wait(r, 500) ? r->io.Status : STATUS_PENDING;
}

static void use_drives(void)
{
    static const ULONG controls[] = { IOCTL_DISK_GET_DRIVE_GEOMETRY, IOCTL_DISK_GET_DRIVE_GEOMETRY_EX,
                                      IOCTL_STORAGE_GET_DEVICE_NUMBER, IOCTL_CDROM_READ_TOC,
                                      IOCTL_VOLUME_GET_VOLUME_DISK_EXTENTS };
    const STORAGE_PROPERTY_QUERY wanted = { .PropertyId = StorageDeviceProperty };
    const MOUNTMGR_MOUNT_POINT all = { 0 };
    WDM_CHECK(define('d', DRIVE_FIXED) == STATUS_SUCCESS);
    WDM_CHECK(define('e', DRIVE_CDROM) == STATUS_SUCCESS);
    WDM_CHECK(ask_drive('d', 256) == STATUS_SUCCESS);
    Control(top, IOCTL_MOUNTMGR_QUERY_POINTS, &all, sizeof all, 1024);
    Control(top, IOCTL_MOUNTMGR_QUERY_POINTS, &all, sizeof all, sizeof(MOUNTMGR_MOUNT_POINTS));
    PDEVICE_OBJECT disk = device_of(L"\\Device\\HarddiskVolume1");
    WDM_CHECK(disk != NULL);
    for (int i = 0; i < (int)ARRAYSIZE(controls); i++)
        Control(disk, controls[i], NULL, 0, 64);
    Control(disk, IOCTL_STORAGE_QUERY_PROPERTY, &wanted, sizeof wanted, 256);
    Control(disk, IOCTL_STORAGE_QUERY_PROPERTY, &wanted, sizeof wanted, 8);
    for (int class = FileFsVolumeInformation; class <= FileFsFullSizeInformation; class++)
        ask_volume(disk, (FS_INFORMATION_CLASS)class, 64);
    WDM_CHECK(define('d', DRIVE_NO_ROOT_DIR) == STATUS_SUCCESS);
    WDM_CHECK(ask_drive('d', 256) == STATUS_NO_SUCH_DEVICE);
}

static void ask_dhcp(ULONG count, ULONG room)
{
    const struct mountmgr_dhcp_request_params in = { .count = count, .unix_name = "lan0", .params = { { .id = 3 } } };
    Control(top, IOCTL_MOUNTMGR_QUERY_DHCP_REQUEST_PARAMS, &in, sizeof in, room);
}

int main(int argc, char **argv)
{
    const GUID symbols = { 0 };
    top = WdmLoadByName("mountmgr")->DeviceObject;
    if (Does(argc, argv, "drives"))
        use_drives();
    if (Does(argc, argv, "short")) {
        define('d', DRIVE_FIXED);
        ask_drive('d', 0);
    }
    if (Does(argc, argv, "dhcp"))
        ask_dhcp(1, 64);
    if (Does(argc, argv, "late"))
        ask_dhcp(1, 8);
    if (Does(argc, argv, "many"))
        ask_dhcp(0x55555556, 0); /* times 12 bytes it is 8, in 32 bits */
    if (Does(argc, argv, "symbol"))
        Control(top, IOCTL_MOUNTMGR_QUERY_SYMBOL_FILE, &symbols, sizeof symbols, 64);
    return WdmFinish();
}
