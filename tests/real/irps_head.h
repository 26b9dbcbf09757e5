/* irps_head.h: what stands before the functions that `run` cuts out of driver.c: those that have to do with packets. The
   others, which look into structures of the kernel, are empty here. */
#include "ntstatus.h"
#include "windef.h"
#include "winioctl.h"
#include "ddk/wdm.h"
#include "driver.h"
#include "utils.h"
#include "oks.h"

struct file_context { DWORD id; ULONG namelen; WCHAR name[10]; };
static DRIVER_OBJECT *driver_obj;
static DEVICE_OBJECT *lower_device, *upper_device;
static FILE_OBJECT *last_created_file;
static unsigned int create_count, close_count, got_completion, completion_lower_pending, completion_upper_pending;
static void *create_caller_thread;
static PETHREAD create_irp_thread;
static PIO_WORKITEM work_item;
static int cancel_cnt;
static POBJECT_TYPE *pIoDriverObjectType;

static NTSTATUS wait_single(void *object, ULONGLONG timeout)
{
    LARGE_INTEGER limit = { .QuadPart = timeout };
    return KeWaitForSingleObject(object, Executive, KernelMode, FALSE, &limit);
}
static void test_current_thread(BOOL is_system) { UNREFERENCED_PARAMETER(is_system); }
static void test_critical_region(BOOL is_dispatcher) { UNREFERENCED_PARAMETER(is_dispatcher); }
static void test_stack_limits(void) { }
static NTSTATUS test_load_driver_ioctl(IRP *irp, IO_STACK_LOCATION *stack, ULONG_PTR *info)
{
    (void)irp, (void)stack, (void)info;
    return STATUS_NOT_SUPPORTED;
}
static void main_test_task(DEVICE_OBJECT *device, void *context);
static NTSTATUS main_test(DEVICE_OBJECT *device, IRP *irp, IO_STACK_LOCATION *stack)
{
    (void)device, (void)stack;
    IoMarkIrpPending(irp);
    IoQueueWorkItem(work_item, main_test_task, DelayedWorkQueue, irp);
    return STATUS_PENDING;
}
#define MmGetSystemRoutineAddress(name) NULL
#define ObReferenceObjectByName(name, ...) (obj = driver, ObReferenceObject(obj), STATUS_SUCCESS)
#undef IoDriverObjectType
