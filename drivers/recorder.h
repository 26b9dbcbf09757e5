/*
 * recorder.h: writes down what a stack of WDM drivers and the I/O manager under it do, as a transcript for `irpx
 * check`.
 *
 * The I/O manager is whatever the program is linked with: Wine's, a port, a test double. Compile each driver, and the
 * code that sends packets, with `-include recorder.h` (or include it in place of <wdm.h>), and link with the files of
 * recorder/, compiled with the same <wdm.h>. The calls below then go through the recorder, which makes the real call
 * and writes down what was shown and answered. It checks nothing and refuses nothing. recorder/README.md says more.
 */
#ifndef IRPX_RECORDER_H
#define IRPX_RECORDER_H

#include <wdm.h>
#include <stddef.h>
#include <stdint.h>

typedef struct {
    BOOLEAN looks; /* a Look behind each outermost call, from the packet's own memory: TRUE at first */
    BOOLEAN pend;  /* a device that forwards unmarked, and whose routine keeps the packet or changes its status, counts
                      as pended: its location is marked, its caller gets STATUS_PENDING. FALSE at first, as it changes
                      the run */
} IRPX_OPTIONS;
extern IRPX_OPTIONS irpx_options;

typedef struct {
    size_t entries; /* entries of the transcript so far */
    int pended;     /* times that `pend` was needed, and was done */
    int outside;    /* times that it was needed, and wasn't on: the transcript is outside the model */
    int adopted;    /* packets that came from code without the recorder */
    int lost;       /* something had no room: the transcript ends before the first of them */
} IRPX_COUNTS;

/* The counts so far. */
VOID IrpxCount(IRPX_COUNTS *Counts);

/* Writes the transcript, as far as it fits into `Room` bytes, up to the first send that hasn't returned. Returns its
   whole length in bytes. Call it once all threads are done. */
size_t IrpxTranscript(char *Buffer, size_t Room);

/* First in DriverEntry, where the manager has put a default routine of its own into each major: that isn't a dispatch.
   */
VOID IrpxWrapDriver(PDRIVER_OBJECT Driver);

/* After a crash or a hang: calls that haven't returned are written as if they had. */
VOID IrpxAbandon(VOID);

/* Gives all memory of the record back, and begins a new one. Only where no packet is in flight. */
VOID IrpxForget(VOID);

NTSTATUS IrpxCreateDevice(PDRIVER_OBJECT Driver, ULONG Extension, PUNICODE_STRING Name, DEVICE_TYPE Type,
                          ULONG Characteristics, BOOLEAN Exclusive, PDEVICE_OBJECT *Device, const char *File);
PDEVICE_OBJECT IrpxAttachDevice(PDEVICE_OBJECT Device, PDEVICE_OBJECT Target);
VOID IrpxDetachDevice(PDEVICE_OBJECT Lower);
VOID IrpxDeleteDevice(PDEVICE_OBJECT Device);
PIRP IrpxAllocateIrp(CCHAR Size, BOOLEAN Quota, const char *File);
VOID IrpxFreeIrp(PIRP Irp);
VOID IrpxReuseIrp(PIRP Irp, NTSTATUS Status);
PIO_STACK_LOCATION IrpxGetNextLocation(PIRP Irp, const char *File);
VOID IrpxCopyToNext(PIRP Irp, const char *File);
VOID IrpxSkip(PIRP Irp, const char *File);
VOID IrpxSetRoutine(PIRP Irp, PIO_COMPLETION_ROUTINE Routine, PVOID Context, BOOLEAN Success, BOOLEAN Error,
                    BOOLEAN Cancel, const char *File);
VOID IrpxMarkPending(PIRP Irp, const char *File);
NTSTATUS IrpxCallDriver(PDEVICE_OBJECT Target, PIRP Irp, const char *File);
VOID IrpxCompleteRequest(PIRP Irp, CCHAR Boost, const char *File);
PDRIVER_CANCEL IrpxSetCancelRoutine(PIRP Irp, PDRIVER_CANCEL Routine, const char *File);
BOOLEAN IrpxCancelIrp(PIRP Irp);

/* Packets that the manager builds, and frees at their end. */
PIRP IrpxBuildControl(ULONG Code, PDEVICE_OBJECT Device, PVOID In, ULONG InLength, PVOID Out, ULONG OutLength,
                      BOOLEAN Internal, PKEVENT Event, PIO_STATUS_BLOCK Status, const char *File);
PIRP IrpxBuildSynchronous(ULONG Major, PDEVICE_OBJECT Device, PVOID Buffer, ULONG Length, PLARGE_INTEGER Offset,
                          PKEVENT Event, PIO_STATUS_BLOCK Status, const char *File);
PIRP IrpxBuildAsynchronous(ULONG Major, PDEVICE_OBJECT Device, PVOID Buffer, ULONG Length, PLARGE_INTEGER Offset,
                           PIO_STATUS_BLOCK Status, const char *File);

#endif

/* The calls are replaced, but in the files of the recorder, which make the real ones: there they are put back where
   `-include` had them replaced. */
#if !defined IRPX_INSIDE && !defined IRPX_REPLACES
#define IRPX_REPLACES
#pragma push_macro("IoCreateDevice")
#pragma push_macro("IoAttachDeviceToDeviceStack")
#pragma push_macro("IoDetachDevice")
#pragma push_macro("IoDeleteDevice")
#pragma push_macro("IoAllocateIrp")
#pragma push_macro("IoFreeIrp")
#pragma push_macro("IoReuseIrp")
#pragma push_macro("IoGetNextIrpStackLocation")
#pragma push_macro("IoCopyCurrentIrpStackLocationToNext")
#pragma push_macro("IoSkipCurrentIrpStackLocation")
#pragma push_macro("IoSetCompletionRoutine")
#pragma push_macro("IoMarkIrpPending")
#pragma push_macro("IoCallDriver")
#pragma push_macro("IofCallDriver")
#pragma push_macro("PoCallDriver")
#pragma push_macro("IoCompleteRequest")
#pragma push_macro("IofCompleteRequest")
#pragma push_macro("IoSetCancelRoutine")
#pragma push_macro("IoCancelIrp")
#pragma push_macro("IoBuildDeviceIoControlRequest")
#pragma push_macro("IoBuildSynchronousFsdRequest")
#pragma push_macro("IoBuildAsynchronousFsdRequest")
#undef IoCreateDevice
#undef IoAttachDeviceToDeviceStack
#undef IoDetachDevice
#undef IoDeleteDevice
#undef IoAllocateIrp
#undef IoFreeIrp
#undef IoReuseIrp
#undef IoGetNextIrpStackLocation
#undef IoCopyCurrentIrpStackLocationToNext
#undef IoSkipCurrentIrpStackLocation
#undef IoSetCompletionRoutine
#undef IoMarkIrpPending
#undef IoCallDriver
#undef IofCallDriver
#undef PoCallDriver
#undef IoCompleteRequest
#undef IofCompleteRequest
#undef IoSetCancelRoutine
#undef IoCancelIrp
#undef IoBuildDeviceIoControlRequest
#undef IoBuildSynchronousFsdRequest
#undef IoBuildAsynchronousFsdRequest
#define IoCreateDevice(driver, extension, name, type, characteristics, exclusive, device) \
    IrpxCreateDevice((driver), (extension), (name), (type), (characteristics), (exclusive), (device), __FILE__)
#define IoAttachDeviceToDeviceStack(device, target) IrpxAttachDevice((device), (target))
#define IoDetachDevice(lower) IrpxDetachDevice(lower)
#define IoDeleteDevice(device) IrpxDeleteDevice(device)
#define IoAllocateIrp(size, quota) IrpxAllocateIrp((size), (quota), __FILE__)
#define IoFreeIrp(irp) IrpxFreeIrp(irp)
#define IoReuseIrp(irp, status) IrpxReuseIrp((irp), (status))
#define IoGetNextIrpStackLocation(irp) IrpxGetNextLocation((irp), __FILE__)
#define IoCopyCurrentIrpStackLocationToNext(irp) IrpxCopyToNext((irp), __FILE__)
#define IoSkipCurrentIrpStackLocation(irp) IrpxSkip((irp), __FILE__)
#define IoSetCompletionRoutine(irp, routine, context, success, error, cancel) \
    IrpxSetRoutine((irp), (routine), (context), (BOOLEAN)(success), (BOOLEAN)(error), (BOOLEAN)(cancel), __FILE__)
#define IoMarkIrpPending(irp) IrpxMarkPending((irp), __FILE__)
#define IoCallDriver(target, irp) IrpxCallDriver((target), (irp), __FILE__)
#define IofCallDriver(target, irp) IrpxCallDriver((target), (irp), __FILE__)
#define PoCallDriver(target, irp) IrpxCallDriver((target), (irp), __FILE__)
#define IoCompleteRequest(irp, boost) IrpxCompleteRequest((irp), (boost), __FILE__)
#define IofCompleteRequest(irp, boost) IrpxCompleteRequest((irp), (boost), __FILE__)
#define IoSetCancelRoutine(irp, routine) IrpxSetCancelRoutine((irp), (routine), __FILE__)
#define IoCancelIrp(irp) IrpxCancelIrp(irp)
#define IoBuildDeviceIoControlRequest(code, device, in, in_length, out, out_length, internal, event, status) \
    IrpxBuildControl((code), (device), (in), (in_length), (out), (out_length), (internal), (event), (status), __FILE__)
#define IoBuildSynchronousFsdRequest(major, device, buffer, length, offset, event, status) \
    IrpxBuildSynchronous((major), (device), (buffer), (length), (offset), (event), (status), __FILE__)
#define IoBuildAsynchronousFsdRequest(major, device, buffer, length, offset, status) \
    IrpxBuildAsynchronous((major), (device), (buffer), (length), (offset), (status), __FILE__)
#elif defined IRPX_INSIDE && defined IRPX_REPLACES
#undef IRPX_REPLACES
#pragma pop_macro("IoCreateDevice")
#pragma pop_macro("IoAttachDeviceToDeviceStack")
#pragma pop_macro("IoDetachDevice")
#pragma pop_macro("IoDeleteDevice")
#pragma pop_macro("IoAllocateIrp")
#pragma pop_macro("IoFreeIrp")
#pragma pop_macro("IoReuseIrp")
#pragma pop_macro("IoGetNextIrpStackLocation")
#pragma pop_macro("IoCopyCurrentIrpStackLocationToNext")
#pragma pop_macro("IoSkipCurrentIrpStackLocation")
#pragma pop_macro("IoSetCompletionRoutine")
#pragma pop_macro("IoMarkIrpPending")
#pragma pop_macro("IoCallDriver")
#pragma pop_macro("IofCallDriver")
#pragma pop_macro("PoCallDriver")
#pragma pop_macro("IoCompleteRequest")
#pragma pop_macro("IofCompleteRequest")
#pragma pop_macro("IoSetCancelRoutine")
#pragma pop_macro("IoCancelIrp")
#pragma pop_macro("IoBuildDeviceIoControlRequest")
#pragma pop_macro("IoBuildSynchronousFsdRequest")
#pragma pop_macro("IoBuildAsynchronousFsdRequest")
#endif
