/*
 * wdm_test.h: what stands in for the loader, the Plug and Play manager and the I/O manager's own callers, for tests.
 *
 * A test loads drivers, builds a stack, sends packets, and ends with `return WdmFinish()`.
 */
#ifndef WDM_TEST_H
#define WDM_TEST_H

#include "wdm_io.h"
#include "wdm_hw.h"

/* Calls DriverEntry of a driver. Returns its object, or NULL where DriverEntry fails, which is a fault, unless the test
   expects the refusal "DriverEntry". The name is for messages. */
PDRIVER_OBJECT WdmLoad(const char *Name, PDRIVER_INITIALIZE Entry, WDM_SITE at);
#define WdmLoadDriver(name, entry) WdmLoad((name), (entry), WDM_HERE)
/* The same of a driver that `run` was given, by its file's or its folder's name without an ending. */
PDRIVER_OBJECT WdmLoadNamed(const char *Name, WDM_SITE at);
#define WdmLoadByName(name) WdmLoadNamed((name), WDM_HERE)

/* Calls AddDevice. Returns its status; one that fails is a fault, unless the test expects the refusal "AddDevice". */
NTSTATUS WdmAdd(PDRIVER_OBJECT Driver, PDEVICE_OBJECT Pdo, WDM_SITE at);
#define WdmAddDevice(driver, pdo) WdmAdd((driver), (pdo), WDM_HERE)

/* Calls DriverUnload, where the driver has one. What of it is there then is a fault: devices, timers, threads, work items,
   packets, links, pool. */
VOID WdmUnloadDriver(PDRIVER_OBJECT Driver);

/*
 * A bottom device of the host's own, with nothing below it. It completes what it gets: READ, WRITE and the device
 * controls with success and their length, PNP and POWER as a bus does, all else with success. Where Late is TRUE it
 * marks READ and WRITE pending and completes them from a thread of the host, unless they are cancelled before.
 */
PDEVICE_OBJECT WdmCreateBottom(BOOLEAN Late);
/* The same in a style of these: LATE as above; PENDS_ALL pends PNP, but for REMOVE_DEVICE, and POWER too; FAILS completes
   all but CREATE, CLEANUP, CLOSE and PNP with STATUS_IO_DEVICE_ERROR, every other one later, and refuses QUERY_POWER;
   NO_START fails START_DEVICE. */
enum { WDM_BOTTOM_LATE = 1, WDM_BOTTOM_PENDS_ALL = 2, WDM_BOTTOM_FAILS = 4, WDM_BOTTOM_NO_START = 8 };
PDEVICE_OBJECT WdmCreateBottomOf(ULONG Style);

/*
 * The Plug and Play manager, on a thread of its own. WdmPlugIn starts a stack whose drivers are there, and asks it for its
 * children; drivers come onto each of these, and it starts in turn. The manager asks again whenever a driver calls
 * IoInvalidateDeviceRelations; what isn't reported any more is removed by surprise. WdmStopAndStart stops the stack with
 * its children, and starts it again. WdmUnplug removes both, children first: where Surprise is FALSE it asks before, and
 * takes a refusal for a surprise. Each waits until it is done; WdmSettlePlugAndPlay waits for what drivers asked for.
 * Returns the status of IRP_MN_START_DEVICE.
 */
NTSTATUS WdmPlug(PDEVICE_OBJECT Pdo, WDM_SITE at);
#define WdmPlugIn(pdo) WdmPlug((pdo), WDM_HERE)
VOID WdmStopStart(PDEVICE_OBJECT Pdo, WDM_SITE at);
#define WdmStopAndStart(pdo) WdmStopStart((pdo), WDM_HERE)
VOID WdmTakeOut(PDEVICE_OBJECT Pdo, BOOLEAN Surprise, WDM_SITE at);
#define WdmUnplug(pdo, surprise) WdmTakeOut((pdo), (surprise), WDM_HERE)
/* A removal by surprise in two steps, between which requests come back and files are closed. */
VOID WdmGone(PDEVICE_OBJECT Pdo, WDM_SITE at);
#define WdmSurprise(pdo) WdmGone((pdo), WDM_HERE)
VOID WdmRemoved(PDEVICE_OBJECT Pdo, WDM_SITE at);
#define WdmRemove(pdo) WdmRemoved((pdo), WDM_HERE)
VOID WdmSettlePlugAndPlay(VOID);
/* Puts a driver onto each child whose device id has this text in it, above those that were named before. A child that no
   driver takes gets one of the host's that passes all down. */
VOID WdmPutOnChildren(const char *Id, PDRIVER_OBJECT Driver);
/* Whether `run --on` says so of the driver of this name; then it is put there. */
BOOLEAN WdmGoesOnChildren(const char *Name, PDRIVER_OBJECT Driver);
/* The children of a bus that are started: their number, at most Most, with their device objects in Children. */
ULONG WdmGetChildren(PDEVICE_OBJECT Pdo, PDEVICE_OBJECT *Children, ULONG Most);

/*
 * A packet as the I/O manager makes it for a caller: its status goes to Iosb, Event is set at its end, then the host
 * frees it. A read or write has a buffer of Length bytes as Top's flags ask for it: SystemBuffer by DO_BUFFERED_IO,
 * MdlAddress by DO_DIRECT_IO, else UserBuffer; a control as its code says. PNP, POWER and SYSTEM_CONTROL start with
 * STATUS_NOT_SUPPORTED. Fill further parameters in by IoGetNextIrpStackLocation, and send it by IoCallDriver.
 */
PIRP WdmBuild(PDEVICE_OBJECT Top, UCHAR Major, UCHAR Minor, ULONG Length, PIO_STATUS_BLOCK Iosb, PKEVENT Event,
              WDM_SITE at);
#define WdmBuildIrp(top, major, minor, length, iosb, event) \
    WdmBuild((top), (major), (minor), (length), (iosb), (event), WDM_HERE)

/* Cancels a packet of WdmBuild that was sent, as the I/O manager cancels what an ending thread has asked for: nothing
   happens where it has ended. Returns whether a cancel routine was called. */
BOOLEAN WdmCancelSent(PIRP Irp, WDM_SITE at);
#define WdmCancelRequest(irp) WdmCancelSent((irp), WDM_HERE)

/* Builds, sends and waits. Returns the packet's final status. Code is the control code of DEVICE_CONTROL. */
NTSTATUS WdmSendAndWait(PDEVICE_OBJECT Top, UCHAR Major, UCHAR Minor, ULONG Length, ULONG Code, WDM_SITE at);
#define WdmSend(top, major, minor, length) WdmSendAndWait((top), (major), (minor), (length), 0, WDM_HERE)
#define WdmControl(top, code, length) WdmSendAndWait((top), IRP_MJ_DEVICE_CONTROL, 0, (length), (code), WDM_HERE)

/*
 * Each CREATE that is built has a FILE_OBJECT of its own, and the packets after it have that of their device's last
 * CREATE, until its CLOSE. WdmOpen sends CREATE and returns its file, or NULL where it fails; WdmClose sends CLEANUP and
 * CLOSE. WdmUseFile: packets that this thread builds from now on have this file; NULL ends that.
 */
PFILE_OBJECT WdmOpen(PDEVICE_OBJECT Top, WDM_SITE at);
#define WdmOpenFile(top) WdmOpen((top), WDM_HERE)
VOID WdmClose(PFILE_OBJECT File, WDM_SITE at);
#define WdmCloseFile(file) WdmClose((file), WDM_HERE)
VOID WdmUseFile(PFILE_OBJECT File);

/* Runs the service routines that drivers connected to this vector, until one takes the interrupt. Returns whether one
   did. */
BOOLEAN WdmRaiseInterrupt(ULONG Vector, WDM_SITE at);
#define WdmInterrupt(vector) WdmRaiseInterrupt((vector), WDM_HERE)
/* The vector of the line that each device of a bus has, for drivers that connect by it (IoConnectInterruptEx). */
ULONG WdmLineOf(PDEVICE_OBJECT Pdo);

/* What a device does by DMA, with an address that its driver gave it: it reads memory, or writes to it. What no driver has
   mapped for the device there, and in this direction, is a fault of the driver: then FALSE is returned. */
BOOLEAN WdmDma(PDEVICE_OBJECT Pdo, PHYSICAL_ADDRESS Address, PVOID Data, ULONG Length, BOOLEAN Reads, WDM_SITE at);
#define WdmDmaRead(pdo, address, to, length) WdmDma((pdo), (address), (to), (length), TRUE, WDM_HERE)
#define WdmDmaWrite(pdo, address, from, length) WdmDma((pdo), (address), (PVOID)(from), (length), FALSE, WDM_HERE)

/* A power setting has this value from now on: those who asked for it are called. */
VOID WdmSetPowerSetting(LPCGUID Setting, const VOID *Value, ULONG Length);

/* A value of the registry, by the whole path of its key (\Registry\Machine\..). A driver's own key, whose path
   DriverEntry gets, is \Registry\Machine\System\CurrentControlSet\Services\NAME. */
VOID WdmSetRegistry(PCWSTR Path, PCWSTR Name, ULONG Type, const VOID *Data, ULONG Size);

/* A section and a file that drivers can open by these paths: memory of zeros, which is returned; what is written to the
   file goes nowhere. */
PVOID WdmMakeSection(PCWSTR Path, SIZE_T Size);
VOID WdmMakeFile(PCWSTR Path);

/* What IoGetDeviceProperty answers for a device. */
VOID WdmSetDeviceProperty(PDEVICE_OBJECT Device, DEVICE_REGISTRY_PROPERTY Which, const VOID *Data, ULONG Size);

/* What the test says beforehand. A refusal that it expects, by its name in docs/RULES.md, is a note and no fault. */
VOID WdmExpectRefusal(const char *Name);
/* The run has at least so many entries (1 where nothing is said). */
VOID WdmExpectEntries(ULONG Count);
/* A completion routine keeps this rule: "watch", "change", "keeper", "keep_on_error", "free". Else it is learned. */
VOID WdmDeclareRule(PIO_COMPLETION_ROUTINE Routine, const char *Rule);

/* How many rounds a loop of the test makes: Usual, or fewer where WDM_ROUNDS says so. `run --every-order` sets it to 2,
   since the orders of each round multiply those of the others. */
ULONG WdmRounds(ULONG Usual);

/*
 * A test by name, and what it holds to be true: a file without `main` may have several of them.
 *     WDM_TEST(reads_what_was_written) { .. WDM_CHECK(WdmSend(top, IRP_MJ_READ, 0, 16) == STATUS_SUCCESS); }
 * `run` runs each alone; after it WdmFinish is called. A check that fails is a fault, and the test goes on; where the run
 * refuses memory or cancels a request, it is a note. Its value says whether it holds.
 */
typedef struct WDM_NAMED { const char *Name; VOID (*Run)(VOID); struct WDM_NAMED *Next; } WDM_NAMED;
VOID WdmAddTest(WDM_NAMED *Test);
#define WDM_TEST(name) \
    static VOID name(VOID); \
    __attribute__((constructor)) static void wdm_add_##name(void) \
    { \
        static WDM_NAMED test = { #name, name, NULL }; \
        WdmAddTest(&test); \
    } \
    static VOID name(VOID)
BOOLEAN WdmChecked(BOOLEAN Holds, const char *Text, WDM_SITE at);
#define WDM_CHECK(...) WdmChecked((__VA_ARGS__) ? TRUE : FALSE, #__VA_ARGS__, WDM_HERE)

/*
 * Waits for the sends and the work items that aren't done, writes the transcript, and tells a summary. Returns 0 where
 * the host saw no fault and the run has the entries that were expected, else 2: the exit status for `main`.
 */
int WdmFinish(void);

#endif
