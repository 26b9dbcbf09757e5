/* interrupts_ex.c: IoConnectInterruptEx, over interrupts.c. Each device of a bus has a line, and none has messages. */
#include "ke/ke.h"
#include "record/record.h"
#include "rules/rules.h"
#include "wdm_hw.h"

enum { FIRST_LINE = 0x50, LINE_IRQL = DISPATCH_LEVEL + 3, MAX_CONNECTED = 64 };
static struct { PKINTERRUPT interrupt; ULONG version; } versions[MAX_CONNECTED]; /* under G */

ULONG WdmLineOf(PDEVICE_OBJECT Pdo)
{
    hold_host("WdmLineOf", &devices, READS);
    int d = Pdo->HostNumber;
    while (devices[d].lower >= 0)
        d = devices[d].lower;
    pthread_mutex_unlock(&host_lock);
    return FIRST_LINE + (ULONG)d;
}

/* Takes G and gives it back. */
static void keep_version(PKINTERRUPT interrupt, ULONG version, WDM_SITE at)
{
    Call c;
    int i = 0;
    enter_quietly(&c, "IoConnectInterruptEx", at);
    give_out(interrupt, "the interrupt", c.name, at);
    while (i < MAX_CONNECTED - 1 && versions[i].interrupt)
        i++;
    versions[i].interrupt = interrupt;
    versions[i].version = version;
    leave_host();
}

static NTSTATUS connect(PKINTERRUPT *to, PKSERVICE_ROUTINE routine, PVOID context, ULONG vector, KIRQL irql, ULONG version,
                        WDM_SITE at)
{
    const NTSTATUS status = WdmIsRefused("IoConnectInterruptEx", at) ? STATUS_INSUFFICIENT_RESOURCES
                                                                     : WdmIoConnectInterrupt(to, routine, context, vector, irql, at);
    if (NT_SUCCESS(status))
        keep_version(*to, version, at);
    return status;
}

NTSTATUS WdmIoConnectInterruptEx(PIO_CONNECT_INTERRUPT_PARAMETERS Parameters, WDM_SITE at)
{
    const IO_CONNECT_INTERRUPT_FULLY_SPECIFIED_PARAMETERS *full = &Parameters->FullySpecified;
    const IO_CONNECT_INTERRUPT_LINE_BASED_PARAMETERS *line = &Parameters->LineBased;
    const IO_CONNECT_INTERRUPT_MESSAGE_BASED_PARAMETERS *message = &Parameters->MessageBased;
    switch (Parameters->Version) {
    case CONNECT_FULLY_SPECIFIED:
    case CONNECT_FULLY_SPECIFIED_GROUP:
        return connect(full->InterruptObject, full->ServiceRoutine, full->ServiceContext, full->Vector, full->Irql,
                       Parameters->Version, at);
    case CONNECT_LINE_BASED:
        return connect(line->InterruptObject, line->ServiceRoutine, line->ServiceContext, WdmLineOf(line->PhysicalDeviceObject),
                       LINE_IRQL, CONNECT_LINE_BASED, at);
    case CONNECT_MESSAGE_BASED:
        if (!message->FallBackServiceRoutine)
            return STATUS_NOT_FOUND;
        Parameters->Version = CONNECT_LINE_BASED; /* so the driver learns that it has no messages */
        return connect(message->ConnectionContext.InterruptObject, message->FallBackServiceRoutine, message->ServiceContext,
                       WdmLineOf(message->PhysicalDeviceObject), LINE_IRQL, CONNECT_LINE_BASED, at);
    default: return STATUS_INVALID_PARAMETER;
    }
}

VOID WdmIoDisconnectInterruptEx(PIO_DISCONNECT_INTERRUPT_PARAMETERS Parameters, WDM_SITE at)
{
    Call c;
    Holder was;
    PKINTERRUPT interrupt = Parameters->ConnectionContext.InterruptObject;
    enter_quietly(&c, "IoDisconnectInterruptEx", at);
    const bool is_there = take_back(interrupt, &was);
    for (int i = 0; is_there && i < MAX_CONNECTED; i++)
        if (versions[i].interrupt == interrupt) {
            if (versions[i].version != Parameters->Version)
                fault("DisconnectVersion", NULL, "the interrupt was connected at %s with version %u, and is disconnected with %u",
                      place(was.at), versions[i].version, Parameters->Version);
            versions[i].interrupt = NULL;
        }
    leave_host();
    WdmIoDisconnectInterrupt(interrupt, at);
}
