/* nsi.c: nsiproxy: a notification of changes and an echo; its Unix side is simulated. */
#include "common.h"
#include "ifdef.h"
#include "netiodef.h"
#include "wine/nsi.h"
#include "nsiproxy_private.h"

/* The numbers of its calls, in the order of its table. */
enum { CANCEL_LISTEN, CLOSE, LISTEN, SEND_ECHO, ENUMERATE, GET_ALL, GET_ONE, GET_NOTIFICATION };
static KEVENT answer, change;
static BOOLEAN over;
static NTSTATUS heard;

NTSTATUS WdmUnixCall(unsigned code, void *parameters)
{
    switch (code) {
    case SEND_ECHO: *((struct icmp_send_echo_params *)parameters)->handle = 5; return STATUS_PENDING;
    case LISTEN:
        KeWaitForSingleObject(&answer, Executive, KernelMode, FALSE, NULL);
        ((struct icmp_listen_params *)parameters)->reply_len = 8;
        return heard;
    case CANCEL_LISTEN:
        heard = STATUS_CANCELLED;
        KeSetEvent(&answer, 0, FALSE);
        return STATUS_SUCCESS;
    case GET_NOTIFICATION:
        KeWaitForSingleObject(&change, Executive, KernelMode, FALSE, NULL);
        memset(parameters, 0, sizeof(struct nsi_get_notification_params));
        ((struct nsi_get_notification_params *)parameters)->module.Type = MIT_GUID;
        return over ? STATUS_NOT_SUPPORTED : STATUS_SUCCESS;
    default: return STATUS_SUCCESS;
    }
}

static PIRP victim;

/* Cancels once the cancel routine is set: a cancel before that is a case of its own. */
static VOID cancel_victim(PVOID context)
{
    UNREFERENCED_PARAMETER(context);
    if (victim->CancelRoutine)
        IoCancelIrp(victim);
    PsTerminateSystemThread(STATUS_SUCCESS);
}

static void ask_for_changes(PDEVICE_OBJECT top, BOOLEAN before, BOOLEAN meanwhile)
{
    struct nsiproxy_request_notification wanted = { .module.Type = MIT_GUID };
    HANDLE thread;
    PVOID object;
    Request *r = Prepare(top, IRP_MJ_DEVICE_CONTROL, IOCTL_NSIPROXY_WINE_CHANGE_NOTIFICATION, &wanted, sizeof wanted, 0);
    victim = r->irp;
    if (before)
        IoCancelIrp(r->irp);
    if (meanwhile) {
        PsCreateSystemThread(&thread, 0, NULL, NULL, NULL, cancel_victim, NULL);
        ObReferenceObjectByHandle(thread, 0, NULL, KernelMode, &object, NULL);
    }
    IoCallDriver(top, r->irp);
    if (meanwhile)
        KeWaitForSingleObject(object, Executive, KernelMode, FALSE, NULL);
    else
        KeSetEvent(&change, 0, FALSE);
    Wait(r, 300);
}

int main(int argc, char **argv)
{
    static struct { struct nsiproxy_icmp_echo echo; char room[256]; } in;
    KeInitializeEvent(&answer, SynchronizationEvent, FALSE);
    KeInitializeEvent(&change, SynchronizationEvent, FALSE);
    PDEVICE_OBJECT top = WdmLoadByName("nsiproxy")->DeviceObject;
    if (Does(argc, argv, "change"))
        ask_for_changes(top, FALSE, FALSE);
    if (Does(argc, argv, "before"))
        ask_for_changes(top, TRUE, FALSE);
    if (Does(argc, argv, "race"))
        ask_for_changes(top, FALSE, TRUE);
    if (Does(argc, argv, "echo")) {
        in.echo.dst.si_family = AF_INET;
        in.echo.dst.Ipv4.sin_addr.s_addr = 0x0100007f;
        in.echo.bits = 64;
        in.echo.req_size = 8;
        Request *r = Prepare(top, IRP_MJ_DEVICE_CONTROL, IOCTL_NSIPROXY_WINE_ICMP_ECHO, &in, sizeof in, 128);
        if (Does(argc, argv, "early"))
            IoCancelIrp(r->irp);
        IoCallDriver(top, r->irp);
        KeSetEvent(&answer, 0, FALSE);
        Wait(r, 500);
    }
    over = TRUE;
    KeSetEvent(&change, 0, FALSE);
    KeSetEvent(&answer, 0, FALSE);
    return WdmFinish();
}
