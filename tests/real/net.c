/* net.c: Wine's test of a client of Winsock Kernel, whose calls are here: each sends its packet to network.c. `twice` opens
   and closes the client twice; in `nobody` no connection comes. */
#include "common.h"
#include "winsock2.h"
#include "ddk/wsk.h"
#include "driver.h"

typedef struct { WSK_SOCKET wsk; BOOLEAN is_bound, is_datagram; PIRP waiting; } Socket;
static PDEVICE_OBJECT network;
static BOOLEAN nobody_comes;
static struct wdm_sockaddr_in home = { .sin_family = AF_INET, .sin_addr.s_addr = 0x0100007f };

/* Sends a packet to the network, which answers it with this. The client's completion routine is set already. */
static NTSTATUS transact(PIRP irp, NTSTATUS status, PVOID information)
{
    PIO_STACK_LOCATION location = IoGetNextIrpStackLocation(irp);
    location->MajorFunction = IRP_MJ_INTERNAL_DEVICE_CONTROL;
    location->Parameters.Others.Argument1 = (PVOID)(LONG_PTR)status;
    location->Parameters.Others.Argument2 = information;
    return IoCallDriver(network, irp);
}

static NTSTATUS close_socket(WSK_SOCKET *socket, IRP *irp)
{
    Socket *s = CONTAINING_RECORD(socket, Socket, wsk);
    if (s->waiting)
        transact(s->waiting, STATUS_CANCELLED, NULL);
    return transact(irp, STATUS_SUCCESS, NULL);
}

static NTSTATUS bind_socket(WSK_SOCKET *socket, SOCKADDR *address, ULONG flags, IRP *irp)
{
    Socket *s = CONTAINING_RECORD(socket, Socket, wsk);
    UNREFERENCED_PARAMETER(address), UNREFERENCED_PARAMETER(flags);
    s->is_bound = !s->is_datagram;
    return transact(irp, s->is_datagram ? STATUS_NOT_IMPLEMENTED : STATUS_SUCCESS, NULL);
}

static NTSTATUS connect_socket(WSK_SOCKET *socket, SOCKADDR *address, ULONG flags, IRP *irp)
{
    UNREFERENCED_PARAMETER(address), UNREFERENCED_PARAMETER(flags);
    const BOOLEAN is_bound = CONTAINING_RECORD(socket, Socket, wsk)->is_bound;
    const NTSTATUS sent = transact(irp, is_bound ? STATUS_SUCCESS : STATUS_INVALID_DEVICE_STATE, NULL);
    return is_bound ? sent : STATUS_INVALID_DEVICE_STATE;
}

static NTSTATUS send_bytes(WSK_SOCKET *socket, WSK_BUF *buffer, ULONG flags, IRP *irp)
{
    UNREFERENCED_PARAMETER(socket), UNREFERENCED_PARAMETER(flags);
    return transact(irp, STATUS_SUCCESS, (PVOID)(ULONG_PTR)buffer->Length);
}

static NTSTATUS receive_bytes(WSK_SOCKET *socket, WSK_BUF *buffer, ULONG flags, IRP *irp)
{
    static const char text[] = "Client test string 1.";
    UNREFERENCED_PARAMETER(socket), UNREFERENCED_PARAMETER(flags);
    memcpy(MmGetSystemAddressForMdlSafe(buffer->Mdl, NormalPagePriority), text, sizeof text);
    return transact(irp, STATUS_SUCCESS, (PVOID)sizeof text);
}

static const WSK_PROVIDER_CONNECTION_DISPATCH connected = {
    .Basic.WskCloseSocket = close_socket, .WskBind = bind_socket, .WskConnect = connect_socket, .WskSend = send_bytes,
    .WskReceive = receive_bytes,
};

/* The first accept finds a connection; the next waits until its socket is closed. */
static NTSTATUS accept_socket(WSK_SOCKET *socket, ULONG flags, void *context, const WSK_CLIENT_CONNECTION_DISPATCH *calls,
                              SOCKADDR *local, SOCKADDR *remote, IRP *irp)
{
    static Socket accepted = { .wsk.Dispatch = &connected };
    UNREFERENCED_PARAMETER(flags), UNREFERENCED_PARAMETER(context), UNREFERENCED_PARAMETER(calls);
    if (local && nobody_comes)
        return transact(irp, STATUS_PENDING, NULL);
    if (!local) {
        CONTAINING_RECORD(socket, Socket, wsk)->waiting = irp;
        return STATUS_PENDING;
    }
    home.sin_port = RtlUshortByteSwap(SERVER_LISTEN_PORT);
    memcpy(local, &home, sizeof home);
    memcpy(remote, &home, sizeof home);
    return transact(irp, STATUS_SUCCESS, &accepted.wsk);
}

static const WSK_PROVIDER_LISTEN_DISPATCH listening = {
    .Basic.WskCloseSocket = close_socket, .WskBind = bind_socket, .WskAccept = accept_socket,
};

static NTSTATUS new_socket(WSK_CLIENT *client, ADDRESS_FAMILY family, USHORT type, ULONG protocol, ULONG flags,
                           void *context, const void *calls, PEPROCESS process, PETHREAD thread,
                           SECURITY_DESCRIPTOR *security, IRP *irp)
{
    (void)family, (void)protocol, (void)context, (void)calls, (void)process, (void)thread, (void)security;
    if (!irp || !client)
        return irp ? STATUS_INVALID_HANDLE : STATUS_INVALID_PARAMETER;
    Socket *s = calloc(1, sizeof *s);
    s->is_datagram = type == SOCK_DGRAM;
    s->wsk.Dispatch = flags == WSK_FLAG_LISTEN_SOCKET ? (const void *)&listening : (const void *)&connected;
    return transact(irp, STATUS_SUCCESS, &s->wsk);
}

static NTSTATUS find_address(WSK_CLIENT *client, UNICODE_STRING *node, UNICODE_STRING *service, ULONG space, GUID *provider,
                             ADDRINFOEXW *hints, ADDRINFOEXW **result, PEPROCESS process, PETHREAD thread, IRP *irp)
{
    static ADDRINFOEXW found = { .ai_addrlen = sizeof home, .ai_addr = (struct sockaddr *)&home };
    (void)client, (void)service, (void)space, (void)provider, (void)hints, (void)process, (void)thread;
    if (!irp)
        return STATUS_INVALID_PARAMETER;
    home.sin_port = RtlUshortByteSwap(12345);
    *result = &found;
    return transact(irp, node->Buffer[0] == '1' ? STATUS_SUCCESS : STATUS_NOT_FOUND, NULL);
}

static void free_address(WSK_CLIENT *client, ADDRINFOEXW *address) { (void)client, (void)address; }

static const WSK_PROVIDER_DISPATCH provider = { .Version = MAKE_WSK_VERSION(1, 0), .WskSocket = new_socket,
                                                .WskGetAddressInfo = find_address, .WskFreeAddressInfo = free_address };

NTSTATUS WskRegister(WSK_CLIENT_NPI *client, WSK_REGISTRATION *registration)
{
    registration->ReservedRegistrationContext = client;
    return STATUS_SUCCESS;
}

NTSTATUS WskCaptureProviderNPI(WSK_REGISTRATION *registration, ULONG timeout, WSK_PROVIDER_NPI *npi)
{
    UNREFERENCED_PARAMETER(timeout);
    *npi = (WSK_PROVIDER_NPI){ registration->ReservedRegistrationContext, &provider };
    return STATUS_SUCCESS;
}

void WskReleaseProviderNPI(WSK_REGISTRATION *registration) { UNREFERENCED_PARAMETER(registration); }
void WskDeregister(WSK_REGISTRATION *registration) { UNREFERENCED_PARAMETER(registration); }

int main(int argc, char **argv)
{
    WdmMakeSection(L"\\BaseNamedObjects\\winetest_ntoskrnl_section", 4096);
    WdmMakeFile(L"\\??\\C:\\windows\\winetest_ntoskrnl_okfile");
    PDRIVER_OBJECT below = WdmLoadByName("network"), driver = WdmLoadByName("driver_netio");
    PDEVICE_OBJECT top = driver->DeviceObject;
    network = below->DeviceObject;
    nobody_comes = Does(argc, argv, "nobody");
    for (int i = 0; i < 1 + Does(argc, argv, "twice"); i++) {
        WdmSend(top, IRP_MJ_CREATE, 0, 0);
        if (!i)
            Control(top, IOCTL_WINETEST_MAIN_TEST, &(ULONG){ 0 }, 4, 4);
        WdmSend(top, IRP_MJ_CLOSE, 0, 0);
    }
    WdmUnloadDriver(driver);
    WdmUnloadDriver(below);
    return WdmFinish();
}
