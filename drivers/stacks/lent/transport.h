/* transport.h: what transport.c exports. */
#ifndef TRANSPORT_H
#define TRANSPORT_H

#include <wdm.h>

/* Sends the caller's packet to the transport's device, which answers it at once, or later. The caller has set its
   completion routine. */
NTSTATUS TransportSend(PIRP Irp, BOOLEAN Later);

#endif
