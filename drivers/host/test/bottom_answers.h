/* bottom_answers.h: what the host's bottom device answers to questions of Plug and Play. */
#ifndef DRIVERS_BOTTOM_ANSWERS_H
#define DRIVERS_BOTTOM_ANSWERS_H

#include <wdm.h>

/* Puts the answer into the packet's Information, where the question has one. Returns the packet's new status: its own
   where the device doesn't know the request. */
NTSTATUS BottomAnswer(PDEVICE_OBJECT DeviceObject, PIRP Irp);
/* Called by a bottom device in its IRP_MN_REMOVE_DEVICE, or NULL. */
extern VOID (*at_removal)(VOID);
/* Whether a bottom device refuses IRP_MN_DEVICE_USAGE_NOTIFICATION, and how often one has. */
extern BOOLEAN refuses_usage;
extern ULONG n_usages_refused;
/* Whether the bottom device has packets that it hasn't completed. */
BOOLEAN bottom_holds(PDEVICE_OBJECT device);

#endif
