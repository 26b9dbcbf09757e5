/* plug_and_play.h: the Plug and Play manager of a test, in its three files. */
#ifndef DRIVERS_PLUG_AND_PLAY_H
#define DRIVERS_PLUG_AND_PLAY_H

#include <wdm.h>
#include "wdm_test.h"
#include <stdbool.h>

/* plug_and_play_asks.c: requests to the stack of a device, each sent and waited for. */
NTSTATUS ask_stack(PDEVICE_OBJECT pdo, UCHAR minor);
/* What a child is: it is asked as Windows does when a bus reports it. Its device id goes to `id`. */
void ask_new_child(PDEVICE_OBJECT pdo, char *id, size_t size);
/* What Windows asks before a device starts, and behind it. */
void ask_before_start(PDEVICE_OBJECT pdo);
void ask_after_start(PDEVICE_OBJECT pdo);
/* The children that the bus reports, to be freed by ExFreePool; NULL where it reports none. `answered` tells whether it
   took the question. */
PDEVICE_RELATIONS ask_relations(PDEVICE_OBJECT pdo, bool *answered);

/* plug_and_play.c: the devices that are known. All on the manager's thread. */
NTSTATUS plug_in(PDEVICE_OBJECT pdo);
/* The device is asked whether it may go; where a driver doesn't agree, it is taken by surprise. */
void unplug(PDEVICE_OBJECT pdo);
void remove_all(PDEVICE_OBJECT pdo);
void look_for_children(PDEVICE_OBJECT pdo);
void stop_and_start(PDEVICE_OBJECT pdo);

#endif
