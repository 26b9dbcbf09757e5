/* told_to_tests.h: what the rest of the host does for the host's own tests, which know nothing of its packets. */
#ifndef DRIVERS_TEST_TOLD_TO_TESTS_H
#define DRIVERS_TEST_TOLD_TO_TESTS_H

#include "wdm_test.h"

/* io/files.c */
/* Opens the device with a name behind its own. */
PFILE_OBJECT WdmOpenBehind(PDEVICE_OBJECT Top, PCWSTR Name, WDM_SITE at);

/* io/remove_locks.c */
/* Whether each device from this one down to the bottom one has a remove lock that was acquired. */
BOOLEAN WdmHaveRemoveLocks(PDEVICE_OBJECT Top, PDEVICE_OBJECT Bottom);

/* record/hangs.c */
/* Whether a driver holds it once nothing else goes on; tells that driver, where IRP_MN_SURPRISE_REMOVAL is over, or what
   kept the device from use. */
BOOLEAN WdmIsKept(PIRP Irp);
VOID WdmTellKept(PIRP Irp);
VOID WdmTellHeld(PIRP Irp, const char *Over);

/* record/limits.c */
/* How many devices drivers and the host may make yet. */
ULONG devices_left(void);

/* rules/sent_handles.c */
/* Handles of a program, of an event and of this file. */
BOOLEAN make_sent_handles(PFILE_OBJECT file, HANDLE made[2]);
void close_sent_handles(const HANDLE made[2]);

/* rules/timers_asleep.c */
/* The milliseconds until a timer goes off that was armed when its device's driver let the power go, at least 1, or 0
   where there is none; and how often one did. */
ULONG next_timer_asleep(void);
unsigned long timers_rung_asleep(void);

#endif
