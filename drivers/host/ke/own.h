/* own.h: what only the files of this folder call. */
#ifndef DRIVERS_KE_OWN_H
#define DRIVERS_KE_OWN_H

#include "ke/ke.h"

/* dispatcher_objects.c */
void hands_over(void);
void clear_event(PKEVENT event);
NTSTATUS wait_for_objects(ULONG n, PVOID objects[], WAIT_TYPE type, PLARGE_INTEGER timeout, WDM_SITE at);

/* timers_and_dpcs.c */
void run_work(Frame *f, int driver);
void work_done(void);
bool timers_armed(void);
bool dpc_is_on_its_way(const KDPC *dpc); /* it is queued, or runs */

/* work_items.c */
bool workers_are_idle(void);
void after_work_items(void);

#endif
