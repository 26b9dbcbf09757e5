/* freed_with_objects.c: memory that goes, a pool block or a deleted device's extension, with a packet, timer, deferred
   call, work item or lock in it. */
#include "rules/own.h"
#include "io/io.h"
#include "ke/ke.h"
#include "mm/mm.h"
#include "pnp/pnp.h"
#include "record/record.h"

void check_gone(const void *from, size_t size, const char *what)
{
    PKTIMER timer;
    PKDPC dpc;
    packets_go(from, size);
    while ((timer = take_timer_in(from, size)))
        broken("TimerInFreedMemory", NULL, "the timer that was set at %s is armed, in the %s", place(*timer->HostSet), what);
    while ((dpc = take_dpc_in(from, size)))
        broken("DpcInFreedMemory", NULL, "the deferred call %s is queued since %s, in the %s",
               function_name((void *)dpc->DeferredRoutine), place(*dpc->HostQueued), what);
    WDM_SITE at;
    if (waited_in(from, size, &at))
        broken("UsedInFreedMemory", NULL, "a thread waits since %s, for an object in the %s", place(at), what);
    check_work_gone(from, size, what);
    check_given_gone(from, size, what);
    check_dma_gone(from, size, what);
    check_pofx_gone(from, size, what);
    forget_locks(from, size, what);
    forget_remove_locks(from, size, what);
}
