/*
 * own_work_items.c: work items in a driver's own memory (IoInitializeWorkItem), routines that get their item
 * (IoQueueWorkItemEx), and work that keeps no device (ExQueueWorkItem). work_items.c runs them. All of it is under G.
 */
#include "ke/work_items.h"
#include "explore/explore.h"
#include "record/record.h"
#include "rules/rules.h"

/* Without the host's lock. */
void call_routine(const struct _IO_WORKITEM *item, PIO_WORKITEM itself)
{
    if (item->plain)
        ((PWORKER_THREAD_ROUTINE)(void *)item->routine)(item->context);
    else if (item->is_extended)
        ((PIO_WORKITEM_ROUTINE_EX)(void *)item->routine)(item->object, item->context, itself);
    else
        item->routine(item->object, item->context);
}

ULONG IoSizeofWorkItem(VOID) { return sizeof(struct _IO_WORKITEM); }

static void take_out(PIO_WORKITEM item)
{
    PIO_WORKITEM *i = &work_items;
    while (*i && *i != item)
        i = &(*i)->next_made;
    if (*i)
        *i = item->next_made;
}

/* Whether it is a driver, and no device. */
static PDRIVER_OBJECT driver_in(PVOID object)
{
    for (int i = 0; i < n_drivers; i++)
        if (drivers[i] == object)
            return object;
    return NULL;
}

VOID WdmIoInitializeWorkItem(PVOID Object, PIO_WORKITEM Item, WDM_SITE at)
{
    Call c;
    enter_host(&c, "IoInitializeWorkItem", at);
    PDRIVER_OBJECT driver = driver_in(Object);
    PDEVICE_OBJECT device = driver ? NULL : Object;
    driver = driver ? driver : device->DriverObject;
    touch(Item, WRITES);
    take_out(Item);
    *Item = (struct _IO_WORKITEM){ .device = device, .object = Object, .is_own = true, .made = at,
                                   .driver = driver->HostNumber, .next_made = work_items };
    work_items = Item;
    leave_host();
}

VOID WdmIoUninitializeWorkItem(PIO_WORKITEM Item, WDM_SITE at)
{
    Call c;
    enter_host(&c, "IoUninitializeWorkItem", at);
    touch(Item, SYNCS);
    if (Item->queued)
        fault("QueuedTwice", NULL, "the work item is given back while it is in the queue");
    else
        take_out(Item);
    leave_host();
}

VOID WdmIoQueueWorkItemEx(PIO_WORKITEM Item, PIO_WORKITEM_ROUTINE_EX Routine, PVOID Context, WDM_SITE at)
{
    queue_item(Item, (PIO_WORKITEM_ROUTINE)(void *)Routine, true, Context, at);
}

/* It has left the queue, and its memory may go as soon as its routine runs. */
void forget_plain(PIO_WORKITEM item)
{
    take_out(item);
    touch(item->plain, SYNCS);
    item->plain->List.Flink = NULL;
    free_host_memory(item);
}

static PIO_WORKITEM item_of(const WORK_QUEUE_ITEM *plain)
{
    PIO_WORKITEM i = work_items;
    while (i && i->plain != plain)
        i = i->next_made;
    return i;
}

VOID WdmExQueueWorkItem(PWORK_QUEUE_ITEM Item, WDM_SITE at)
{
    Call c;
    enter_host(&c, "ExQueueWorkItem", at);
    check_used(Item, "work item");
    hands_over();
    touch(Item, SYNCS);
    PIO_WORKITEM item = item_of(Item) ? NULL : host_memory(sizeof *item);
    if (item_of(Item))
        fault("QueuedTwice", NULL, "the work item is in the queue already");
    else if (!item)
        give_up("out of memory");
    else {
        *item = (struct _IO_WORKITEM){ .routine = (PIO_WORKITEM_ROUTINE)(void *)Item->WorkerRoutine, .context = Item->Parameter,
                                       .plain = Item, .made = at, .driver = calling_driver(), .next_made = work_items };
        work_items = item;
        Item->List.Flink = &Item->List;
        put_into_queue(item);
    }
    leave_host();
}

/* Memory goes: what lies in it and is queued is told, and leaves the queue. */
void check_work_gone(const void *from, size_t size, const char *what)
{
    for (PIO_WORKITEM i = work_items, after; i; i = after) {
        const char *at = i->plain ? (const char *)i->plain : (const char *)i;
        after = i->next_made;
        if ((!i->plain && !i->is_own) || at < (const char *)from || at >= (const char *)from + size)
            continue;
        if (i->queued)
            broken("UsedInFreedMemory", NULL, "the work item %s is in the queue, in the %s", function_name((void *)i->routine), what);
        take_from_queue(i);
        take_out(i);
        if (i->plain)
            free_host_memory(i);
    }
}
