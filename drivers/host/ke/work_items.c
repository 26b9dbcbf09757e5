/* work_items.c: work items, on up to eight threads of the host. All of it is under G. */
#include "ke/work_items.h"
#include "explore/explore.h"
#include "io/io.h"
#include "mm/mm.h"
#include "record/record.h"
#include "rules/rules.h"

enum { MAX_WORKERS = 8 };
static Condition work_came = { &host_lock, PTHREAD_COND_INITIALIZER };
static PIO_WORKITEM first_item, last_item;
PIO_WORKITEM work_items;
static int n_workers, n_idle;

/* For whoever has waited until no item is left. */
void after_work_items(void) { touch(&first_item, SYNCS); }

bool workers_are_idle(void) { return !first_item && n_idle == n_workers; }

/* Idle workers are alike: the n-th of them is ready where n items are queued. */
static bool is_idle[MAX_WORKERS];

static int n_queued(void)
{
    int n = 0;
    for (PIO_WORKITEM i = first_item; i; i = i->next)
        n++;
    return n;
}

static bool has_item(const void *number)
{
    int before = 0;
    for (int i = 0; i < (int)(intptr_t)number; i++)
        before += is_idle[i];
    return before < n_queued();
}

/* Whether a work item of the device is queued. */
bool has_work(int device)
{
    for (PIO_WORKITEM i = first_item; i; i = i->next)
        if (i->device && i->device->HostNumber == device)
            return true;
    return false;
}

static void await_item(int number)
{
    const Wait w = { .ready = has_item, .context = (void *)(intptr_t)number, .on = &work_came, .patience = IDLES,
                     .what = "the queue of work items" };
    touch(&first_item, SYNCS);
    n_idle++;
    is_idle[number] = true;
    wait_for(&w);
    is_idle[number] = false;
    n_idle--;
    touch(&first_item, SYNCS);
}

static void *work(void *context)
{
    Call c;
    enter_host(&c, "a work item", (WDM_SITE){ 0 });
    for (;;) {
        await_item((int)(intptr_t)context);
        struct _IO_WORKITEM *item = first_item, now = *item;
        first_item = item->next;
        if (!first_item)
            last_item = NULL;
        item->queued = false;
        touch(item, SYNCS);
        if (now.plain)
            forget_plain(item);
        Frame f = { .kind = WORK, .fn = (void *)now.routine, .device = now.device ? now.device->HostNumber : NOBODY, .settled = true };
        run_work(&f, now.driver);
        call_routine(&now, item);
        work_done();
        if (now.device)
            item_has_returned(now.device->HostNumber);
    }
    return NULL;
}

PIO_WORKITEM WdmIoAllocateWorkItem(PDEVICE_OBJECT Device, WDM_SITE at)
{
    Call c;
    enter_host(&c, "IoAllocateWorkItem", at);
    struct _IO_WORKITEM *item = memory_is_refused(c.name, at) ? NULL : host_memory(sizeof *item);
    if (item) {
        const int driver = Device->DriverObject->HostNumber;
        *item = (struct _IO_WORKITEM){ .device = Device, .object = Device, .made = at, .driver = driver, .next_made = work_items };
        work_items = item;
    }
    leave_host();
    return item;
}

static bool is_item(const struct _IO_WORKITEM *item)
{
    PIO_WORKITEM i = work_items;
    while (i && i != item)
        i = i->next_made;
    return i != NULL;
}

/* A device is deleted. Windows keeps it until its queued work items have run, so that is a note. */
void tell_work_queued(int device)
{
    for (PIO_WORKITEM i = first_item; i; i = i->next)
        if (i->device && i->device->HostNumber == device)
            note("a work item", "%s is deleted while its work item %s is in the queue, which was allocated at %s", who(device),
                 function_name((void *)i->routine), place(i->made));
}

void put_into_queue(PIO_WORKITEM item)
{
    item->queued = true;
    item->next = NULL;
    if (item->device)
        item_is_queued(item->device->HostNumber);
    if (last_item)
        last_item->next = item;
    else
        first_item = item;
    last_item = item;
    touch(&first_item, SYNCS);
    if (n_idle < n_queued() && n_workers < MAX_WORKERS &&
        !start_thread(work, (void *)(intptr_t)n_workers, "worker", NULL, NULL))
        n_workers++;
    tell_waiters(&work_came);
}

/* Its memory goes. */
void take_from_queue(PIO_WORKITEM item)
{
    PIO_WORKITEM *i = &first_item, last = NULL;
    while (*i && *i != item) {
        last = *i;
        i = &(*i)->next;
    }
    if (*i)
        *i = item->next;
    if (last_item == item)
        last_item = last;
    if (item->queued && item->device)
        item_has_returned(item->device->HostNumber);
    item->queued = false;
}

void queue_item(PIO_WORKITEM Item, PIO_WORKITEM_ROUTINE Routine, bool is_extended, PVOID Context, WDM_SITE at)
{
    Call c;
    enter_host(&c, "IoQueueWorkItem", at);
    hands_over();
    touch(Item, SYNCS);
    const bool is_there = is_item(Item);
    if (!is_there)
        broken("UsedInFreedMemory", NULL, "this is no work item any more");
    else if (Item->device && !devices[Item->device->HostNumber].live)
        broken("UsedInFreedMemory", NULL, "the work item is of %s, which is deleted", who(Item->device->HostNumber));
    if (is_there && Item->queued)
        fault("QueuedTwice", NULL, "the work item is in the queue already");
    else if (is_there) {
        Item->routine = Routine;
        Item->is_extended = is_extended;
        Item->context = Context;
        put_into_queue(Item);
    }
    leave_host();
}

VOID WdmIoQueueWorkItem(PIO_WORKITEM Item, PIO_WORKITEM_ROUTINE Routine, PVOID Context, WDM_SITE at)
{
    queue_item(Item, Routine, false, Context, at);
}

VOID WdmIoFreeWorkItem(PIO_WORKITEM Item, WDM_SITE at)
{
    Call c;
    enter_host(&c, "IoFreeWorkItem", at);
    PIO_WORKITEM *i = &work_items;
    touch(Item, SYNCS);
    while (*i && *i != Item)
        i = &(*i)->next_made;
    if (!*i || Item->queued)
        fault("QueuedTwice", NULL, *i ? "the work item is freed while it is queued" : "this is no work item any more");
    else {
        *i = Item->next_made;
        free_host_memory(Item);
    }
    leave_host();
}

void tell_work_left(int driver)
{
    for (PIO_WORKITEM i = work_items; i; i = i->next_made)
        if (i->driver == driver)
            left_behind(i->queued ? "the work item, in the queue," : "the work item",
                        i->plain ? "ExQueueWorkItem" : i->is_own ? "IoInitializeWorkItem" : "IoAllocateWorkItem", i->made);
}
