/* work_items.h: a work item, and what the files for them share. All of it is under G. */
#ifndef DRIVERS_WORK_ITEMS_H
#define DRIVERS_WORK_ITEMS_H

#include "ke/own.h"

struct _IO_WORKITEM {
    PDEVICE_OBJECT device; /* NULL: of ExQueueWorkItem, or of a driver object */
    PVOID object;          /* that the driver named */
    PIO_WORKITEM_ROUTINE routine;
    PVOID context;
    bool queued, is_own; /* is_own: it lies in the driver's memory */
    bool is_extended;    /* its routine is one of IoQueueWorkItemEx */
    PWORK_QUEUE_ITEM plain;
    struct _IO_WORKITEM *next;
    WDM_SITE made;
    int driver;
    struct _IO_WORKITEM *next_made;
};

extern PIO_WORKITEM work_items; /* all that are there */
void queue_item(PIO_WORKITEM Item, PIO_WORKITEM_ROUTINE Routine, bool is_extended, PVOID Context, WDM_SITE at);
void put_into_queue(PIO_WORKITEM item);
void take_from_queue(PIO_WORKITEM item);

/* own_work_items.c */
void forget_plain(PIO_WORKITEM item);
void call_routine(const struct _IO_WORKITEM *item, PIO_WORKITEM itself);

#endif
