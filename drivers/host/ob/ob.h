/* ob.h: references, handles and names of objects. */
#ifndef DRIVERS_OB_OB_H
#define DRIVERS_OB_OB_H

#include "host.h"

/* object_names.c */
UNICODE_STRING driver_name(const char *name); /* `\Driver\` before it */

/* objects.c */
bool is_referenced(PVOID object);
WDM_SITE reference_of(const void *object); /* where the last one was taken, while there is one */
void forget_handle(HANDLE handle); /* it is closed, and what it is of stays */
HANDLE new_handle(POBJECT_TYPE type, PVOID object);
PVOID handle_object(HANDLE handle, POBJECT_TYPE type);
void tell_references(void);

#endif
