/* own.h: what only the files of this folder call. */
#ifndef DRIVERS_OB_OWN_H
#define DRIVERS_OB_OWN_H

#include "ob/ob.h"

/* object_names.c */
void drop_directory(const void *object); /* its last handle is closed: under G */

/* objects.c */
POBJECT_TYPE type_by_handles(const void *object);
PCUNICODE_STRING name_of_event(const void *object);

#endif
