/* own.h: what only the files of this folder call. */
#ifndef DRIVERS_PNP_OWN_H
#define DRIVERS_PNP_OWN_H

#include "pnp/pnp.h"

/* links_and_interfaces.c */
void name_instance(PDEVICE_OBJECT device, const char *id, const char *instance);

#endif
