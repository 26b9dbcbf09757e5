/* pnp.h: what the managers of Plug and Play and of power, and the power framework, are asked; names and links of devices. */
#ifndef DRIVERS_PNP_PNP_H
#define DRIVERS_PNP_PNP_H

#include "host.h"

/* links_and_interfaces.c */
void tell_links_left(int driver);
void tell_links_to_nothing(void);
PCUNICODE_STRING name_of_device(const void *device);
void forget_names(PDEVICE_OBJECT device);
PDEVICE_OBJECT device_named(PCUNICODE_STRING name);

/* plug_and_play.c */
void take_by_surprise(PDEVICE_OBJECT pdo);

/* plug_and_play_orders.c */
bool plug_and_play_is_idle(void);

/* pofx.c */
void check_pofx_gone(const void *from, size_t size, const char *what);

/* pofx_steps.c */
bool power_framework_is_idle(void);
bool tell_framework_waits(void); /* under G; then the wait may go on */

/* power_manager.c */
bool power_manager_is_idle(void);
void send_at_passive_level(PDEVICE_OBJECT top, PIRP irp, WDM_SITE at);
bool is_reported_off(int device);

#endif
