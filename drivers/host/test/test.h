/* test.h: what stands for programs and for other drivers. */
#ifndef DRIVERS_TEST_TEST_H
#define DRIVERS_TEST_TEST_H

#include "host.h"
#include "test/situations.h"
#include "test/told_to_tests.h"

/* between.c: a device of the host's that pends all. */
bool is_between(PDEVICE_OBJECT device);
void put_between(PDEVICE_OBJECT target, WDM_SITE at);
void take_from_between(PDEVICE_OBJECT device);
int count_attached(void);

/* bottom.c */
bool is_bottom(PDEVICE_OBJECT device);

/* cancel_at.c: a request that is cancelled at a call of a driver. */
void request_sent(Packet *p);
void cancel_at(const char *name, WDM_SITE at);
void waits_now(void);
bool was_cancelled_there(void);
void tell_cancelled_there(void);
void write_cancel_places(FILE *out);

/* covered.c */
void request_came(int driver, UCHAR major, UCHAR minor);
void control_ended(int driver, UCHAR major, ULONG code, ULONG status);
void write_covered(FILE *out);

/* reached.c */
void learn_reached(void);

/* passing.c: the host's own driver for a child that no other driver takes: it passes all down. */
void take_child(PDEVICE_OBJECT pdo);

#endif
