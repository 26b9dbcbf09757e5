/* own.h: what only the files of this folder call. */
#ifndef DRIVERS_TEST_OWN_H
#define DRIVERS_TEST_OWN_H

#include "test/test.h"

/* covered.c */
void function_ran(const void *fn);
void routine_was_called(const void *fn, bool with_error);
void cancel_routine_set(const void *fn, bool is_called);
void learn_dispatches(void);

/* own_packets.c */
bool is_drivers_own(PIRP irp);

#endif
