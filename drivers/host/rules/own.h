/* own.h: what only the files of this folder call. */
#ifndef DRIVERS_RULES_OWN_H
#define DRIVERS_RULES_OWN_H

#include "rules/rules.h"

/* given.c */
void tell_given_left(int driver);
void check_given_gone(const void *from, size_t size, const char *what);

/* locks.c */
void tell_locks_kept(const Frame *f);

/* pageable.c */
void check_pageable_call(const Call *c);
void check_pageable_routine(const Frame *f);

/* sent_handles.c */
void tell_sent_left(int driver);

/* timers_asleep.c */
void power_goes(const IO_STACK_LOCATION *l, int device);

/* unwritten.c */
void check_written(const Packet *p, int by, size_t input, uint64_t information);

#endif
