/* rules.h: what docs/RULES.md refuses, and the checks of Driver Verifier's kind. All of it is under G, unless it says otherwise. */
#ifndef DRIVERS_RULES_RULES_H
#define DRIVERS_RULES_RULES_H

#include "host.h"

typedef struct { const char *rule, *code, *page, *remedy; } Check;
typedef struct { const void *lock; LockKind kind; WDM_SITE at; KIRQL before; const Frame *frame; int again; } Hold;
typedef struct { int driver; WDM_SITE at; } Holder;
typedef struct { Call call; Frame frame; int driver; } Running;

/* checks.c: the rules. VERIFIER.md has the same table for readers. */
const Check *check_named(const char *rule);
__attribute__((format(printf, 3, 4))) void broken(const char *rule, const Packet *p, const char *how, ...);
__attribute__((format(printf, 4, 5))) void broken_at(const char *rule, const char *call, WDM_SITE at, const char *how, ...);

/* completion_checks.c */
void check_completion(const Packet *p, int by, ULONG status, uint64_t information);
void check_dispatch_there(const Packet *p, int d, UCHAR major);
void check_sending(const Packet *p, int by);
void remember_act(const char *call);

/* freed_with_objects.c: timers, deferred calls and locks in memory that goes. */
void check_gone(const void *from, size_t size, const char *what);

/* given.c */
bool take_handle_back(HANDLE handle);
/* A driver has this from now on, by this call. `what` and `call` are kept. */
void give_out(const void *object, const char *what, const char *call, WDM_SITE at);
/* It gives it back. Returns whether it had it; then `was` says since where. */
bool take_back(const void *object, Holder *was);
/* The same, and it stays there. */
bool is_given(const void *object, Holder *is);
/* Runs a driver's routine on this thread, in a frame of its own: between these two the routine is called. Neither is called
   under G. */
void begin_routine(Running *r, const char *name, void *fn, int driver, int device, KIRQL irql);
void end_routine(Running *r);

/* leftovers.c */
void left_behind(const char *what, const char *call, WDM_SITE at);
void tell_left(int driver);

/* levels.c: at which interrupt level a call may be made. */
void check_call(const Call *c);
void check_wait(const char *name, WDM_SITE at);
void check_dispatch_level(const Packet *p, UCHAR major, int device);
void enter_level(Frame *f);
void leave_level(Frame *f);
const char *level_name(KIRQL irql);

/* locks.c: who holds which lock, and in which order locks are taken. */
bool lock_wanted(const void *lock, LockKind kind);
void lock_taken(const void *lock, LockKind kind, WDM_SITE at, KIRQL before);
bool lock_given_back(const void *lock, LockKind kind);
void check_release_level(const void *lock, KIRQL irql);
const Hold *held_spin_lock(void);
void check_thread_end(void); /* takes G and gives it back */
void forget_locks(const void *from, size_t size, const char *why);
void tell_deadlock(const void *lock);
void tell_locks_held(void);
const Hold *holder_of(const void *lock, int *seat);
const char *lock_kind(LockKind kind);

/* own_memory.c */
int device_number(const DEVICE_OBJECT *device);
void check_devices(void);
void check_packet(Packet *p);
void leave_location(Packet *p, int j);

/* packet_leaks.c */
void packet_allocated(const Packet *p);
void packet_freed(const Packet *p);
bool is_packet_leak(const Packet *p);
void tell_packet_leaks(void);

/* pageable.c */
void check_pageable_function(const void *fn, const void *caller); /* takes G and gives it back */

/* refusals.c: the one place that knows which call is refused. A question there is one that irp_live could be asked. */
const char *rules_refusal(const Entry *call);
bool rules_completable(ULONG status);

/* sent_handles.c: whether the host's own test has sent a handle of it; a driver takes it by that; what was never given back. */
bool is_sent_handle(const void *object);
NTSTATUS check_sent_handle(const void *object, POBJECT_TYPE type);

/* stack_blocks.c */
void remember_blocks(Packet *p);
void check_blocks(const Frame *f);
const Frame *frame_around(const void *at);
void remember_event(const void *event);
bool is_over_event(const void *event);

/* starting.c */
void check_started(void);
void check_started_below(const Packet *p, const IO_STACK_LOCATION *next, int device);
void check_next_power(const Packet *p, int by, bool has_routine);
void check_power_routine(const Packet *p, int by);

/* timers_asleep.c */
void forget_asleep(const KTIMER *timer);
void power_comes(const IO_STACK_LOCATION *l, int device);
void tell_asleep(const KTIMER *t);

/* unset_status.c */
void expect_status(Packet *p);
bool put_status_back(Packet *p);
void check_status_set(Packet *p, int by);

/* unwritten.c */
void fill_behind_input(Packet *p, size_t input);

/* used_after_free.c */
void check_used(const void *object, const char *kind);

/* watching.c */
void watch_sent(Packet *p, int by, uint64_t use);
void watch_again(void);
bool unwatch(Packet *p);
bool is_watcher(const Packet *p);
bool is_code_of_holder(const Packet *p, const void *at);

#endif
