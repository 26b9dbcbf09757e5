/* ke.h: the host's lock, threads and waits; locks; timers, deferred calls and work items; routines that are registered. */
#ifndef DRIVERS_KE_KE_H
#define DRIVERS_KE_KE_H

#include "host.h"
#include "wdm_callbacks.h"

typedef struct Registration {
    struct Registration *next; /* stays when it is gone */
    void *fn;
    PVOID context, of;
    int driver, running;
    bool is_gone;
    GUID setting;
} Registration;

/* callbacks.c: registrations of routines, in the order in which they are called. All of it is under G. */
void add_registration(Registration **all, Registration *r, const char *what, const char *call, WDM_SITE at);
/* Waits until it runs nowhere. Returns whether it was there. */
bool remove_registration(Registration **all, Registration *r);
Registration *run_next(Registration *const *all, Registration *before);
void has_run(Registration *r);

/* dispatcher_objects.c */
void set_event(PKEVENT event);
void hands_over_now(void);
bool is_event(const void *object);
bool wait_for_host(bool (*done)(const void *), const void *context);
void release_object(DISPATCHER_HEADER *h);
bool waited_in(const void *from, size_t size, WDM_SITE *at);

/* kernel.c: spin locks, which take G and give it back themselves. */
KIRQL take_spin_lock(PKSPIN_LOCK lock, LockKind kind, const char *name, WDM_SITE at);
bool give_spin_lock(PKSPIN_LOCK lock, LockKind kind, const char *name, KIRQL irql, bool lowers, WDM_SITE at);
void drop_spin_lock(PKSPIN_LOCK lock, LockKind kind, KIRQL irql); /* under G */

/* own_work_items.c */
void check_work_gone(const void *from, size_t size, const char *what);

/* push_locks.c */
void drop_push_lock(const void *lock);

/* real_threads.c */
void tell_waiters(Condition *c);
/* Waits until it is ready, its time is up, or no thread can go on. A real thread takes it for stuck where nothing at all
   went on in the host for some seconds. */
Woken wait_for(const Wait *w);
/* A place where another thread may go on before this one does. */
void point(const char *what, WDM_SITE at);
/* The same where this thread has nothing to do itself. */
void yield_to_others(const char *what);
LONGLONG now_in_100ns(void);

/* shared_spins.c */
void drop_shared_spin(const void *lock);

/* threads.c */
void give_seat_back(void);
void enter_host(Call *c, const char *name, WDM_SITE at);
void enter_quietly(Call *c, const char *name, WDM_SITE at);
void hold_host(const char *call, const void *object, Touch how);
void leave_host(void);
void let_driver_run(void);
void driver_came_back(void);
void enter_frame(Frame *f);
void leave_frame(void);
void learn_file(const char *file, int driver);
void learn_test(const char *file);
bool has_test(const char *file);
int calling_driver(void);
int running_driver(void);
/* Starts a thread, named by its kind and by what it runs for, or NULL. One that waits first may be given that wait.
   Returns 0, or why there is none. */
int start_thread(void *(*run)(void *), void *context, const char *kind, void *fn, const Wait *first);
pthread_t this_thread(void);
__attribute__((noreturn)) void end_thread(void *result);
static inline bool is_this_thread(pthread_t thread) { return pthread_equal(thread, this_thread()); }
void tell_threads_left(int driver);
int driver_of_file(const char *file);
bool is_thread_of_driver(const void *object);

/* timers_and_dpcs.c */
void finish_work(void);
ULONG next_new_timer(ULONG most);
PKTIMER armed_timers(void);
void tell_timers_left(int driver);
void tell_calls_left(int driver);
PKTIMER take_timer_in(const void *from, size_t size);
PKDPC take_dpc_in(const void *from, size_t size);

/* work_items.c */
bool has_work(int device);
void tell_work_queued(int device);
void tell_work_left(int driver);

#endif
