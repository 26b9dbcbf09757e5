/*
 * host.h: what the files of the host share.
 *
 * The host runs drivers, keeps a shadow of what docs/RULES.md knows of their packets and devices, and records entries.
 * It isn't trusted: `irpx check` judges what it recorded.
 *
 * FOLDERS. A file stands in the folder of what it is about. No two files have one name, since places are told by names.
 * FOLDER/FOLDER.h is what other folders may call; a folder's other headers are its own.
 *   io/       packets and their locations, sends, completions, cancels, remove locks; devices, files, interrupts
 *   ke/       threads and the host's lock; waits, spin locks and other locks; timers, deferred calls, work items, callbacks
 *   mm/       pool, pages, MDLs, sections, DMA; memory that is refused; touches of pages that are closed
 *   pnp/      the managers of Plug and Play and of power, the power framework; interfaces, links, properties of devices
 *   ob/       objects, handles, names, security, registry
 *   rtl/      text, printing, tracing, GUIDs, routines by name
 *   win32/    the calls of Win32 that tests of Wine's make
 *   record/   entries and the transcript, the files beside it; faults and their names; how a run ends
 *   rules/    what docs/RULES.md refuses, and what Driver Verifier checks
 *   explore/  schedules, the explorer, snapshots, races
 *   test/     what stands for programs and other drivers: requests, situations, bottoms, cancels; what runs came to
 *
 * LOCKING ORDER. From the outside in; nothing takes a lock that stands above one that it holds.
 *   1. the cancel spin lock (cancelling.c), which a driver may hold across calls of the host;
 *   2. G, the host's lock: enter_host takes it, leave_host gives it back. All of the shadow and the history is under
 *      it. It is never held while a driver's code runs: let_driver_run gives it back, driver_came_back takes it again;
 *   3. W (dispatcher_objects.c), under which events, timers, semaphores and mutexes change. Nothing is called under W.
 * A driver's own spin locks are taken outside G. `self` is the thread's own and has no lock.
 *
 * WHEN AN ENTRY IS SETTLED. An entry gets its number when it is settled, always inside the real call:
 *   - a call without questions: in the call, under one hold of G;
 *   - a descent: when the last dispatch asked has finished the packet (then at the end of its unwinding), or has kept
 *     it. That it keeps it is known at its return, or earlier: at the first call on the packet that only its new owner
 *     may make, by whatever thread (settle);
 *   - a running completion routine: as one that keeps, by such a call; else where it returns, with its unwinding;
 *   - a running cancel routine: as one that leaves, by such a call, or at its return; as one that finishes, where it
 *     completes the packet itself.
 * The reply of a send is filled in when the send returns. `await` lets a call by somebody who isn't asked wait, for at
 * most a second, while another thread has the packet on its way.
 */
#ifndef DRIVERS_HOST_H
#define DRIVERS_HOST_H

#include "wdm_io.h"
#include "wdm_hw.h"
#include "wdm_trace.h"
#include "wdm_guid.h"
#include "wdm_test.h"
#include "ke/threads.h"
#include "options.h"
#include <signal.h>
#include <stdio.h>
#include <time.h>

enum { ORIGINATOR = -1, ENDED = -2, NOBODY = -3 }; /* parties beside device numbers */
enum { MAX_DEVICES = 64, MAX_DRIVERS = 64, MAX_SEATS = 64, MAX_SIZE = 32, MAX_LIVE = 4096, MAX_PACKETS = 1 << 16 };
enum { MAX_IDS = 256, MAX_HISTORY = 1000000, PAGE = 4096, ENDED_KEPT = 64, MAX_HELD = 1024 };
typedef enum { CREATE, ATTACH, DETACH, REMOVE, ALLOCATE, FREE, REUSE, SET_NEXT, COPY, SKIP, SET_ROUTINE, MARK, CALL,
               COMPLETE, SET_CANCEL, CANCEL, LOOK } Op;
typedef enum { DISPATCH, ROUTINE, CANCELLING, WORK } Kind;
typedef enum { UNKNOWN, FINISH, HOLD, SKIPS, FORWARD, FORWARD_PEND, CONTINUE, KEEP, LEAVE } Plan;
typedef enum { NOTHING, FILLED, SKIPPED } Preparation;
typedef enum { SPIN_LOCK, CANCEL_LOCK, FAST_LOCK, MUTEX_OBJECT, SHARED_SPIN, PUSH_LOCK } LockKind;
typedef enum { NONE_YET, DONE, DEVICE, IRP_REF, STATUS, PREVIOUS, CANCELLED, SEEN, REFUSED } Reply;

typedef struct Packet Packet;
typedef struct Entry Entry;

/* Who made a call: places in the program, the innermost first. */
enum { MOST_CALLERS = 5 };
typedef struct { const void *at[MOST_CALLERS]; int n; } Callers;

/* One setting of a completion routine. Its rule is learned from what this one did, unless the test declares one. */
typedef struct {
    PIO_COMPLETION_ROUTINE fn;
    PVOID raw;
    uint64_t context;
    UCHAR flags;
    bool kept, replaced;
} Setting;

/* Where a driver or a test made a call of the host. */
typedef struct { WDM_SITE site; const char *call; } CallSite;

/* One question of an entry: whom it was put to, what was shown, what was answered, and where that was decided. */
typedef struct {
    CallSite at;
    Kind kind;
    Plan plan;
    void *fn;
    int device, location;
    UCHAR major;
    uint64_t word, information, context, new_information;
    ULONG status, new_status;
    bool returned, has_lower, mark, replaced;
    Setting *set;
    PDRIVER_CANCEL cancel;
} Asked;

struct Entry {
    Op op;
    int seat, by, device, other;
    Packet *p;
    unsigned slot;
    uint64_t use, word, information;
    ULONG status;
    UCHAR major;
    bool drained, cancel, numbered, sealed, by_host; /* by_host: the host made the call, so that the run goes on */
    Setting *set;
    PDRIVER_CANCEL routine;
    Asked *asked;
    int n, driver; /* driver: whose code made the call, or none */
    CallSite at;
    const void *under; /* the dispatch or routine that ran, or NULL */
    size_t number;
    unsigned long began, order; /* when its call began, and when it got its number */
    Reply reply;
    uint64_t answer;
    const char *refused;
    struct {
        int owner, current;
        ULONG status;
        uint64_t information;
        bool cancel, returned, marked;
        PDRIVER_CANCEL routine;
    } seen;
};

/* A driver's code that runs now. Each thread has a chain of them. */
typedef struct Frame {
    struct Frame *up;
    Kind kind;
    Packet *p;
    uint64_t use;
    void *fn;
    int device, location, driver; /* driver: of work, whose it is */
    UCHAR major;
    Entry *e;
    int i;
    pthread_t thread;
    bool settled;            /* what it was asked is decided */
    bool marked;             /* it called IoMarkIrpPending for its packet, or set the bit by hand */
    bool bit_came;           /* its location came with the bit */
    bool marked_by_routine;  /* a routine of its device did, for its location */
    bool forced;             /* its location is marked by the host: it counts as one that pended */
    bool passed, finished;   /* it passed the packet down by a plan; it completed the packet */
    bool completed_unmarked; /* its packet was completed while only the host had marked it */
    bool handed_over;        /* it made a call by which a packet may change hands: another may write to it by now */
    bool waiting;            /* its thread waits */
    bool sent;               /* it made a send in its device's name */
    KIRQL before, irql;      /* the interrupt level before it, and the one at which it began */
    uint64_t number;         /* of all frames of the run */
    PDRIVER_CANCEL cancel;
    Entry *below; /* in_place.c: the rider's send, which returns when the dispatch's own does */
    ULONG lower, done, status;
    uint64_t information;
    const char *forced_why, *acted; /* acted: a call by which it handles its request of Plug and Play */
    WDM_SITE last;
    const char *last_call;
} Frame;

typedef struct {
    int device;
    UCHAR major;
    uint64_t word;
    Setting *set;
    bool pending, real;     /* the pending bit; whether the driver's own code has set it */
    ULONG came;             /* the status with which the packet came here */
    bool came_back, told;   /* its dispatch has returned; a fault of its answer was told */
    NTSTATUS answer;        /* what it returned */
    Entry *by;              /* the entry whose plan set the routine, and the plan's place in it */
    int by_i;
    Frame *frame;           /* the dispatch that runs in this location */
} Location;

struct Packet {
    PIRP irp;
    int size, current, owner, last, allocator; /* allocator: a driver, or NOBODY */
    int most; /* how many locations its memory has */
    unsigned long moved; /* host_activity when it was called for last, or somebody was asked about it */
    unsigned slot;
    uint64_t use, information;
    ULONG status;
    bool live, returned, cancel, unwinding, lost;
    struct {
        Preparation how;
        bool copied, skipped, touched; /* touched: a copy, or what was set, may be filled anew by hand */
        Setting *set;
    } next; /* how the next lower location is prepared */
    PDRIVER_CANCEL routine, ghost; /* ghost: a routine that came after the cancel, and hasn't been taken back */
    PDRIVER_CANCEL called;         /* the cancel routine that was called */
    PDRIVER_CANCEL own_cancel;     /* unsent.c: its originator's, while that has it */
    PFILE_OBJECT file;             /* of the location with which it was sent, or NULL */
    uint64_t held_at_cleanup;      /* the use in which a driver held it when CLEANUP of its file was sent */
    KPROCESSOR_MODE mode;          /* of who asked for it */
    Frame *asking;                 /* who is asked about it and hasn't decided */
    Entry *open;
    void *kept_by;                 /* the routine that kept it last */
    bool has_own_location;         /* its topmost location is its allocator's own (IoSetNextIrpStackLocation) */
    struct {
        Packet *of, *by; /* it stands in for another one; another one stands in for it */
        Setting *set;    /* the device's own routine, which runs when it is up */
        PKEVENT up;      /* set when the one that stands in is up, where its dispatch waits for that */
    } stands_in;         /* in_place.c */
    struct {
        PVOID given;                /* by WdmBuild, freed with the packet; so are its bytes */
        struct Block *bytes;
        PMDL direct;                /* room for the MDL of a control of METHOD_IN_DIRECT or METHOD_OUT_DIRECT */
        struct Block *direct_bytes; /* and what it describes, where nobody gave a buffer */
        ULONG room;                 /* what was built has room for so many bytes there, to be copied to UserBuffer */
        bool has_pattern;           /* unwritten.c: a pattern lies behind its input */
        bool writes_back;
        bool is_lent;               /* mdl.c: it and its MDL are for whoever had the packet built to free */
        PMDL lent;                  /* the MDL */
    } buffer;
    struct {
        bool by_manager;                 /* by the I/O manager, which frees it at its end */
        bool status_gone, event_gone;    /* its IoStatusBlock or event lies where nobody may write any more */
        bool is_threaded, fails_at_once; /* built_packets_end.c: it is on its thread's list; its end sets no event */
        const void *never_set;           /* which event that is */
    } built;
    struct {
        bool is_trapped, is_untold, is_senders;
        const void *at;
        int by, calls; /* the device that ran; the driver whose function it had called, or NOBODY */
    } touch;           /* of its page while that is closed */
    struct {
        bool is_watched; /* watching.c: closed, until somebody touches it */
        bool is_shut;    /* traps.c: closed for good: it has ended, or is free */
        uint64_t frame;  /* the number of the frame that watches */
        const struct Call *calls;
        int sent_by;
    } page;
    struct { WDM_SITE allocated, sent, completed, freed, cancel, none_taken; } sites;
    Callers completers;
    uint64_t name; /* by the thread that allocated it, and how many that had allocated before */
    UCHAR major;   /* what was sent to the first device */
    struct {
        CHAR stack_count;         /* what the packet says of itself */
        IO_STACK_LOCATION *above; /* the locations of the devices above, as they left them; `left` has a bit for each */
        uint64_t left;
    } kept;                       /* own_memory.c */
    struct {
        Packet *older;      /* what was initialized before it there, or near */
        const Frame *frame; /* on the stack of which frame that was, or NULL */
    } initialized;          /* initialized.c */
    Location at[MAX_SIZE + 2];
};

typedef struct {
    PDEVICE_OBJECT raw;
    int lower, upper;
    int running; /* how many of its dispatches, routines and work items run, on all threads */
    bool live, leaving, bound;
    PDRIVER_OBJECT driver; /* this and the next two: what stands in the device object */
    PVOID extension;
    ULONG extension_size;
    WDM_SITE created;
    WDM_SITE deleted; /* where its delete was called that waits for the device above, or for what keeps its extension */
    int items;        /* its work items that are queued or run */
    bool goes;        /* it is deleted, and its extension goes with the last of these, and of the references to it */
    bool stays;       /* it is to be deleted, which is put off until the last reference to it is back */
    bool drained;     /* the thread that wanted it knew that its remove lock is drained */
} Device;

/* A call of the host that runs on this thread. */
typedef struct Call {
    struct Call *up;
    const char *name;
    WDM_SITE at;
    bool is_entered; /* it stands where the driver made it: its callers are above it on the stack */
    bool is_access;  /* it is an access of memory, and its name says at which place */
    const void *by;  /* of a touch: the instruction */
} Call;

typedef struct {
    int seat;         /* -1 until its first call */
    int driver;       /* whose thread it is: who made it, or queued its work; NOBODY where that isn't known */
    int device;       /* whose work item it runs, or NOBODY */
    bool is_driver;   /* a thread of a driver, or of the host for drivers: its waits outside of packets are no hang */
    bool has_cancel_lock, has_host; /* has_host: it holds G for a call */
    KIRQL irql;
    WDM_SITE raised;  /* where its interrupt level was changed last */
    unsigned chance;
    Frame *frames;
    Call *calls;
    Packet *touched;
    Packet *opened; /* watching.c: a function of the driver that has it touched it */
    struct _KTHREAD *thread;
    PFILE_OBJECT file; /* whose packets it builds (WdmUseFile), or NULL */
    int regions, guarded_regions; /* critical ones that it is in, and those of them that are guarded */
    KAFFINITY affinity; /* the processors that it was told to run on, or 0 */
    const Wait *wait;  /* where it waits on a real thread, or NULL */
    pthread_t id;
    void *other_stack; /* for handlers */
    WDM_SITE last;
    const char *last_call;
} Self;

extern _Thread_local Self self;
extern pthread_mutex_t host_lock;
extern Condition host_settled; /* under G */
extern Device devices[MAX_DEVICES];
extern PDRIVER_OBJECT drivers[MAX_DRIVERS];
extern Packet *packets[MAX_PACKETS];
extern Entry **history;
extern size_t n_history;
extern unsigned long n_recorded; /* entries, steps on remove locks, switches and faults: the order of all of them */
extern int n_devices, n_drivers, n_packets, n_live, n_seats, n_faults, n_notes, n_early, n_sends;
extern uint64_t next_use;
extern unsigned long host_activity; /* grows with each call, so that a wait sees whether anything goes on */
extern _Atomic int packets_lost; /* that a dispatch neither finished, kept nor passed down, and nobody has completed since */

#endif
