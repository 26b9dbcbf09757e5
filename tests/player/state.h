/* state.h: what the files of the player share: the script that is played, and where its packets are. */
#ifndef PLAYER_STATE_H
#define PLAYER_STATE_H

#include "player.h"

enum { PLAY_ORIGINATOR = -1, PLAY_GONE = -2, PLAY_MOVES = -3 }; /* owners beside device numbers */

typedef enum { BEHAVIOUR_CONTINUE, BEHAVIOUR_KEEP, BEHAVIOUR_REPLACE } PLAY_BEHAVIOUR_KIND;
typedef struct { uint64_t Kind, Status, Information; } PLAY_BEHAVIOUR;
typedef struct { PLAY_BEHAVIOUR OnOk, OnError; } PLAY_COMPLETION;
typedef struct { uint64_t Finishes, Information; } PLAY_CANCEL;
typedef struct { uint64_t Routine, Context, Flags; } PLAY_SETTING; /* Routine: its place and 1, or 0 for none */
typedef enum { PLAN_FINISH, PLAN_HOLD, PLAN_SKIP, PLAN_FORWARD, PLAN_FORWARD_PEND } PLAY_PLAN_KIND;
typedef struct { uint64_t Kind, Status, Information, Cancel; PLAY_SETTING Set; } PLAY_PLAN;

/* The order is that of OPS in playable.py. */
typedef enum { DO_CREATE, DO_ATTACH, DO_DETACH, DO_DELETE, DO_ALLOCATE, DO_FREE, DO_REUSE, DO_SET_NEXT, DO_COPY,
               DO_SKIP, DO_SET_ROUTINE, DO_MARK, DO_CALL, DO_COMPLETE, DO_SET_CANCEL, DO_CANCEL, DO_ACQUIRE, DO_RELEASE,
               DO_BEGIN_REMOVE, DO_DRAINED, DO_KINDS } PLAY_DO;
/* Whether the step of this place was made, and answered so (Not: otherwise). The order of the kinds is that of IFS in
   playable.py. */
typedef enum { IF_ANY, IF_NEVER, IF_EQUALS, IF_SUCCESS, IF_SOME, IF_KINDS } PLAY_IF_KIND;
typedef struct { uint64_t Place, Kind, Not, Value; } PLAY_IF; /* Place: and 1; 0 for no condition */
/* By: a device and 2, 1 for the originator, 0 for nobody. Together (bit 8 of Do in the feed): where the seats run at
   once, the step is made only if the one before it of its seat was. Refused (bit 9): the model refuses the step, and it
   is made all the same, by whomever. */
typedef struct { uint64_t Do, Seat, By, A, B, C, D, Together, Refused; PLAY_IF If; } PLAY_STEP;

typedef struct {
    LONG Number;
    PDEVICE_OBJECT Lower;
} PLAY_EXTENSION;

typedef struct {
    PIRP Irp;   /* NULL: none, or gone */
    LONG Owner; /* a device's number, PLAY_ORIGINATOR, or PLAY_GONE once it is completed and nobody has kept it */
    uint64_t Waits; /* a bit for each device whose dispatch waits until the packet is back */
} PLAY_PACKET;

typedef struct { unsigned Lock; uint64_t Tag; } PLAY_HELD;

typedef struct {
    PLAY_THREADS Threads;
    PLAY_COMPLETION Completions[PLAY_MANY];
    PLAY_CANCEL Cancels[PLAY_MANY];
    PLAY_PLAN Dispatches[PLAY_MANY];
    PDRIVER_OBJECT Drivers[PLAY_DRIVERS];
    PDEVICE_OBJECT Devices[PLAY_DEVICES];
    PDEVICE_OBJECT Above[PLAY_DEVICES]; /* who is attached to it */
    PLAY_PACKET Packets[PLAY_PACKETS];
    PLAY_STEP Steps[PLAY_STEPS];
    IO_REMOVE_LOCK Locks[PLAY_LOCKS];
    KEVENT Removed[PLAY_LOCKS]; /* IoReleaseRemoveLockAndWait has come back */
    uint64_t RemoverTags[PLAY_LOCKS];
    BOOLEAN HasRemover[PLAY_LOCKS];
    PLAY_HELD Held[PLAY_STEPS];
    unsigned nHeld;
    KEVENT Turn[PLAY_SEATS], Done, Start; /* it is a seat's turn; its step is made; all may start */
    BOOLEAN HasThread[PLAY_SEATS], Ends;
    BOOLEAN HasTurn[PLAY_SEATS]; /* a dispatch that waits has taken the seat's next turn, and hasn't used it */
    size_t nWithin;
    const PLAY_STEP *Now;
    uint64_t *Reply, *Replies;
    PLAY_END End;
    LONG Living; /* threads that haven't ended */
    unsigned nCompletions, nCancels, nDispatches, nDrivers, nDevices, nPackets, nSetup, nSteps, nLocks;
} PLAY_STATE;
extern PLAY_STATE play;

static inline PLAY_EXTENSION *PlayExtension(PDEVICE_OBJECT Device) { return Device->DeviceExtension; }

/* routines.c */
extern const PIO_COMPLETION_ROUTINE PlayCompletions[PLAY_MANY];
extern const PDRIVER_CANCEL PlayCancels[PLAY_MANY];
extern const PDRIVER_DISPATCH PlayDispatches[PLAY_MANY];
VOID PlayFinish(PIRP Irp, NTSTATUS Status, ULONG_PTR Information);
VOID PlaySetRoutine(PIRP Irp, const PLAY_SETTING *Set);
VOID PlayNumberPacket(PIRP Irp, uint64_t Number);

/* steps.c: whether what the step works on is where the model has it; makes it, if its condition is met. */
BOOLEAN PlayIsThere(const PLAY_STEP *Step);
PLAY_END PlayStep(const PLAY_STEP *Step, uint64_t *Reply);
#define PLAY_LEFT_OUT (~0ull) /* the reply of a step that wasn't made */

/* locks.c */
BOOLEAN PlayOnLocks(const PLAY_STEP *Step, uint64_t *Reply);
VOID PlayEndRemovers(VOID);
VOID PlayPause(LONG Milliseconds);

/* seats.c: plays all steps, and returns how many were made. Hands the turn on from within a step, and waits for the next
   one of its seat. */
size_t PlaySeats(VOID);
VOID PlayHandOn(unsigned Seat);

/* within.c */
typedef enum { PLAY_IN_HOLD, PLAY_IN_ROUTINE, PLAY_IN_FORWARD } PLAY_MOMENT;
VOID PlayWithin(PLAY_PACKET *Packet, LONG Owner, PLAY_MOMENT Moment);
VOID PlayAwait(PLAY_PACKET *Packet, LONG Owner, const PLAY_STEP *Sent);

/* feed.c: reads the feed into `play`. Returns whether it is one. */
BOOLEAN PlayTakeFeed(const uint64_t *Words, size_t Count, PLAY_LOAD *Load);

#endif
