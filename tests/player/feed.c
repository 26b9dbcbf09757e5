/* feed.c: reads a feed, and plays it. playable.py says what stands in a feed; all that is checked here is bounds. */
#include "state.h"

typedef struct { const uint64_t *Words; size_t Left; BOOLEAN Bad; } FEED;

static uint64_t take(FEED *f)
{
    if (!f->Left) {
        f->Bad = TRUE;
        return 0;
    }
    f->Left--;
    return *f->Words++;
}

static unsigned take_count(FEED *f, unsigned most)
{
    const uint64_t n = take(f);
    if (n > most)
        f->Bad = TRUE;
    return f->Bad ? 0 : (unsigned)n;
}

static PLAY_BEHAVIOUR take_behaviour(FEED *f)
{
    const uint64_t kind = take(f), status = take(f);
    return (PLAY_BEHAVIOUR){ kind, status, take(f) };
}

static PLAY_SETTING take_setting(FEED *f)
{
    const uint64_t routine = take_count(f, play.nCompletions), context = take(f);
    return (PLAY_SETTING){ routine, context, take(f) };
}

/* The driver that is loaded now, and its table. */
static struct { unsigned n, Majors[PLAY_MAJORS], Dispatches[PLAY_MAJORS]; PDRIVER_OBJECT Driver; } loading;

static VOID wrap(PDRIVER_OBJECT DriverObject)
{
    UNREFERENCED_PARAMETER(DriverObject);
#ifdef IRPX_RECORDER_H
    IrpxWrapDriver(DriverObject);
#endif
}

static NTSTATUS NTAPI entry(PDRIVER_OBJECT DriverObject, PUNICODE_STRING RegistryPath)
{
    UNREFERENCED_PARAMETER(RegistryPath);
    loading.Driver = DriverObject;
    wrap(DriverObject);
    for (unsigned i = 0; i < loading.n; i++)
        DriverObject->MajorFunction[loading.Majors[i]] = PlayDispatches[loading.Dispatches[i]];
    wrap(DriverObject);
    return STATUS_SUCCESS;
}

static PDRIVER_OBJECT take_driver(FEED *f, unsigned number, PLAY_LOAD *Load)
{
    loading.n = take_count(f, PLAY_MAJORS);
    for (unsigned i = 0; i < loading.n; i++) {
        loading.Majors[i] = take_count(f, PLAY_MAJORS - 1);
        loading.Dispatches[i] = take_count(f, PLAY_MANY - 1);
    }
    loading.Driver = NULL;
    if (f->Bad || !Load(number, entry))
        f->Bad = TRUE;
    return loading.Driver;
}

static VOID take_routines(FEED *f)
{
    play.nCompletions = take_count(f, PLAY_MANY);
    for (unsigned i = 0; i < play.nCompletions; i++) {
        play.Completions[i].OnOk = take_behaviour(f);
        play.Completions[i].OnError = take_behaviour(f);
    }
    play.nCancels = take_count(f, PLAY_MANY);
    for (unsigned i = 0; i < play.nCancels; i++) {
        play.Cancels[i].Finishes = take(f);
        play.Cancels[i].Information = take(f);
    }
    play.nDispatches = take_count(f, PLAY_MANY);
    for (unsigned i = 0; i < play.nDispatches; i++) {
        PLAY_PLAN *p = &play.Dispatches[i];
        p->Kind = take_count(f, PLAN_FORWARD_PEND);
        p->Status = take(f);
        p->Information = take(f);
        p->Cancel = take_count(f, play.nCancels);
        p->Set = take_setting(f);
    }
}

/* A step that names a routine names one that is there; its condition names an earlier step. */
static VOID take_step(FEED *f, PLAY_STEP *s)
{
    uint64_t *words[] = { &s->Do, &s->Seat, &s->By, &s->A, &s->B, &s->C, &s->D, &s->If.Place, &s->If.Kind, &s->If.Value };
    for (unsigned k = 0; k < sizeof words / sizeof *words; k++)
        *words[k] = take(f);
    s->Together = s->Do >> 8 & 1;
    s->Refused = s->Do >> 9 & 1;
    s->Do &= 255;
    s->If.Not = s->If.Kind >> 8 & 1;
    s->If.Kind &= 255;
    if (s->Do >= DO_KINDS || s->Seat >= PLAY_SEATS || s->If.Kind >= IF_KINDS ||
        s->If.Place > (uint64_t)(s - play.Steps) ||
        (s->Do == DO_SET_ROUTINE && (s->B == 0 || s->B > play.nCompletions)) ||
        (s->Do == DO_SET_CANCEL && s->B > play.nCancels))
        f->Bad = TRUE;
}

static VOID take_steps(FEED *f)
{
    play.nPackets = take_count(f, PLAY_PACKETS);
    play.nSetup = take_count(f, PLAY_STEPS);
    play.nSteps = take_count(f, PLAY_STEPS);
    if (play.nSetup > play.nSteps)
        f->Bad = TRUE;
    for (unsigned i = 0; i < play.nSteps && !f->Bad; i++)
        take_step(f, &play.Steps[i]);
    if (f->Left)
        f->Bad = TRUE;
}

BOOLEAN PlayTakeFeed(const uint64_t *Words, size_t Count, PLAY_LOAD *Load)
{
    FEED f = { Words, Count, FALSE };
    take_routines(&f);
    play.nDrivers = take_count(&f, PLAY_DRIVERS);
    for (unsigned i = 0; i < play.nDrivers; i++)
        play.Drivers[i] = take_driver(&f, i, Load);
    play.nLocks = take_count(&f, PLAY_LOCKS);
    for (unsigned i = 0; i < play.nLocks; i++) {
        IoInitializeRemoveLock(&play.Locks[i], 'yalP', 0, 0);
        KeInitializeEvent(&play.Removed[i], NotificationEvent, FALSE);
    }
    take_steps(&f);
    return !f.Bad;
}

PLAY_END PlayScript(const uint64_t *Words, size_t Count, PLAY_THREADS Threads, PLAY_LOAD *Load, uint64_t *Replies,
                    size_t *Made)
{
    *Made = 0;
    RtlZeroMemory(&play, sizeof play);
    play.Threads = Threads;
    if (!PlayTakeFeed(Words, Count, Load))
        return PLAY_BAD_FEED;
    RtlZeroMemory(Replies, play.nSteps * sizeof *Replies);
    play.Replies = Replies;
    *Made = PlaySeats();
    return play.End;
}

VOID PlayTakeDown(VOID)
{
    PlayEndRemovers();
    for (unsigned i = 0; i < play.nPackets; i++)
        if (play.Packets[i].Irp)
            PlayFreeBehind(play.Packets[i].Irp);
    for (unsigned i = 0; i < play.nDevices; i++)
        if (play.Devices[i] && play.Above[i])
            PlayDetachBehind(play.Devices[i]);
    for (unsigned i = 0; i < play.nDevices; i++)
        if (play.Devices[i])
            PlayDeleteBehind(play.Devices[i]);
    RtlZeroMemory(&play, sizeof play);
}
