/* seats.c: on which threads the steps are made. */
#include "state.h"

const char *const PlayEnds[PLAY_ENDS] = { "done", "parted", "bad_feed", "no_device", "no_thread" };

/* All steps of a seat, whatever the others do meanwhile. */
static VOID run_at_once(unsigned seat)
{
    BOOLEAN made = TRUE;
    for (unsigned k = play.nSetup; k < play.nSteps; k++) {
        const PLAY_STEP *s = &play.Steps[k];
        if (s->Seat != seat)
            continue;
        made = (made || !s->Together) && PlayIsThere(s);
        const PLAY_END end = made ? PlayStep(s, &play.Replies[k]) : PLAY_DONE;
        if (!made || end == PLAY_PARTED)
            play.Replies[k] = PLAY_LEFT_OUT; /* another seat was faster, or slower */
        else if (end != PLAY_DONE) {
            play.End = end;
            return;
        }
    }
}

static VOID run_by_turns(unsigned seat)
{
    for (;;) {
        if (!play.HasTurn[seat])
            KeWaitForSingleObject(&play.Turn[seat], Executive, KernelMode, FALSE, NULL);
        play.HasTurn[seat] = FALSE;
        if (play.Ends)
            return;
        const PLAY_END end = PlayStep(play.Now, play.Reply);
        if (play.HasTurn[seat])
            continue; /* this step was handed on, and another one came meanwhile */
        play.End = end;
        KeSetEvent(&play.Done, IO_NO_INCREMENT, FALSE);
    }
}

VOID PlayHandOn(unsigned Seat)
{
    play.End = PLAY_DONE;
    KeSetEvent(&play.Done, IO_NO_INCREMENT, FALSE);
    KeWaitForSingleObject(&play.Turn[Seat], Executive, KernelMode, FALSE, NULL);
    play.HasTurn[Seat] = TRUE;
}

static VOID NTAPI run_seat(PVOID Context)
{
    const unsigned seat = (unsigned)(ULONG_PTR)Context;
    if (play.Threads == PLAY_AT_ONCE) {
        KeWaitForSingleObject(&play.Start, Executive, KernelMode, FALSE, NULL);
        run_at_once(seat);
    } else
        run_by_turns(seat);
    InterlockedDecrement(&play.Living);
    PsTerminateSystemThread(STATUS_SUCCESS);
}

static BOOLEAN has_thread(uint64_t seat)
{
    HANDLE thread;
    if (play.HasThread[seat])
        return TRUE;
    KeInitializeEvent(&play.Turn[seat], SynchronizationEvent, FALSE);
    InterlockedIncrement(&play.Living);
    play.HasThread[seat] = NT_SUCCESS(PsCreateSystemThread(&thread, THREAD_ALL_ACCESS, NULL, NULL, NULL, run_seat,
                                                           (PVOID)(ULONG_PTR)seat));
    if (play.HasThread[seat])
        ZwClose(thread);
    else
        InterlockedDecrement(&play.Living);
    return play.HasThread[seat];
}

static VOID await_seats(VOID)
{
    while (InterlockedExchangeAdd(&play.Living, 0))
        PlayPause(1);
}

/* One step at a time, in the script's order: the threads hand over to one another. */
static PLAY_END make_turn(const PLAY_STEP *s, uint64_t *reply)
{
    if (play.Threads == PLAY_ONE_THREAD)
        return PlayStep(s, reply);
    if (!has_thread(s->Seat))
        return PLAY_NO_THREAD;
    play.Now = s;
    play.Reply = reply;
    KeSetEvent(&play.Turn[s->Seat], IO_NO_INCREMENT, FALSE);
    KeWaitForSingleObject(&play.Done, Executive, KernelMode, FALSE, NULL);
    return play.End;
}

static size_t play_by_turns(VOID)
{
    size_t k = 0;
    KeInitializeEvent(&play.Done, SynchronizationEvent, FALSE);
    while (k < play.nSteps && (play.End = make_turn(&play.Steps[k], &play.Replies[k])) == PLAY_DONE)
        k = play.Threads == PLAY_WITHIN ? PlayPlace() + 1 : k + 1;
    const PLAY_END end = play.End;
    play.Ends = TRUE;
    for (unsigned seat = 0; seat < PLAY_SEATS; seat++)
        if (play.HasThread[seat])
            KeSetEvent(&play.Turn[seat], IO_NO_INCREMENT, FALSE);
    await_seats();
    play.End = end;
    return k;
}

/* The setup on this thread, then all seats at once. */
static size_t play_at_once(VOID)
{
    for (unsigned k = 0; k < play.nSetup && play.End == PLAY_DONE; k++)
        play.End = PlayStep(&play.Steps[k], &play.Replies[k]);
    KeInitializeEvent(&play.Start, NotificationEvent, FALSE);
    for (unsigned k = play.nSetup; k < play.nSteps && play.End == PLAY_DONE; k++)
        if (!has_thread(play.Steps[k].Seat))
            play.End = PLAY_NO_THREAD;
    KeSetEvent(&play.Start, IO_NO_INCREMENT, FALSE);
    await_seats();
    return play.nSteps;
}

size_t PlaySeats(VOID) { return play.Threads == PLAY_AT_ONCE ? play_at_once() : play_by_turns(); }
