/* steps.c: the steps of a script, each by the manager's own call. */
#include "state.h"

PLAY_STATE play;

/* The script's SetNext clears a routine that was set before. Zeroing the location by hand isn't seen by the recorder,
   so no routine is set first. A word of 33 to 40 bits has a minor in its upper eight, as the recorder writes one. */
static VOID set_next(PIRP irp, const PLAY_STEP *s)
{
    PIO_STACK_LOCATION next = IoGetNextIrpStackLocation(irp);
    ULONG word[2] = { (ULONG)s->C, (ULONG)(s->C >> 32) };
    IoSetCompletionRoutine(irp, NULL, NULL, FALSE, FALSE, FALSE);
    RtlZeroMemory(next, sizeof *next);
    next->MajorFunction = (UCHAR)s->B;
    if (word[1] <= 255) {
        next->MinorFunction = (UCHAR)word[1];
        word[1] = 0;
    }
    RtlCopyMemory(&next->Parameters, word, sizeof word);
}

/* The cancel routine by its number and 1; 0 for none. */
static uint64_t number_of_cancel(PDRIVER_CANCEL fn)
{
    for (unsigned i = 0; fn && i < PLAY_MANY; i++)
        if (PlayCancels[i] == fn)
            return i + 1;
    return fn ? PLAY_MANY + 1 : 0;
}

static BOOLEAN create(uint64_t driver, uint64_t *reply)
{
    if (driver >= play.nDrivers || play.nDevices == PLAY_DEVICES)
        return FALSE;
    PDEVICE_OBJECT made = PlayCreateDevice(play.Drivers[driver], sizeof(PLAY_EXTENSION));
    play.Devices[play.nDevices] = made;
    if (!made)
        return FALSE;
    PlayExtension(made)->Number = (LONG)play.nDevices;
    *reply = play.nDevices++;
    return TRUE;
}

static BOOLEAN attach(PDEVICE_OBJECT device, PDEVICE_OBJECT to, uint64_t *reply)
{
    PDEVICE_OBJECT lower = IoAttachDeviceToDeviceStack(device, to);
    if (!lower)
        return FALSE;
    PlayExtension(device)->Lower = lower;
    *reply = (uint64_t)PlayExtension(lower)->Number;
    play.Above[*reply] = device;
    return TRUE;
}

static VOID detach(uint64_t lower, uint64_t *reply)
{
    if (play.Above[lower]) {
        *reply = (uint64_t)PlayExtension(play.Above[lower])->Number;
        PlayExtension(play.Above[lower])->Lower = NULL;
        play.Above[lower] = NULL;
    }
    IoDetachDevice(play.Devices[lower]);
}

static BOOLEAN on_devices(const PLAY_STEP *s, uint64_t *reply)
{
    PDEVICE_OBJECT device;
    switch (s->Do) {
    case DO_CREATE:
        return create(s->A, reply);
    case DO_ATTACH:
        return attach(play.Devices[s->A], play.Devices[s->B], reply);
    case DO_DETACH:
        detach(s->A, reply);
        return TRUE;
    default:
        device = play.Devices[s->A];
        play.Devices[s->A] = NULL;
        IoDeleteDevice(device);
        return TRUE;
    }
}

static BOOLEAN allocate(PLAY_PACKET *p, const PLAY_STEP *s)
{
    p->Irp = IoAllocateIrp((CCHAR)s->B, FALSE);
    PlayNumberPacket(p->Irp, s->A);
    p->Owner = PLAY_ORIGINATOR;
    p->Waits = 0;
    return p->Irp != NULL;
}

static VOID send(PLAY_PACKET *p, const PLAY_STEP *s, uint64_t *reply)
{
    p->Owner = PLAY_MOVES;
    *reply = (ULONG)IoCallDriver(play.Devices[s->B], p->Irp);
    if (p->Owner == PLAY_MOVES)
        p->Irp = NULL; /* the manager has finished it itself, and freed it */
}

static BOOLEAN on_packets(const PLAY_STEP *s, uint64_t *reply)
{
    PLAY_PACKET *p = &play.Packets[s->A];
    PIRP irp = p->Irp;
    const PLAY_SETTING set = { s->B, s->C, s->D };
    switch (s->Do) {
    case DO_ALLOCATE: return allocate(p, s);
    case DO_FREE: p->Irp = NULL; IoFreeIrp(irp); break;
    case DO_REUSE: IoReuseIrp(irp, (NTSTATUS)s->B); PlayNumberPacket(irp, s->A); p->Waits = 0; break;
    case DO_SET_NEXT: set_next(irp, s); break;
    case DO_COPY: IoCopyCurrentIrpStackLocationToNext(irp); break;
    case DO_SKIP: IoSkipCurrentIrpStackLocation(irp); break;
    case DO_SET_ROUTINE: PlaySetRoutine(irp, &set); break;
    case DO_MARK: IoMarkIrpPending(irp); break;
    case DO_CALL: send(p, s, reply); break;
    case DO_COMPLETE: PlayFinish(irp, (NTSTATUS)s->B, (ULONG_PTR)s->C); break;
    case DO_SET_CANCEL:
        *reply = number_of_cancel(IoSetCancelRoutine(irp, s->B ? PlayCancels[s->B - 1] : NULL));
        break;
    default: *reply = IoCancelIrp(irp); break;
    }
    return TRUE;
}

static BOOLEAN is_packet_there(const PLAY_STEP *s)
{
    if (s->A >= play.nPackets)
        return FALSE;
    const PLAY_PACKET *p = &play.Packets[s->A];
    if (s->Do == DO_ALLOCATE)
        return !p->Irp;
    return p->Irp && (s->By == 0 || s->Refused || p->Owner == (LONG)s->By - 2) &&
        (s->Do != DO_CALL || (s->B < play.nDevices && play.Devices[s->B]));
}

static BOOLEAN is_met(const PLAY_IF *c)
{
    const uint64_t reply = c->Place ? play.Replies[c->Place - 1] : 0;
    BOOLEAN is_so = c->Kind == IF_ANY;
    if (reply == PLAY_LEFT_OUT)
        return FALSE;
    if (c->Kind == IF_EQUALS)
        is_so = reply == c->Value;
    else if (c->Kind == IF_SUCCESS)
        is_so = NT_SUCCESS((NTSTATUS)reply);
    else if (c->Kind == IF_SOME)
        is_so = reply != 0;
    return is_so != (c->Not != 0);
}

BOOLEAN PlayIsThere(const PLAY_STEP *Step)
{
    const PLAY_STEP *s = Step;
    switch (s->Do) {
    case DO_CREATE: return TRUE;
    case DO_ATTACH: return s->A < play.nDevices && s->B < play.nDevices && play.Devices[s->A] && play.Devices[s->B];
    case DO_DETACH: return s->A < play.nDevices && play.Devices[s->A] && (play.Above[s->A] || s->Refused);
    case DO_DELETE: return s->A < play.nDevices && play.Devices[s->A] != NULL;
    case DO_ACQUIRE: case DO_RELEASE: case DO_BEGIN_REMOVE: case DO_DRAINED: return s->A < play.nLocks;
    default: return is_packet_there(s);
    }
}

static BOOLEAN make(const PLAY_STEP *s, uint64_t *reply)
{
    return s->Do <= DO_DELETE ? on_devices(s, reply) : s->Do >= DO_ACQUIRE ? PlayOnLocks(s, reply) : on_packets(s, reply);
}

PLAY_END PlayStep(const PLAY_STEP *Step, uint64_t *Reply)
{
    if (!is_met(&Step->If)) {
        *Reply = PLAY_LEFT_OUT;
        return PLAY_DONE;
    }
    if (!PlayIsThere(Step))
        return PLAY_PARTED;
    play.Now = Step;
    if (make(Step, Reply))
        return PLAY_DONE;
    *Reply = PLAY_LEFT_OUT;
    return Step->Refused ? PLAY_DONE : Step->Do <= DO_DELETE ? PLAY_NO_DEVICE : PLAY_PARTED;
}

size_t PlayPlace(VOID) { return play.Now ? (size_t)(play.Now - play.Steps) : 0; }
