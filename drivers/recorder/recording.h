/*
 * recording.h: what the files of the recorder share.
 *
 * THE LOCK. All of the record is under one lock: irpx_enter takes it, irpx_leave gives it back. It is never held
 * while a driver's code runs, nor in a real call that may run such code. The short real calls that prepare a packet,
 * mark it, or set its cancel routine are made under it, so that they and their entries have one order.
 *
 * WHEN AN ENTRY IS SETTLED. It gets its place in the history always inside the real call: a call that asks nobody, in
 * the call; a descent or an unwinding, where it ends, or where whoever is asked keeps the packet. That it keeps it is
 * known when it returns, or at the first call that only the new owner may make, by whatever thread (irpx_settle). The
 * reply of a send is filled in when the send returns.
 *
 * A CANCEL takes its place when its routine runs, when the owner finds the routine gone, when the cancel flag is
 * first seen, or when it returns: whatever comes first.
 */
#ifndef IRPX_RECORDING_H
#define IRPX_RECORDING_H

#define IRPX_INSIDE
#include "../recorder.h"
#include "names.h"
#include <string.h>

enum { IRPX_DEVICES = 64, IRPX_DRIVERS = 64, IRPX_SEATS = 64, IRPX_LIVE = 4096, IRPX_SIZE = 32, IRPX_IDS = 256,
       IRPX_FILES = 128, IRPX_MAJORS = IRP_MJ_MAXIMUM_FUNCTION + 1 };
typedef enum { IRPX_NOTHING, IRPX_FILLED, IRPX_SKIPPED } IrpxPreparation;

typedef struct IrpxPacket IrpxPacket;
typedef struct IrpxAsked IrpxAsked;

/* One setting of a completion routine. Its rule is learned from what this one did: kept, replaced, both or neither. */
typedef struct IrpxSetting {
    struct IrpxSetting *next;
    PIO_COMPLETION_ROUTINE fn;
    PVOID raw;
    uint64_t context;
    UCHAR flags;
    BOOLEAN kept, replaced;
    IrpxAsked *by; /* the plan that set it */
} IrpxSetting;

/* One question of an entry: whom it was put to, what was shown, what was answered. */
struct IrpxAsked {
    IrpxAsked *next;
    IrpxKind kind;
    IrpxPlan plan;
    int device, location, id;
    UCHAR major;
    uint64_t word, information, new_information;
    ULONG status, new_status;
    BOOLEAN returned, has_lower, mark, replaced, flag_differs; /* the last: its cancel flag isn't the record's */
    IrpxSetting *set;
    PDRIVER_CANCEL cancel;
};

typedef struct IrpxEntry {
    struct IrpxEntry *next, *before; /* in the history; of all that were made */
    IrpxOp op;
    IrpxReply reply;
    int seat, by, device, other; /* other: a target, a size, a location */
    IrpxPacket *p;
    unsigned slot;
    uint64_t use, word, information, answer;
    ULONG status;
    UCHAR major;
    BOOLEAN sealed, flag, returned, marked;
    IrpxSetting *set;
    PDRIVER_CANCEL routine, previous;
    IrpxAsked *first, *last;
} IrpxEntry;

/* A driver's routine that runs now. Each thread has a chain of them. */
typedef struct IrpxFrame {
    struct IrpxFrame *up;
    IrpxPacket *p;
    uint64_t use;
    IrpxAsked *asked;
    IrpxEntry *entry;
    int seat;
    BOOLEAN settled, marked, returning;
    BOOLEAN forced; /* it counts as one that pended, by `pend` */
    BOOLEAN had;    /* the location above that of a routine was marked before */
    PDRIVER_CANCEL cancel;
} IrpxFrame;

typedef struct {
    UCHAR major;
    uint64_t word;
    IrpxSetting *set;
    IrpxFrame *frame;
} IrpxLocation;

/* What must be known of a packet beyond its raw IRP. */
struct IrpxPacket {
    PIRP irp, gone; /* irp: NULL where the slot is free; gone: what it was */
    unsigned slot;
    int size, owner, last, allocator, cancels; /* cancels: how many run on it now */
    int completing; /* recorded completions of it that haven't returned */
    uint64_t use, information, sent_information, sent_word;
    ULONG status, sent_status;
    BOOLEAN touched, copied, skipped; /* done, and in no entry yet */
    BOOLEAN flag, rising, foreign;    /* cancelled; on its way up; of code without the recorder */
    IrpxPreparation prepared;
    IrpxSetting *want;
    PDRIVER_CANCEL cancel, routine, ghost; /* as recorded; as set; set after a cancel, and perhaps taken back */
    IrpxFrame *asking;   /* who is asked about it and hasn't decided */
    IrpxEntry *open;     /* the entry in which */
    IrpxEntry *canceller; /* a cancel on its way that has no place yet */
    PDRIVER_CANCEL late;  /* a cancel routine that hasn't begun, and is recorded as one that leaves: `left` */
    IrpxAsked *left;
    IrpxLocation at[IRPX_SIZE + 2];
};

typedef struct {
    PDRIVER_OBJECT raw;
    PDRIVER_DISPATCH fn[IRPX_MAJORS];
    int id[IRPX_MAJORS];
} IrpxDriver;

typedef struct {
    int me; /* the seat of the thread that holds the lock */
    int n_devices, n_drivers, n_files, n_dispatches;
    unsigned n_packets;
    IRPX_COUNTS counts;
    uint64_t next_use;
    PDRIVER_DISPATCH unhandled;
    IrpxEntry *first, *last, *made;
    IrpxSetting *settings;
    struct { uintptr_t thread; IrpxFrame *frames; IrpxEntry *cancel; } seats[IRPX_SEATS];
    struct { PDEVICE_OBJECT raw; int driver; BOOLEAN live, seen; IrpxEntry *put_off; } devices[IRPX_DEVICES];
    IrpxDriver drivers[IRPX_DRIVERS];
    struct { const char *file; int driver; } files[IRPX_FILES];
    void *dispatches[IRPX_IDS];
    IrpxPacket *packets[IRPX_LIVE];
} IrpxState;
extern IrpxState irpx;

/* recording.c */
void irpx_enter(void);
void irpx_leave(void);
void irpx_pause(void);
void *irpx_take(size_t n);
void irpx_give(void *memory);
void irpx_lose(void);
IrpxFrame *irpx_top(void);
IrpxEntry *irpx_begin(IrpxOp op, IrpxPacket *p, int by);
void irpx_seal(IrpxEntry *e);
IrpxEntry *irpx_answer(IrpxEntry *e, IrpxReply reply, uint64_t answer);
IrpxAsked *irpx_ask(IrpxPacket *p, IrpxKind kind, int device, int location);
void irpx_push(IrpxFrame *f, IrpxPacket *p, IrpxAsked *a);
void irpx_pop(const IrpxFrame *f);
int irpx_id(void **table, int *n, void *fn);
uint64_t irpx_number_of(const void *raw);
uint64_t irpx_word_of(const IO_STACK_LOCATION *l);

/* devices.c */
int irpx_device(PDEVICE_OBJECT raw);
void irpx_wrap(PDRIVER_OBJECT driver);
int irpx_calling_driver(const char *file);
int irpx_party(const IrpxPacket *p, const char *file);

/* packets.c */
PIO_STACK_LOCATION irpx_at(PIRP irp, int j);
IrpxPacket *irpx_find(PIRP irp);
IrpxPacket *irpx_new(PIRP irp, int size, int allocator);
IrpxPacket *irpx_packet(PIRP irp, const char *file);
IrpxPacket *irpx_old(PIRP irp, const char *file);
void irpx_renew(IrpxPacket *p, IrpxEntry *e);
void irpx_free(IrpxPacket *p);
void irpx_prepare_nothing(IrpxPacket *p);
void irpx_fill_below(IrpxPacket *p, int from, IrpxSetting *set);
void irpx_ended(IrpxPacket *p, uint64_t use, IrpxEntry *e);
void irpx_look(IrpxPacket *p);

/* settling.c */
void irpx_read_status(IrpxPacket *p, ULONG *status, uint64_t *information);
void irpx_routine_answered(IrpxPacket *p, IrpxFrame *f, IrpxPlan answer);
void irpx_settle(IrpxPacket *p);
IrpxFrame *irpx_planning(IrpxPacket *p);

/* running.c, cancelling.c */
NTSTATUS NTAPI irpx_dispatch(PDEVICE_OBJECT device, PIRP irp);
NTSTATUS NTAPI irpx_routine(PDEVICE_OBJECT device, PIRP irp, PVOID context);
void irpx_see_cancel(IrpxPacket *p);
void irpx_tell_ghost(IrpxPacket *p);

#endif
