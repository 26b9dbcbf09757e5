/* rules.h: what the files of this folder share. Each case breaks one rule of VERIFIER.md where `Wrong`, and keeps it
   else. It runs in a dispatch of a device over a bottom device; the line at which it is told has its name. */
#ifndef RULES_H
#define RULES_H

#include <wdm.h>

typedef struct EXTENSION {
    PDEVICE_OBJECT Self, Lower;
    KSPIN_LOCK Lock, Other, Gate;
    FAST_MUTEX Mutex;
    KEVENT Event;
    KTIMER Timer;
    KDPC Dpc;
    BOOLEAN Wrong;
    LONG Step;
    NTSTATUS (*Pnp)(struct EXTENSION *Ext, PIRP Irp, BOOLEAN Wrong);
    NTSTATUS (*Power)(struct EXTENSION *Ext, PIRP Irp, BOOLEAN Wrong);
    KMUTEX Plain;
    IO_REMOVE_LOCK RemoveLock;
    PKINTERRUPT Interrupt;
} EXTENSION, *PEXTENSION;

/* A case is the dispatch of DEVICE_CONTROL, of PNP or of POWER, for its packet. */
typedef NTSTATUS CASE(PEXTENSION Ext, PIRP Irp, BOOLEAN Wrong);
typedef struct { const char *Name; CASE *Run, *Pnp, *Power; } CASE_ROW;
extern const CASE_ROW LockCases[], LevelCases[], PoolCases[], PacketCases[], ObjectCases[], PowerCases[];

NTSTATUS Done(PIRP Irp);
NTSTATUS PassDown(PEXTENSION Ext, PIRP Irp);
VOID RunThread(PEXTENSION Ext, PKSTART_ROUTINE Routine);

#endif
