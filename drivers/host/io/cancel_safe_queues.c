/* cancel_safe_queues.c: cancel-safe queues (IoCsq), over the host's own calls. The queue and its lock are the driver's. */
#include "ke/ke.h"

static const WDM_SITE nowhere;

static NTSTATUS make(PIO_CSQ q, PIO_CSQ_REMOVE_IRP remove, PIO_CSQ_PEEK_NEXT_IRP peek, PIO_CSQ_ACQUIRE_LOCK acquire,
                     PIO_CSQ_RELEASE_LOCK release, PIO_CSQ_COMPLETE_CANCELED_IRP complete)
{
    *q = (IO_CSQ){ .Type = IO_TYPE_CSQ, .CsqRemoveIrp = remove, .CsqPeekNextIrp = peek, .CsqAcquireLock = acquire,
                   .CsqReleaseLock = release, .CsqCompleteCanceledIrp = complete };
    return STATUS_SUCCESS;
}

NTSTATUS IoCsqInitialize(PIO_CSQ Csq, PIO_CSQ_INSERT_IRP Insert, PIO_CSQ_REMOVE_IRP Remove, PIO_CSQ_PEEK_NEXT_IRP Peek,
                         PIO_CSQ_ACQUIRE_LOCK Acquire, PIO_CSQ_RELEASE_LOCK Release,
                         PIO_CSQ_COMPLETE_CANCELED_IRP Complete)
{
    make(Csq, Remove, Peek, Acquire, Release, Complete);
    Csq->CsqInsertIrp = Insert;
    return STATUS_SUCCESS;
}

NTSTATUS IoCsqInitializeEx(PIO_CSQ Csq, PIO_CSQ_INSERT_IRP_EX Insert, PIO_CSQ_REMOVE_IRP Remove,
                           PIO_CSQ_PEEK_NEXT_IRP Peek, PIO_CSQ_ACQUIRE_LOCK Acquire, PIO_CSQ_RELEASE_LOCK Release,
                           PIO_CSQ_COMPLETE_CANCELED_IRP Complete)
{
    make(Csq, Remove, Peek, Acquire, Release, Complete);
    Csq->Type = IO_TYPE_CSQ_EX;
    Csq->CsqInsertIrpEx = Insert;
    return STATUS_SUCCESS;
}

/* The queue that the packet stands in is known by the packet's last word for drivers. */
static void tie(PIO_CSQ q, PIRP irp, PIO_CSQ_IRP_CONTEXT context)
{
    irp->Tail.Overlay.DriverContext[3] = context ? (PVOID)context : (PVOID)q;
    if (context)
        *context = (IO_CSQ_IRP_CONTEXT){ .Type = IO_TYPE_CSQ_IRP_CONTEXT, .Irp = irp, .Csq = q };
}

static PIO_CSQ untie(PIRP irp)
{
    ULONG *type = irp->Tail.Overlay.DriverContext[3];
    irp->Tail.Overlay.DriverContext[3] = NULL;
    if (!type || *type != IO_TYPE_CSQ_IRP_CONTEXT)
        return (PIO_CSQ)type;
    PIO_CSQ_IRP_CONTEXT context = (PIO_CSQ_IRP_CONTEXT)type;
    context->Irp = NULL;
    return context->Csq;
}

/* The packet is out of the queue: the lock is held. */
static void take_out(PIO_CSQ q, PIRP irp)
{
    q->CsqRemoveIrp(q, irp);
    untie(irp);
}

static VOID WdmCsqCancel(PDEVICE_OBJECT Device, PIRP Irp)
{
    KIRQL irql;
    (void)Device;
    WdmIoReleaseCancelSpinLock(Irp->CancelIrql, nowhere);
    ULONG *type = Irp->Tail.Overlay.DriverContext[3];
    PIO_CSQ q = *type != IO_TYPE_CSQ_IRP_CONTEXT ? (PIO_CSQ)type : ((PIO_CSQ_IRP_CONTEXT)type)->Csq;
    q->CsqAcquireLock(q, &irql);
    take_out(q, Irp);
    q->CsqReleaseLock(q, irql);
    q->CsqCompleteCanceledIrp(q, Irp);
}

NTSTATUS WdmIoCsqInsertIrp(PIO_CSQ Csq, PIRP Irp, PIO_CSQ_IRP_CONTEXT Context, PVOID InsertContext, WDM_SITE at)
{
    KIRQL irql;
    NTSTATUS status = STATUS_SUCCESS;
    hands_over_now();
    Csq->CsqAcquireLock(Csq, &irql);
    tie(Csq, Irp, Context);
    if (Csq->Type == IO_TYPE_CSQ_EX)
        status = Csq->CsqInsertIrpEx(Csq, Irp, InsertContext);
    else
        Csq->CsqInsertIrp(Csq, Irp);
    if (!NT_SUCCESS(status)) {
        untie(Irp);
        Csq->CsqReleaseLock(Csq, irql);
        return status;
    }
    WdmIoMarkIrpPending(Irp, at);
    WdmIoSetCancelRoutine(Irp, WdmCsqCancel, at);
    if (Irp->Cancel && WdmIoSetCancelRoutine(Irp, NULL, at)) { /* cancelled before: nobody else completes it */
        take_out(Csq, Irp);
        Csq->CsqReleaseLock(Csq, irql);
        Csq->CsqCompleteCanceledIrp(Csq, Irp);
    } else
        Csq->CsqReleaseLock(Csq, irql);
    return status;
}

PIRP WdmIoCsqRemoveNextIrp(PIO_CSQ Csq, PVOID PeekContext, WDM_SITE at)
{
    KIRQL irql;
    PIRP irp = NULL;
    Csq->CsqAcquireLock(Csq, &irql);
    while ((irp = Csq->CsqPeekNextIrp(Csq, irp, PeekContext)))
        if (WdmIoSetCancelRoutine(irp, NULL, at)) { /* else its cancel routine runs, and waits for the lock */
            take_out(Csq, irp);
            break;
        }
    Csq->CsqReleaseLock(Csq, irql);
    return irp;
}

PIRP WdmIoCsqRemoveIrp(PIO_CSQ Csq, PIO_CSQ_IRP_CONTEXT Context, WDM_SITE at)
{
    KIRQL irql;
    Csq->CsqAcquireLock(Csq, &irql);
    PIRP irp = Context->Irp;
    if (irp && WdmIoSetCancelRoutine(irp, NULL, at))
        take_out(Csq, irp);
    else
        irp = NULL;
    Csq->CsqReleaseLock(Csq, irql);
    return irp;
}
