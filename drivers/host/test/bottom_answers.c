/* bottom_answers.c: what the host's bottom device answers to questions of Plug and Play, as a bus does for its child: its
   ids, its bus, and itself as the target of its stack. It is written as a driver. */
#include <wdm.h>
#include "test/bottom_answers.h"

static const WCHAR device_id[] = L"HOST\\Bottom\0", instance_id[] = L"0\0";

static NTSTATUS AnswerBlock(PIRP Irp, const VOID *Bytes, SIZE_T Size)
{
    PVOID block = ExAllocatePoolWithTag(PagedPool, Size, 0x74746F42);
    if (block == NULL)
        return STATUS_INSUFFICIENT_RESOURCES;
    RtlCopyMemory(block, Bytes, Size);
    Irp->IoStatus.Information = (ULONG_PTR)block;
    return STATUS_SUCCESS;
}

static NTSTATUS AnswerId(PIRP Irp)
{
    switch (IoGetCurrentIrpStackLocation(Irp)->Parameters.QueryId.IdType) {
    case BusQueryDeviceID:
    case BusQueryHardwareIDs: return AnswerBlock(Irp, device_id, sizeof device_id);
    case BusQueryInstanceID: return AnswerBlock(Irp, instance_id, sizeof instance_id);
    default: return Irp->IoStatus.Status;
    }
}

static NTSTATUS AnswerRelations(PDEVICE_OBJECT DeviceObject, PIRP Irp)
{
    const DEVICE_RELATIONS relations = { .Count = 1, .Objects = { DeviceObject } };
    if (IoGetCurrentIrpStackLocation(Irp)->Parameters.QueryDeviceRelations.Type != TargetDeviceRelation)
        return Irp->IoStatus.Status;
    const NTSTATUS status = AnswerBlock(Irp, &relations, sizeof relations);
    if (NT_SUCCESS(status))
        ObReferenceObject(DeviceObject);
    return status;
}

NTSTATUS BottomAnswer(PDEVICE_OBJECT DeviceObject, PIRP Irp)
{
    static const PNP_BUS_INFORMATION bus = { .LegacyBusType = InterfaceTypeUndefined };
    switch (IoGetCurrentIrpStackLocation(Irp)->MinorFunction) {
    case IRP_MN_QUERY_ID: return AnswerId(Irp);
    case IRP_MN_QUERY_DEVICE_RELATIONS: return AnswerRelations(DeviceObject, Irp);
    case IRP_MN_QUERY_BUS_INFORMATION: return AnswerBlock(Irp, &bus, sizeof bus);
    default: return Irp->IoStatus.Status;
    }
}
