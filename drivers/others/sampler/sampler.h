/*
 * sampler.h: the function driver of a sampling device. It holds its reads in a list of its own;
 * a timer's DPC completes one of them for each sample that the device has taken.
 */
#pragma once

#define SAMPLER_TAG 0x6C706D53UL    /* "Smpl" in memory */
#define HISTORY 16
#define IOCTL_SAMPLER_GET_STATS CTL_CODE(FILE_DEVICE_UNKNOWN, 0x800, METHOD_BUFFERED, FILE_READ_ACCESS)
#define IOCTL_SAMPLER_SET_RATE CTL_CODE(FILE_DEVICE_UNKNOWN, 0x801, METHOD_BUFFERED, FILE_WRITE_ACCESS)

typedef struct _SAMPLER_STATS {
    ULONG Taken;
    ULONG Period;
    ULONG Recent[HISTORY];
} SAMPLER_STATS, *PSAMPLER_STATS;

typedef struct _SAMPLER_EXTENSION {
    PDEVICE_OBJECT Pdo;
    PDEVICE_OBJECT Lower;
    IO_REMOVE_LOCK RemoveLock;
    KSPIN_LOCK Lock;            /* Queue, Running, Gone, Stats */
    LIST_ENTRY Queue;
    BOOLEAN Running;
    BOOLEAN Gone;
    PSAMPLER_STATS Stats;
    KTIMER Timer;
    KDPC Dpc;
} SAMPLER_EXTENSION, *PSAMPLER_EXTENSION;

NTSTATUS SamplerComplete(PIRP Irp, NTSTATUS Status, ULONG_PTR Information);
NTSTATUS SamplerPass(PDEVICE_OBJECT DeviceObject, PIRP Irp);
VOID SamplerRun(PSAMPLER_EXTENSION ext);
VOID SamplerHalt(PSAMPLER_EXTENSION ext);
VOID SamplerDrain(PSAMPLER_EXTENSION ext);
DRIVER_DISPATCH SamplerPnp, SamplerPower;
