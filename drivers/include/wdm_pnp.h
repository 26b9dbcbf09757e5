/* wdm_pnp.h: what Plug and Play and power hand to and fro: states, capabilities, relations, resources, interfaces. */
#ifndef WDM_PNP_H
#define WDM_PNP_H

#include "wdm_codes.h"

typedef enum _SYSTEM_POWER_STATE {
    PowerSystemUnspecified, PowerSystemWorking, PowerSystemSleeping1, PowerSystemSleeping2, PowerSystemSleeping3,
    PowerSystemHibernate, PowerSystemShutdown, PowerSystemMaximum
} SYSTEM_POWER_STATE, *PSYSTEM_POWER_STATE;
#define POWER_SYSTEM_MAXIMUM 7
typedef enum _DEVICE_POWER_STATE {
    PowerDeviceUnspecified, PowerDeviceD0, PowerDeviceD1, PowerDeviceD2, PowerDeviceD3, PowerDeviceMaximum
} DEVICE_POWER_STATE, *PDEVICE_POWER_STATE;
typedef enum _POWER_STATE_TYPE { SystemPowerState, DevicePowerState } POWER_STATE_TYPE, *PPOWER_STATE_TYPE;
typedef enum { PowerActionNone, PowerActionReserved, PowerActionSleep, PowerActionHibernate, PowerActionShutdown,
               PowerActionShutdownReset, PowerActionShutdownOff, PowerActionWarmEject } POWER_ACTION, *PPOWER_ACTION;
typedef union _POWER_STATE {
    SYSTEM_POWER_STATE SystemState;
    DEVICE_POWER_STATE DeviceState;
} POWER_STATE, *PPOWER_STATE;
typedef struct _POWER_SEQUENCE { ULONG SequenceD1, SequenceD2, SequenceD3; } POWER_SEQUENCE, *PPOWER_SEQUENCE;
typedef enum _DEVICE_RELATION_TYPE { BusRelations, EjectionRelations, PowerRelations, RemovalRelations,
               TargetDeviceRelation, SingleBusRelations, TransportRelations } DEVICE_RELATION_TYPE;
typedef enum { BusQueryDeviceID, BusQueryHardwareIDs, BusQueryCompatibleIDs, BusQueryInstanceID,
               BusQueryDeviceSerialNumber, BusQueryContainerID } BUS_QUERY_ID_TYPE;
typedef enum { DeviceTextDescription, DeviceTextLocationInformation } DEVICE_TEXT_TYPE;
typedef enum { DeviceUsageTypeUndefined, DeviceUsageTypePaging, DeviceUsageTypeHibernation,
               DeviceUsageTypeDumpFile } DEVICE_USAGE_NOTIFICATION_TYPE;
typedef ULONG PNP_DEVICE_STATE, *PPNP_DEVICE_STATE;
enum { PNP_DEVICE_DISABLED = 0x01, PNP_DEVICE_DONT_DISPLAY_IN_UI = 0x02, PNP_DEVICE_FAILED = 0x04,
       PNP_DEVICE_REMOVED = 0x08, PNP_DEVICE_RESOURCE_REQUIREMENTS_CHANGED = 0x10, PNP_DEVICE_NOT_DISABLEABLE = 0x20 };
typedef struct _DEVICE_CAPABILITIES {
    USHORT Size, Version;
    ULONG DeviceD1 : 1, DeviceD2 : 1, LockSupported : 1, EjectSupported : 1, Removable : 1, DockDevice : 1,
        UniqueID : 1, SilentInstall : 1, RawDeviceOK : 1, SurpriseRemovalOK : 1, WakeFromD0 : 1, WakeFromD1 : 1,
        WakeFromD2 : 1, WakeFromD3 : 1, HardwareDisabled : 1, NonDynamic : 1, WarmEjectSupported : 1,
        NoDisplayInUI : 1, Reserved1 : 1, WakeFromInterrupt : 1, SecureDevice : 1, ChildOfVgaEnabledBridge : 1,
        DecodeIoOnBoot : 1, Reserved : 9;
    ULONG Address, UINumber;
    DEVICE_POWER_STATE DeviceState[POWER_SYSTEM_MAXIMUM];
    SYSTEM_POWER_STATE SystemWake;
    DEVICE_POWER_STATE DeviceWake;
    ULONG D1Latency, D2Latency, D3Latency;
} DEVICE_CAPABILITIES, *PDEVICE_CAPABILITIES;
typedef struct _DEVICE_RELATIONS {
    ULONG Count;
    struct _DEVICE_OBJECT *Objects[1];
} DEVICE_RELATIONS, *PDEVICE_RELATIONS;

/* Buses and resources. */
typedef enum _INTERFACE_TYPE {
    InterfaceTypeUndefined = -1, Internal, Isa, Eisa, MicroChannel, TurboChannel, PCIBus, VMEBus, NuBus, PCMCIABus, CBus,
    MPIBus, MPSABus, ProcessorInternal, InternalPowerBus, PNPISABus, PNPBus, Vmcs, ACPIBus, MaximumInterfaceType
} INTERFACE_TYPE, *PINTERFACE_TYPE;
typedef enum { ConfigurationSpaceUndefined = -1, Cmos, EisaConfiguration, Pos, CbusConfiguration, PCIConfiguration,
               VMEConfiguration, NuBusConfiguration, PCMCIAConfiguration } BUS_DATA_TYPE;
#ifndef WDM_FOR_WINE /* whose drivers declare it themselves */
typedef struct _PNP_BUS_INFORMATION {
    GUID BusTypeGuid;
    INTERFACE_TYPE LegacyBusType;
    ULONG BusNumber;
} PNP_BUS_INFORMATION, *PPNP_BUS_INFORMATION;
#endif
typedef struct _LEGACY_BUS_INFORMATION {
    GUID BusTypeGuid;
    INTERFACE_TYPE LegacyBusType;
    ULONG BusNumber;
} LEGACY_BUS_INFORMATION, *PLEGACY_BUS_INFORMATION;
enum { CmResourceTypeNull, CmResourceTypePort, CmResourceTypeInterrupt, CmResourceTypeMemory, CmResourceTypeDma,
       CmResourceTypeDeviceSpecific, CmResourceTypeBusNumber, CmResourceTypeMemoryLarge,
       CmResourceTypeConfigData = 128, CmResourceTypeDevicePrivate = 129 };
enum { CmResourceShareUndetermined, CmResourceShareDeviceExclusive, CmResourceShareDriverExclusive,
       CmResourceShareShared };
enum { CM_RESOURCE_INTERRUPT_LEVEL_SENSITIVE = 0, CM_RESOURCE_INTERRUPT_LATCHED = 1, CM_RESOURCE_INTERRUPT_MESSAGE = 2,
       CM_RESOURCE_PORT_MEMORY = 0, CM_RESOURCE_PORT_IO = 1, CM_RESOURCE_MEMORY_READ_WRITE = 0,
       CM_RESOURCE_PORT_16_BIT_DECODE = 0x10 };
typedef struct _CM_PARTIAL_RESOURCE_DESCRIPTOR {
    UCHAR Type, ShareDisposition;
    USHORT Flags;
    union {
        struct { PHYSICAL_ADDRESS Start; ULONG Length; } __attribute__((packed, aligned(4))) Generic, Port, Memory;
        struct { USHORT Level, Group; ULONG Vector; KAFFINITY Affinity; } __attribute__((packed, aligned(4))) Interrupt;
        struct { ULONG Channel, Port, Reserved1; } Dma;
        struct { ULONG Data[3]; } DevicePrivate;
        struct { ULONG Start, Length, Reserved; } BusNumber;
        struct { ULONG DataSize, Reserved1, Reserved2; } DeviceSpecificData;
    } u;
} __attribute__((packed, aligned(4))) CM_PARTIAL_RESOURCE_DESCRIPTOR, *PCM_PARTIAL_RESOURCE_DESCRIPTOR;
typedef struct _CM_PARTIAL_RESOURCE_LIST {
    USHORT Version, Revision;
    ULONG Count;
    CM_PARTIAL_RESOURCE_DESCRIPTOR PartialDescriptors[1];
} CM_PARTIAL_RESOURCE_LIST, *PCM_PARTIAL_RESOURCE_LIST;
typedef struct _CM_FULL_RESOURCE_DESCRIPTOR {
    INTERFACE_TYPE InterfaceType;
    ULONG BusNumber;
    CM_PARTIAL_RESOURCE_LIST PartialResourceList;
} CM_FULL_RESOURCE_DESCRIPTOR, *PCM_FULL_RESOURCE_DESCRIPTOR;
typedef struct _CM_RESOURCE_LIST {
    ULONG Count;
    CM_FULL_RESOURCE_DESCRIPTOR List[1];
} CM_RESOURCE_LIST, *PCM_RESOURCE_LIST;
enum { IO_RESOURCE_PREFERRED = 1, IO_RESOURCE_DEFAULT = 2, IO_RESOURCE_ALTERNATIVE = 8 };
typedef struct _IO_RESOURCE_DESCRIPTOR {
    UCHAR Option, Type, ShareDisposition, Spare1;
    USHORT Flags, Spare2;
    union {
        struct { ULONG Length, Alignment; PHYSICAL_ADDRESS MinimumAddress, MaximumAddress; } Port, Memory, Generic;
        struct { ULONG MinimumVector, MaximumVector; } Interrupt;
        struct { ULONG MinimumChannel, MaximumChannel; } Dma;
        struct { ULONG Data[3]; } DevicePrivate;
        struct { ULONG Length, MinBusNumber, MaxBusNumber, Reserved; } BusNumber;
    } u;
} IO_RESOURCE_DESCRIPTOR, *PIO_RESOURCE_DESCRIPTOR;
typedef struct _IO_RESOURCE_LIST {
    USHORT Version, Revision;
    ULONG Count;
    IO_RESOURCE_DESCRIPTOR Descriptors[1];
} IO_RESOURCE_LIST, *PIO_RESOURCE_LIST;
typedef struct _IO_RESOURCE_REQUIREMENTS_LIST {
    ULONG ListSize;
    INTERFACE_TYPE InterfaceType;
    ULONG BusNumber, SlotNumber, Reserved[3], AlternativeLists;
    IO_RESOURCE_LIST List[1];
} IO_RESOURCE_REQUIREMENTS_LIST, *PIO_RESOURCE_REQUIREMENTS_LIST;
typedef struct _PCI_SLOT_NUMBER {
    union { struct { ULONG DeviceNumber : 5, FunctionNumber : 3, Reserved : 24; } bits; ULONG AsULONG; } u;
} PCI_SLOT_NUMBER, *PPCI_SLOT_NUMBER;

/* Interfaces that IRP_MN_QUERY_INTERFACE fills. */
typedef VOID INTERFACE_REFERENCE(PVOID Context);
typedef VOID INTERFACE_DEREFERENCE(PVOID Context);
typedef INTERFACE_REFERENCE *PINTERFACE_REFERENCE;
typedef INTERFACE_DEREFERENCE *PINTERFACE_DEREFERENCE;
typedef struct _INTERFACE {
    USHORT Size, Version;
    PVOID Context;
    PINTERFACE_REFERENCE InterfaceReference;
    PINTERFACE_DEREFERENCE InterfaceDereference;
} INTERFACE, *PINTERFACE;
typedef ULONG GET_SET_DEVICE_DATA(PVOID Context, ULONG DataType, PVOID Buffer, ULONG Offset, ULONG Length);
typedef GET_SET_DEVICE_DATA *PGET_SET_DEVICE_DATA;
typedef BOOLEAN TRANSLATE_BUS_ADDRESS(PVOID Context, PHYSICAL_ADDRESS Bus, ULONG Length, PULONG Space,
                                      PPHYSICAL_ADDRESS Translated);
typedef TRANSLATE_BUS_ADDRESS *PTRANSLATE_BUS_ADDRESS;
typedef struct _DMA_ADAPTER *GET_DMA_ADAPTER(PVOID Context, PVOID Description, PULONG Registers);
typedef GET_DMA_ADAPTER *PGET_DMA_ADAPTER;
typedef struct _BUS_INTERFACE_STANDARD {
    USHORT Size, Version;
    PVOID Context;
    PINTERFACE_REFERENCE InterfaceReference;
    PINTERFACE_DEREFERENCE InterfaceDereference;
    PTRANSLATE_BUS_ADDRESS TranslateBusAddress;
    PGET_DMA_ADAPTER GetDmaAdapter;
    PGET_SET_DEVICE_DATA SetBusData, GetBusData;
} BUS_INTERFACE_STANDARD, *PBUS_INTERFACE_STANDARD;

/* Properties of devices, and what is told of them. */
typedef enum {
    DevicePropertyDeviceDescription, DevicePropertyHardwareID, DevicePropertyCompatibleIDs,
    DevicePropertyBootConfiguration, DevicePropertyBootConfigurationTranslated, DevicePropertyClassName,
    DevicePropertyClassGuid, DevicePropertyDriverKeyName, DevicePropertyManufacturer, DevicePropertyFriendlyName,
    DevicePropertyLocationInformation, DevicePropertyPhysicalDeviceObjectName, DevicePropertyBusTypeGuid,
    DevicePropertyLegacyBusType, DevicePropertyBusNumber, DevicePropertyEnumeratorName, DevicePropertyAddress,
    DevicePropertyUINumber, DevicePropertyInstallState, DevicePropertyRemovalPolicy, DevicePropertyResourceRequirements,
    DevicePropertyAllocatedResources, DevicePropertyContainerID
} DEVICE_REGISTRY_PROPERTY;
typedef ULONG DEVPROPTYPE, *PDEVPROPTYPE;
typedef struct _DEVPROPKEY { GUID fmtid; ULONG pid; } DEVPROPKEY, *PDEVPROPKEY;
enum { DEVPROP_TYPE_EMPTY, DEVPROP_TYPE_NULL, DEVPROP_TYPE_SBYTE, DEVPROP_TYPE_BYTE, DEVPROP_TYPE_INT16,
       DEVPROP_TYPE_UINT16, DEVPROP_TYPE_INT32, DEVPROP_TYPE_UINT32, DEVPROP_TYPE_INT64, DEVPROP_TYPE_UINT64,
       DEVPROP_TYPE_FLOAT, DEVPROP_TYPE_DOUBLE, DEVPROP_TYPE_DECIMAL, DEVPROP_TYPE_GUID, DEVPROP_TYPE_CURRENCY,
       DEVPROP_TYPE_DATE, DEVPROP_TYPE_FILETIME, DEVPROP_TYPE_BOOLEAN, DEVPROP_TYPE_STRING,
       DEVPROP_TYPEMOD_LIST = 0x2000, DEVPROP_TYPE_STRING_LIST = 0x2012, DEVPROP_TYPE_BINARY = 0x1003 };
#define DEVPROP_TRUE ((CHAR)-1)
#define DEVPROP_FALSE ((CHAR)0)
#define PLUGPLAY_PROPERTY_PERSISTENT 1
#define LOCALE_NEUTRAL 0
#define LOCALE_SYSTEM_DEFAULT 0x800
typedef enum { EventCategoryReserved, EventCategoryHardwareProfileChange, EventCategoryDeviceInterfaceChange,
               EventCategoryTargetDeviceChange } IO_NOTIFICATION_EVENT_CATEGORY;
#define PNPNOTIFY_DEVICE_INTERFACE_INCLUDE_EXISTING_INTERFACES 1
typedef NTSTATUS DRIVER_NOTIFICATION_CALLBACK_ROUTINE(PVOID NotificationStructure, PVOID Context);
typedef DRIVER_NOTIFICATION_CALLBACK_ROUTINE *PDRIVER_NOTIFICATION_CALLBACK_ROUTINE;
typedef struct _PLUGPLAY_NOTIFICATION_HEADER {
    USHORT Version, Size;
    GUID Event;
} PLUGPLAY_NOTIFICATION_HEADER, *PPLUGPLAY_NOTIFICATION_HEADER;
typedef struct _DEVICE_INTERFACE_CHANGE_NOTIFICATION {
    USHORT Version, Size;
    GUID Event, InterfaceClassGuid;
    PUNICODE_STRING SymbolicLinkName;
} DEVICE_INTERFACE_CHANGE_NOTIFICATION, *PDEVICE_INTERFACE_CHANGE_NOTIFICATION;
typedef struct _TARGET_DEVICE_REMOVAL_NOTIFICATION {
    USHORT Version, Size;
    GUID Event;
    struct _FILE_OBJECT *FileObject;
} TARGET_DEVICE_REMOVAL_NOTIFICATION, *PTARGET_DEVICE_REMOVAL_NOTIFICATION;
typedef struct _TARGET_DEVICE_CUSTOM_NOTIFICATION {
    USHORT Version, Size;
    GUID Event;
    struct _FILE_OBJECT *FileObject;
    LONG NameBufferOffset;
    UCHAR CustomDataBuffer[1];
} TARGET_DEVICE_CUSTOM_NOTIFICATION, *PTARGET_DEVICE_CUSTOM_NOTIFICATION;
enum { PLUGPLAY_REGKEY_DEVICE = 1, PLUGPLAY_REGKEY_DRIVER = 2, PLUGPLAY_REGKEY_CURRENT_HWPROFILE = 4 };

#endif
