/* wdm_hid.h: what drivers of human interface devices share with the HID class driver and the HID parser: names, values
   and layouts. The functions are those of the class driver and the parser, which the host doesn't have. */
#ifndef WDM_HID_H
#define WDM_HID_H

#include "wdm.h"

/* Control codes: of the class driver, and between it and its minidrivers. */
#define HID_CTL_CODE(id) CTL_CODE(FILE_DEVICE_KEYBOARD, (id), METHOD_NEITHER, FILE_ANY_ACCESS)
#define HID_BUFFER_CTL_CODE(id) CTL_CODE(FILE_DEVICE_KEYBOARD, (id), METHOD_BUFFERED, FILE_ANY_ACCESS)
#define HID_IN_CTL_CODE(id) CTL_CODE(FILE_DEVICE_KEYBOARD, (id), METHOD_IN_DIRECT, FILE_ANY_ACCESS)
#define HID_OUT_CTL_CODE(id) CTL_CODE(FILE_DEVICE_KEYBOARD, (id), METHOD_OUT_DIRECT, FILE_ANY_ACCESS)
#define IOCTL_HID_GET_DEVICE_DESCRIPTOR HID_CTL_CODE(0)
#define IOCTL_HID_GET_REPORT_DESCRIPTOR HID_CTL_CODE(1)
#define IOCTL_HID_READ_REPORT HID_CTL_CODE(2)
#define IOCTL_HID_WRITE_REPORT HID_CTL_CODE(3)
#define IOCTL_HID_GET_STRING HID_CTL_CODE(4)
#define IOCTL_HID_ACTIVATE_DEVICE HID_CTL_CODE(7)
#define IOCTL_HID_DEACTIVATE_DEVICE HID_CTL_CODE(8)
#define IOCTL_HID_GET_DEVICE_ATTRIBUTES HID_CTL_CODE(9)
#define IOCTL_HID_SEND_IDLE_NOTIFICATION_REQUEST HID_CTL_CODE(10)
#define IOCTL_HID_GET_COLLECTION_DESCRIPTOR HID_CTL_CODE(100)
#define IOCTL_HID_FLUSH_QUEUE HID_CTL_CODE(101)
#define IOCTL_HID_GET_DRIVER_CONFIG HID_BUFFER_CTL_CODE(100)
#define IOCTL_HID_SET_DRIVER_CONFIG HID_BUFFER_CTL_CODE(101)
#define IOCTL_HID_GET_POLL_FREQUENCY_MSEC HID_BUFFER_CTL_CODE(102)
#define IOCTL_HID_SET_POLL_FREQUENCY_MSEC HID_BUFFER_CTL_CODE(103)
#define IOCTL_GET_NUM_DEVICE_INPUT_BUFFERS HID_BUFFER_CTL_CODE(104)
#define IOCTL_SET_NUM_DEVICE_INPUT_BUFFERS HID_BUFFER_CTL_CODE(105)
#define IOCTL_HID_GET_COLLECTION_INFORMATION HID_BUFFER_CTL_CODE(106)
#define IOCTL_HID_SET_FEATURE HID_IN_CTL_CODE(100)
#define IOCTL_HID_SET_OUTPUT_REPORT HID_IN_CTL_CODE(101)
#define IOCTL_HID_GET_FEATURE HID_OUT_CTL_CODE(100)
#define IOCTL_GET_PHYSICAL_DESCRIPTOR HID_OUT_CTL_CODE(102)
#define IOCTL_HID_GET_HARDWARE_ID HID_OUT_CTL_CODE(103)
#define IOCTL_HID_GET_INPUT_REPORT HID_OUT_CTL_CODE(104)
#define IOCTL_HID_GET_MANUFACTURER_STRING HID_OUT_CTL_CODE(110)
#define IOCTL_HID_GET_PRODUCT_STRING HID_OUT_CTL_CODE(111)
#define IOCTL_HID_GET_SERIALNUMBER_STRING HID_OUT_CTL_CODE(112)
#define IOCTL_HID_GET_INDEXED_STRING HID_OUT_CTL_CODE(120)

#define HID_REVISION 1
#define HID_HID_DESCRIPTOR_TYPE 0x21
#define HID_REPORT_DESCRIPTOR_TYPE 0x22
#define HID_PHYSICAL_DESCRIPTOR_TYPE 0x23
#define HID_STRING_ID_IMANUFACTURER 14
#define HID_STRING_ID_IPRODUCT 15
#define HID_STRING_ID_ISERIALNUMBER 16

typedef struct _HID_XFER_PACKET { PUCHAR reportBuffer; ULONG reportBufferLen; UCHAR reportId; }
    HID_XFER_PACKET, *PHID_XFER_PACKET;
typedef struct _HID_COLLECTION_INFORMATION {
    ULONG DescriptorSize;
    BOOLEAN Polled;
    UCHAR Reserved1[1];
    USHORT VendorID, ProductID, VersionNumber;
} HID_COLLECTION_INFORMATION, *PHID_COLLECTION_INFORMATION;
typedef struct _HID_DEVICE_ATTRIBUTES { ULONG Size; USHORT VendorID, ProductID, VersionNumber, Reserved[11]; }
    HID_DEVICE_ATTRIBUTES, *PHID_DEVICE_ATTRIBUTES;
#pragma pack(push, 1)
typedef struct _HID_DESCRIPTOR {
    UCHAR bLength, bDescriptorType;
    USHORT bcdHID;
    UCHAR bCountry, bNumDescriptors;
    struct _HID_DESCRIPTOR_DESC_LIST { UCHAR bReportType; USHORT wReportLength; } DescriptorList[1];
} HID_DESCRIPTOR, *PHID_DESCRIPTOR;
#pragma pack(pop)

/* A minidriver registers with the class driver, which has the driver's dispatches then. */
typedef struct _HID_MINIDRIVER_REGISTRATION {
    ULONG Revision;
    PDRIVER_OBJECT DriverObject;
    PUNICODE_STRING RegistryPath;
    ULONG DeviceExtensionSize;
    BOOLEAN DevicesArePolled;
    UCHAR Reserved[3];
} HID_MINIDRIVER_REGISTRATION, *PHID_MINIDRIVER_REGISTRATION;
typedef struct _HID_DEVICE_EXTENSION {
    PDEVICE_OBJECT PhysicalDeviceObject, NextDeviceObject;
    PVOID MiniDeviceExtension;
} HID_DEVICE_EXTENSION, *PHID_DEVICE_EXTENSION;
NTSTATUS HidRegisterMinidriver(PHID_MINIDRIVER_REGISTRATION Registration);

/* Usages: pages, and of each page those that drivers ask for. */
typedef USHORT USAGE, *PUSAGE;
typedef struct _USAGE_AND_PAGE { USAGE Usage, UsagePage; } USAGE_AND_PAGE, *PUSAGE_AND_PAGE;
#define HID_USAGE_PAGE_UNDEFINED ((USAGE)0x00)
#define HID_USAGE_PAGE_GENERIC ((USAGE)0x01)
#define HID_USAGE_PAGE_SIMULATION ((USAGE)0x02)
#define HID_USAGE_PAGE_VR ((USAGE)0x03)
#define HID_USAGE_PAGE_SPORT ((USAGE)0x04)
#define HID_USAGE_PAGE_GAME ((USAGE)0x05)
#define HID_USAGE_PAGE_KEYBOARD ((USAGE)0x07)
#define HID_USAGE_PAGE_LED ((USAGE)0x08)
#define HID_USAGE_PAGE_BUTTON ((USAGE)0x09)
#define HID_USAGE_PAGE_ORDINAL ((USAGE)0x0a)
#define HID_USAGE_PAGE_TELEPHONY ((USAGE)0x0b)
#define HID_USAGE_PAGE_CONSUMER ((USAGE)0x0c)
#define HID_USAGE_PAGE_DIGITIZER ((USAGE)0x0d)
#define HID_USAGE_GENERIC_POINTER ((USAGE)0x01)
#define HID_USAGE_GENERIC_MOUSE ((USAGE)0x02)
#define HID_USAGE_GENERIC_JOYSTICK ((USAGE)0x04)
#define HID_USAGE_GENERIC_GAMEPAD ((USAGE)0x05)
#define HID_USAGE_GENERIC_KEYBOARD ((USAGE)0x06)
#define HID_USAGE_GENERIC_KEYPAD ((USAGE)0x07)
#define HID_USAGE_GENERIC_X ((USAGE)0x30)
#define HID_USAGE_GENERIC_Y ((USAGE)0x31)
#define HID_USAGE_GENERIC_Z ((USAGE)0x32)
#define HID_USAGE_GENERIC_RX ((USAGE)0x33)
#define HID_USAGE_GENERIC_RY ((USAGE)0x34)
#define HID_USAGE_GENERIC_RZ ((USAGE)0x35)
#define HID_USAGE_GENERIC_SLIDER ((USAGE)0x36)
#define HID_USAGE_GENERIC_DIAL ((USAGE)0x37)
#define HID_USAGE_GENERIC_WHEEL ((USAGE)0x38)
#define HID_USAGE_GENERIC_HATSWITCH ((USAGE)0x39)
#define HID_USAGE_CONSUMERCTRL ((USAGE)0x01)
#define HID_USAGE_DIGITIZER_TIP_SWITCH ((USAGE)0x42)

/* The parser. */
typedef enum _HIDP_REPORT_TYPE { HidP_Input, HidP_Output, HidP_Feature } HIDP_REPORT_TYPE;
typedef struct _HIDP_PREPARSED_DATA *PHIDP_PREPARSED_DATA;
typedef UCHAR *PHIDP_REPORT_DESCRIPTOR;
typedef struct _HIDP_CAPS {
    USAGE Usage, UsagePage;
    USHORT InputReportByteLength, OutputReportByteLength, FeatureReportByteLength, Reserved[17];
    USHORT NumberLinkCollectionNodes;
    USHORT NumberInputButtonCaps, NumberInputValueCaps, NumberInputDataIndices;
    USHORT NumberOutputButtonCaps, NumberOutputValueCaps, NumberOutputDataIndices;
    USHORT NumberFeatureButtonCaps, NumberFeatureValueCaps, NumberFeatureDataIndices;
} HIDP_CAPS, *PHIDP_CAPS;
#define WDM_HID_RANGE \
    union { \
        struct { \
            USAGE UsageMin, UsageMax; \
            USHORT StringMin, StringMax, DesignatorMin, DesignatorMax, DataIndexMin, DataIndexMax; \
        } Range; \
        struct { \
            USAGE Usage, Reserved1; \
            USHORT StringIndex, Reserved2, DesignatorIndex, Reserved3, DataIndex, Reserved4; \
        } NotRange; \
    }
typedef struct _HIDP_BUTTON_CAPS {
    USAGE UsagePage;
    UCHAR ReportID;
    BOOLEAN IsAlias;
    USHORT BitField, LinkCollection;
    USAGE LinkUsage, LinkUsagePage;
    BOOLEAN IsRange, IsStringRange, IsDesignatorRange, IsAbsolute;
    USHORT ReportCount, Reserved2;
    ULONG Reserved[9];
    WDM_HID_RANGE;
} HIDP_BUTTON_CAPS, *PHIDP_BUTTON_CAPS;
typedef struct _HIDP_VALUE_CAPS {
    USAGE UsagePage;
    UCHAR ReportID;
    BOOLEAN IsAlias;
    USHORT BitField, LinkCollection;
    USAGE LinkUsage, LinkUsagePage;
    BOOLEAN IsRange, IsStringRange, IsDesignatorRange, IsAbsolute, HasNull;
    UCHAR Reserved;
    USHORT BitSize, ReportCount, Reserved2[5];
    ULONG UnitsExp, Units;
    LONG LogicalMin, LogicalMax, PhysicalMin, PhysicalMax;
    WDM_HID_RANGE;
} HIDP_VALUE_CAPS, *PHIDP_VALUE_CAPS;
typedef struct _HIDP_LINK_COLLECTION_NODE {
    USAGE LinkUsage, LinkUsagePage;
    USHORT Parent, NumberOfChildren, NextSibling, FirstChild;
    ULONG CollectionType : 8, IsAlias : 1, Reserved : 23;
    PVOID UserContext;
} HIDP_LINK_COLLECTION_NODE, *PHIDP_LINK_COLLECTION_NODE;
typedef struct _HIDP_DATA { USHORT DataIndex, Reserved; union { ULONG RawValue; BOOLEAN On; }; } HIDP_DATA, *PHIDP_DATA;
typedef struct _HIDP_UNKNOWN_TOKEN { UCHAR Token, Reserved[3]; ULONG BitField; }
    HIDP_UNKNOWN_TOKEN, *PHIDP_UNKNOWN_TOKEN;
typedef struct _HIDP_EXTENDED_ATTRIBUTES {
    UCHAR NumGlobalUnknowns, Reserved[3];
    PHIDP_UNKNOWN_TOKEN GlobalUnknowns;
    ULONG Data[1];
} HIDP_EXTENDED_ATTRIBUTES, *PHIDP_EXTENDED_ATTRIBUTES;
typedef enum _HIDP_KEYBOARD_DIRECTION { HidP_Keyboard_Break, HidP_Keyboard_Make } HIDP_KEYBOARD_DIRECTION;
typedef struct _HIDP_KEYBOARD_MODIFIER_STATE {
    union {
        struct {
            ULONG LeftControl : 1, RightControl : 1, LeftShift : 1, RightShift : 1, LeftAlt : 1, RightAlt : 1;
            ULONG LeftGUI : 1, RightGUI : 1, CapsLock : 1, ScollLock : 1, NumLock : 1, Reserved : 21;
        };
        ULONG ul;
    };
} HIDP_KEYBOARD_MODIFIER_STATE, *PHIDP_KEYBOARD_MODIFIER_STATE;
typedef BOOLEAN (*PHIDP_INSERT_SCANCODES)(PVOID Context, PCHAR Codes, ULONG Length);
typedef struct _HIDP_COLLECTION_DESC {
    USAGE UsagePage, Usage;
    UCHAR CollectionNumber, Reserved[15];
    USHORT InputLength, OutputLength, FeatureLength, PreparsedDataLength;
    PHIDP_PREPARSED_DATA PreparsedData;
} HIDP_COLLECTION_DESC, *PHIDP_COLLECTION_DESC;
typedef struct _HIDP_REPORT_IDS { UCHAR ReportID, CollectionNumber; USHORT InputLength, OutputLength, FeatureLength; }
    HIDP_REPORT_IDS, *PHIDP_REPORT_IDS;
typedef struct _HIDP_GETCOLDESC_DBG { ULONG BreakOffset, ErrorCode, Args[6]; }
    HIDP_GETCOLDESC_DBG, *PHIDP_GETCOLDESC_DBG;
typedef struct _HIDP_DEVICE_DESC {
    PHIDP_COLLECTION_DESC CollectionDesc;
    ULONG CollectionDescLength;
    PHIDP_REPORT_IDS ReportIDs;
    ULONG ReportIDsLength;
    HIDP_GETCOLDESC_DBG Dbg;
} HIDP_DEVICE_DESC, *PHIDP_DEVICE_DESC;

#define HIDP_STATUS_SUCCESS ((NTSTATUS)0x00110000)
#define HIDP_STATUS_NULL ((NTSTATUS)0x80110001)
#define HIDP_STATUS_INVALID_PREPARSED_DATA ((NTSTATUS)0xC0110001)
#define HIDP_STATUS_INVALID_REPORT_TYPE ((NTSTATUS)0xC0110002)
#define HIDP_STATUS_INVALID_REPORT_LENGTH ((NTSTATUS)0xC0110003)
#define HIDP_STATUS_USAGE_NOT_FOUND ((NTSTATUS)0xC0110004)
#define HIDP_STATUS_VALUE_OUT_OF_RANGE ((NTSTATUS)0xC0110005)
#define HIDP_STATUS_BAD_LOG_PHY_VALUES ((NTSTATUS)0xC0110006)
#define HIDP_STATUS_BUFFER_TOO_SMALL ((NTSTATUS)0xC0110007)
#define HIDP_STATUS_INTERNAL_ERROR ((NTSTATUS)0xC0110008)
#define HIDP_STATUS_I8042_TRANS_UNKNOWN ((NTSTATUS)0xC0110009)
#define HIDP_STATUS_INCOMPATIBLE_REPORT_ID ((NTSTATUS)0xC011000A)
#define HIDP_STATUS_NOT_VALUE_ARRAY ((NTSTATUS)0xC011000B)
#define HIDP_STATUS_IS_VALUE_ARRAY ((NTSTATUS)0xC011000C)
#define HIDP_STATUS_DATA_INDEX_NOT_FOUND ((NTSTATUS)0xC011000D)
#define HIDP_STATUS_DATA_INDEX_OUT_OF_RANGE ((NTSTATUS)0xC011000E)
#define HIDP_STATUS_BUTTON_NOT_PRESSED ((NTSTATUS)0xC011000F)
#define HIDP_STATUS_REPORT_DOES_NOT_EXIST ((NTSTATUS)0xC0110010)

NTSTATUS HidP_GetCollectionDescription(PHIDP_REPORT_DESCRIPTOR Descriptor, ULONG Length, POOL_TYPE Pool,
                                       PHIDP_DEVICE_DESC Device);
VOID HidP_FreeCollectionDescription(PHIDP_DEVICE_DESC Device);
NTSTATUS HidP_GetCaps(PHIDP_PREPARSED_DATA Data, PHIDP_CAPS Caps);
NTSTATUS HidP_GetButtonCaps(HIDP_REPORT_TYPE Type, PHIDP_BUTTON_CAPS Caps, PUSHORT Count, PHIDP_PREPARSED_DATA Data);
NTSTATUS HidP_GetValueCaps(HIDP_REPORT_TYPE Type, PHIDP_VALUE_CAPS Caps, PUSHORT Count, PHIDP_PREPARSED_DATA Data);
NTSTATUS HidP_GetLinkCollectionNodes(PHIDP_LINK_COLLECTION_NODE Nodes, PULONG Count, PHIDP_PREPARSED_DATA Data);
NTSTATUS HidP_GetSpecificButtonCaps(HIDP_REPORT_TYPE Type, USAGE Page, USHORT Collection, USAGE Usage,
                                    PHIDP_BUTTON_CAPS Caps, PUSHORT Count, PHIDP_PREPARSED_DATA Data);
NTSTATUS HidP_GetSpecificValueCaps(HIDP_REPORT_TYPE Type, USAGE Page, USHORT Collection, USAGE Usage,
                                   PHIDP_VALUE_CAPS Caps, PUSHORT Count, PHIDP_PREPARSED_DATA Data);
NTSTATUS HidP_GetUsages(HIDP_REPORT_TYPE Type, USAGE Page, USHORT Collection, PUSAGE Usages, PULONG Count,
                        PHIDP_PREPARSED_DATA Data, PCHAR Report, ULONG Length);
NTSTATUS HidP_GetUsagesEx(HIDP_REPORT_TYPE Type, USHORT Collection, PUSAGE_AND_PAGE Usages, PULONG Count,
                          PHIDP_PREPARSED_DATA Data, PCHAR Report, ULONG Length);
NTSTATUS HidP_SetUsages(HIDP_REPORT_TYPE Type, USAGE Page, USHORT Collection, PUSAGE Usages, PULONG Count,
                        PHIDP_PREPARSED_DATA Data, PCHAR Report, ULONG Length);
NTSTATUS HidP_SetUsageValue(HIDP_REPORT_TYPE Type, USAGE Page, USHORT Collection, USAGE Usage, ULONG Value,
                            PHIDP_PREPARSED_DATA Data, PCHAR Report, ULONG Length);
ULONG HidP_MaxUsageListLength(HIDP_REPORT_TYPE Type, USAGE Page, PHIDP_PREPARSED_DATA Data);
NTSTATUS HidP_GetUsageValue(HIDP_REPORT_TYPE Type, USAGE Page, USHORT Collection, USAGE Usage, PULONG Value,
                            PHIDP_PREPARSED_DATA Data, PCHAR Report, ULONG Length);

#endif
