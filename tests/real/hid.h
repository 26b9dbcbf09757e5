/* hid.h: a HID device of Wine's test bus, by its report descriptor. */
#ifndef TESTS_REAL_HID_H
#define TESTS_REAL_HID_H

#include "common.h"
#include "hidusage.h"
#include "ddk/hidclass.h"
#include "ddk/hidport.h"
#include "driver_hid.h"

static struct hid_device_desc description;
static PDEVICE_OBJECT bus;

/* Starts the bus and makes a device on it. Returns the device, or NULL. */
static inline PDEVICE_OBJECT MakeDevice(const void *report, size_t length, ULONG input_length)
{
    WdmMakeSection(L"\\BaseNamedObjects\\winetest_dinput_section", 4096);
    WdmMakeFile(L"\\??\\C:\\windows\\winetest_dinput_okfile");
    bus = Add(WdmLoadByName("driver_bus"), WdmCreateBottom(FALSE));
    description.attributes = (HID_DEVICE_ATTRIBUTES){ .Size = sizeof description.attributes, .VendorID = 0x1209,
                                                     .ProductID = 1, .VersionNumber = 0x100 };
    description.caps.InputReportByteLength = (USHORT)input_length;
    description.report_descriptor_len = (UINT)length;
    memcpy(description.report_descriptor_buf, report, length);
    if (!bus || Control(bus, IOCTL_WINETEST_CREATE_DEVICE, &description, sizeof description, 0))
        return NULL;
    return Child(bus, 0);
}

/* The device sends a report: what the bus expects is a message of the description and what comes. */
static inline NTSTATUS Input(const BYTE *report, ULONG length)
{
    static struct { struct hid_device_desc device; struct hid_expect expect[1]; } message;
    message.device = description;
    message.expect[0] = (struct hid_expect){ .code = IOCTL_HID_READ_REPORT, .report_len = length, .ret_length = length };
    memcpy(message.expect[0].report_buf, report, length);
    return Control(bus, IOCTL_WINETEST_HID_SEND_INPUT, &message, sizeof message, 0);
}

#endif
